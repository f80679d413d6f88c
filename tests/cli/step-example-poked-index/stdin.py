print(open("../../../examples/poked-index.step").read(), end="")
