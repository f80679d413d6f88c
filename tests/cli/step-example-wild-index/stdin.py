print(open("../../../examples/wild-index.step").read(), end="")
