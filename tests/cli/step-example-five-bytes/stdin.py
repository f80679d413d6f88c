print(open("../../../examples/five-bytes.step").read(), end="")
