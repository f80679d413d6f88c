print(open("../../../examples/read-in-parts.step").read(), end="")
