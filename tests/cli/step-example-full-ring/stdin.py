print(open("../../../examples/full-ring.step").read(), end="")
