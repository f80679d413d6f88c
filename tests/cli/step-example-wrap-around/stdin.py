print(open("../../../examples/wrap-around.step").read(), end="")
