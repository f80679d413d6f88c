print(open("../../../examples/line.txt").read(), end="")
