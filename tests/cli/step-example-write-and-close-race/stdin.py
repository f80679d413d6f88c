print(open("../../../examples/write-and-close-race.step").read(), end="")
