print(open("../../../examples/hello-and-exit.stream").read(), end="")
