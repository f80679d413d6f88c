print(open("../../../examples/clients.list").read(), end="")
