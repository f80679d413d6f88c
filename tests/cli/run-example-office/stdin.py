print(open("../../../examples/office.toml").read(), end="")
