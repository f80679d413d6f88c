print(open("../../../examples/hostile-office.toml").read(), end="")
