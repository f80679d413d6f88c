print("#\n" * 65536 + "call 61\n", end="")
