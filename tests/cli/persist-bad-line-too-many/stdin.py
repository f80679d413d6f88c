print("#\n" * 65536 + "call 6\n", end="")
