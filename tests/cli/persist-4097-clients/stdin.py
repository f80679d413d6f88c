print("call 61\n" * 4097, end="")
