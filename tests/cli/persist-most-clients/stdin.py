print("call 61\n" * 4096, end="")
