print("call 61*2097152\n" * 4 + "call 61\n" * 2, end="")
