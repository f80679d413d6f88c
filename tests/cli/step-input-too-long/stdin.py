print(" " * 4194305, end="")
