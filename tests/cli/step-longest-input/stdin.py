print(" " * 4194304, end="")
