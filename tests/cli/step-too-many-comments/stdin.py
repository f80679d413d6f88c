print("open 10 11")
print("#\n" * 65536, end="")
