print("open 10 11")
print("server read 0\n" * 65535, end="")
