print("server empty 0 0\n" * 65535, end="")
print("left sent 0 got 0")
print("right sent 0 got 0")
