# Just 4,194,304 bytes: 11 of the first line, 13 of the second one's words, and two for each byte.
print("open 20 10")
print("client write", "61" * 2097140, end="")
