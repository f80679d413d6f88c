# Just 4,194,305 bytes: one more than the longest script, a last line feed.
print("open 20 10")
print("client write", "61" * 2097140)
