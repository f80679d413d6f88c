# The lines of 17 pages through which 1 MiB went, and these bytes.
for page in range(1, 18):
    print("page", page, 1 << 20, 1 << 20)
print("bytes", (bytes(k * 7 % 256 for k in range(1 << 16)) * 16).hex())
