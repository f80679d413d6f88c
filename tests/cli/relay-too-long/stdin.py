# One byte more than is read.
print("z" * 4194304)
