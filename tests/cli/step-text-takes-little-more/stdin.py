# A text of 138 MB, whose room was 268 MB while it doubled.
print("open 20 10")
for number in range(66):
    print(f"client poke left_prod {(number + 1) * 1048576 % 2**32}")
    print("server read 1048576")
