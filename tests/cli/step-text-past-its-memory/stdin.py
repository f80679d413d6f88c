print("open 20 10")
for number in range(400):
    print(f"client poke left_prod {(number + 1) * 1048576 % 2**32}")
    print("server read 1048576")
