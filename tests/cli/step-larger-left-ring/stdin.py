print("open 11 10")
print("client write", "61" * 2048)
print("client write 62")
