print("open 10 11")
print("client write", "61" * 1025)
print("client write 62")
