for client in range(1, 4097):
    print(f"client {client} done 0 61 -")
print("clients 4096")
