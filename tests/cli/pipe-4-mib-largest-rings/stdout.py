# 4,194,304 bytes, the most that is read.
import sys

sys.stdout.buffer.write(bytes(k * k % 251 for k in range(1 << 16)) * 64)
