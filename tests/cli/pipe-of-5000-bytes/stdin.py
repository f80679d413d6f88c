# 5,000 bytes of all values.
import sys

sys.stdout.buffer.write(bytes(k * 7 % 256 for k in range(5000)))
