import sys

sys.stdout.write('#' * 4194305)
