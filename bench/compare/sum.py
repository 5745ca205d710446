# The loop of bench/guests/L.java as often as the word says, in Python, where the sum is cut to 32 bits by hand.
import sys

total = 0
for n in range(int(sys.argv[1])):
    total = (total * 31 + n) & 0xFFFFFFFF
print(total)
