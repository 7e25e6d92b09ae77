#!/usr/bin/env python3
"""Changes one byte of what `ratelimit drive` printed, for tests/stress.sh.

Usage: stress_byte.py SEED OUTPUT CHANGED

The place and the new byte come of the seed: a digit becomes another digit, any other byte but a line feed another letter or sign.
"""
import random
import sys


def main():
    rng = random.Random(int(sys.argv[1]))
    with open(sys.argv[2], "rb") as file:
        text = bytearray(file.read())
    place = rng.randrange(len(text))
    while text[place] == 10:
        place = rng.randrange(len(text))
    others = b"0123456789" if chr(text[place]).isdigit() else bytes(range(32, 127))
    text[place] = rng.choice([byte for byte in others if byte != text[place]])
    with open(sys.argv[3], "wb") as file:
        file.write(text)
    return 0


sys.exit(main())
