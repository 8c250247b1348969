"""FOLDER PAIRS: makes the texts of bench/filter.sh, which tells what is in them."""
import os
import random
import sys

from scripts import SESSION, state

folder, pairs = sys.argv[1], int(sys.argv[2])
draw = random.Random(1)
text, size, count = [], 0, 0


def alives():
    """As many as there is room for, and a line of zeros for the rest, so that no byte is missing."""
    left = size
    for k in range(size):
        line = state(1, b"PEER%04d" % (k % 10_000), SESSION, k, 10_000 + k % 50_000) + "\n"
        if len(line) > left:
            break
        left -= len(line)
        yield line
    yield ("0" * (left - 1 - (left - 1) % 2) + "\n") if left else ""


def keep():
    for name, lines in (("pairs", text), ("alives", alives())):
        with open(os.path.join(folder, name, f"{count:06}"), "w") as kept:
            kept.writelines(lines)


for k in range(pairs):
    line = f"{256 * k} {256_000_000 * k // 48_000 + int(4000 * draw.random() ** 3)}\n"
    if size + len(line) > 16_000_000:
        keep()
        text, size, count = [], 0, count + 1
    text.append(line)
    size += len(line)
keep()
