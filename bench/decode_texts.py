"""FOLDER LINES: makes the texts and slots of bench/decode.sh, which tells what is in them."""
import os
import random
import struct
import sys

folder, lines = sys.argv[1], int(sys.argv[2])
draw = random.Random(1)


def entry(key, value):
    return key + struct.pack(">I", len(value)) + value


def number(n):
    return struct.pack(">q", n)


def state():
    fields = [
        entry(b"tmln", number(draw.randrange(60060, 3000001)) + number(draw.randrange(-2**60, 2**60)) + number(draw.randrange(-2**60, 2**60))),
        entry(b"sess", bytes(draw.randrange(33, 127) for _ in range(8))),
        entry(b"stst", bytes([draw.randrange(2)]) + number(draw.randrange(2**40)) + number(draw.randrange(2**40))),
        entry(b"mep4", bytes(draw.randrange(256) for _ in range(6))),
    ]
    return b"".join(fields)


def datagram(k):
    discovery = lambda kind: b"_asdp_v\x01" + bytes([kind, 5, 0, 0]) + b"PEER%04d" % (k % 10000)
    kind = k % 6
    if kind == 0:
        return discovery(1) + state()
    if kind == 1:
        return discovery(2) + state()
    if kind == 2:
        return b"_link_v\x01\x01" + entry(b"__ht", number(k)) + entry(b"_pgt", number(2 * k))
    if kind == 3:
        return b"_link_v\x01\x02" + entry(b"sess", b"PEER%04d" % (k % 10000)) + entry(b"__gt", number(3 * k)) + entry(b"__ht", number(k))
    if kind == 4:
        return discovery(3)
    whole = bytearray(discovery(1) + state())
    whole[draw.randrange(len(whole))] ^= 1 << draw.randrange(8)
    return bytes(whole[: draw.randrange(1, len(whole) + 1)])


text, size, count = [], 0, 0


def keep():
    with open(os.path.join(folder, "texts", f"{count:06}"), "w") as kept:
        kept.write("".join(text))


with open(os.path.join(folder, "slots"), "wb") as slots:
    for k in range(lines):
        given = datagram(k)
        if k < 10_000:
            slots.write((struct.pack(">H", len(given)) + given).ljust(600, b"\0"))
        line = given.hex() + "\n"
        if size + len(line) > 16_000_000:
            keep()
            text, size, count = [], 0, count + 1
        text.append(line)
        size += len(line)
keep()
