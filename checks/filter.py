#!/usr/bin/env python3
"""Compares the built program's `filter` with a plain reading of its rules: checks/filter.py PROGRAM [SEED].

The plain reading keeps the pairs and fits the line to them anew for each one that is taken, in exact fractions. Texts are drawn from the
seed (1 where not given): steady callbacks with jitter, blocks that drop out, host clocks that jump, samples that go back, numbers near
2^60, pairs of which the line ends at a half, pairs spread as wide as they may be, and distances of 2^31, one less and one more while 512
pairs are kept. Beside them texts whose output was worked out by hand, which the plain reading has to give too, and texts at fault, with the
first line at fault. Compared are exit status, standard output, and of standard error the line that it names first, or that it is empty. A
case of REACHED that no text reaches is a failure. The first text that differs is shortened and printed. The last line is 'N passed, N
failed'.
"""
import random
import re
import sys
from collections import Counter
from fractions import Fraction
from operator import mul

sys.dont_write_bytecode = True
import common  # noqa: E402

LIMIT, FAR, KEPT = 2**60, 2**31, 512
LONGEST = 16_777_216
NUMBER = re.compile(rb"0|-?[1-9][0-9]*")
REACHED = (
    "late, late behind a far pair, late and far, far by sample, far by host above, far by host below, far by both, far and not from the oldest, "
    "far twice over, far but for the oldest of 512, oldest dropped, as far as it may be by sample, as far as it may be by host, wide in samples, "
    "wide in hosts, half above the oldest, half below the oldest, half that goes towards 0, rounded up, rounded down, whole, negative, beyond the range"
).split(", ")


# The plain reading.


class Fault(Exception):
    """The first line at fault."""


def number(word):
    if not NUMBER.fullmatch(word) or not -LIMIT <= int(word) <= LIMIT:
        raise ValueError
    return int(word)


def pairs_of(text):
    lines = text.split(b"\n")
    if lines[-1] == b"":
        lines.pop()
    pairs = []
    for count, line in enumerate(lines, 1):
        try:
            sample, host = map(number, line.split(b" "))
        except ValueError:
            raise Fault(count) from None
        pairs.append((sample, host))
    return pairs


def fitted(pairs):
    """How far the least squares line is above the oldest's host time at the newest sample. It goes through the middle of the pairs."""
    count, (ground, low), newest = len(pairs), pairs[0], pairs[-1][0]
    if count == 1:
        return Fraction(0)
    samples, hosts = [sample - ground for sample, _ in pairs], [host - low for _, host in pairs]
    middle, height = sum(samples), sum(hosts)
    apart = [count * sample - middle for sample in samples]
    slope = Fraction(sum(map(mul, apart, hosts)), sum(map(mul, apart, samples)))
    return Fraction(height, count) + slope * (newest - ground - Fraction(middle, count))


def nearest(value, reached):
    """The nearest whole number, halves away from 0."""
    size = int(abs(value) + Fraction(1, 2))
    if value.denominator == 2:
        reached["half above the oldest" if value > 0 else "half below the oldest"] += 1
    reached["whole" if size == abs(value) else "rounded up" if (size > abs(value)) == (value > 0) else "rounded down"] += 1
    return size if value >= 0 else -size


def is_far(pair, sample, host):
    return sample - pair[0] > FAR or abs(host - pair[1]) > FAR


def count_far(far, kept, sample, host, reached):
    by_sample, by_host = sample - far[0] > FAR, abs(host - far[1]) > FAR
    above = "far by host above" if host > far[1] else "far by host below"
    reached["far by both" if by_sample and by_host else "far by sample" if by_sample else above] += 1
    reached["far and not from the oldest"] += far != kept[0]
    reached["far twice over"] += sum(is_far(pair, sample, host) for pair in kept) > 1


def output_of(pairs, reached):
    kept, lines, refused = [], [], 0
    for sample, host in pairs:
        behind = lines[-1][0] == "f" if lines else False
        if kept and sample <= kept[-1][0]:
            reached["late"] += 1
            reached["late behind a far pair"] += behind
            reached["late and far"] += abs(host - kept[-1][1]) > FAR
            lines.append(f"late {kept[-1][0]}\n")
            refused += 1
            continue
        stay = kept[1:] if len(kept) == KEPT else kept
        far = next((pair for pair in stay if is_far(pair, sample, host)), None)
        if far:
            count_far(far, kept, sample, host, reached)
            lines.append(f"far {far[0]} {far[1]}\n")
            refused += 1
            continue
        if len(stay) < len(kept):
            reached["oldest dropped"] += 1
            reached["far but for the oldest of 512"] += is_far(kept[0], sample, host)
        if stay:
            reached["as far as it may be by sample"] += sample - stay[0][0] == FAR
            reached["as far as it may be by host"] += any(abs(host - other) == FAR for _, other in stay)
        if len(stay) >= 100:
            reached["wide in samples"] += sample - stay[0][0] > FAR // 2
            reached["wide in hosts"] += abs(host - stay[0][1]) > FAR // 2
        kept = [*stay, (sample, host)]
        # Rounded is how far it is from the oldest's host time, so a half goes away from that.
        smooth = kept[0][1] + nearest(fitted(kept), reached)
        reached["negative"] += smooth < 0
        reached["beyond the range"] += abs(smooth) > LIMIT
        reached["half that goes towards 0"] += (kept[0][1] + fitted(kept)).denominator == 2 and abs(smooth) < abs(kept[0][1] + fitted(kept))
        lines.append(f"host {smooth}\n")
    return "".join(lines) + f"done {len(pairs)} {refused}\n"


def wanted(text, reached):
    try:
        return 0, output_of(pairs_of(text), reached), None
    except Fault as fault:
        return 8, "", fault.args[0]


# What was worked out by hand.


def written(pairs):
    return b"".join(b"%d %d\n" % pair for pair in pairs)


# At the last of three samples that follow on each other the line is a sixth of -1, 2 and 5 times the host times; at the last of four a
# tenth of -2, 1, 4 and 7 times; at the last of the samples 0, 1 and 3 a fourteenth of -2, 3 and 13 times.
WORKED = [
    (b"", "done 0 0\n"),
    (b"0 0", "host 0\ndone 1 0\n"),
    (b"-5 -7\n", "host -7\ndone 1 0\n"),
    (
        b"0 0\n512 11610\n1024 23000\n512 30000\n2147483649 0\n",
        "host 0\nhost 11610\nhost 23037\nlate 1024\nfar 0 0\ndone 5 2\n",
    ),
    # Two pairs are on their line.
    (b"7 100\n9 -100\n", "host 100\nhost -100\ndone 2 0\n"),
    # 10/3, then 8.
    (b"0 0\n1 10\n2 0\n3 10\n", "host 0\nhost 10\nhost 3\nhost 8\ndone 4 0\n"),
    # Samples below 0.
    (b"-3 0\n-2 10\n-1 0\n0 10", "host 0\nhost 10\nhost 3\nhost 8\ndone 4 0\n"),
    # 1/3 and -1/3, 2/3 and -2/3.
    (b"0 0\n1 1\n2 0\n", "host 0\nhost 1\nhost 0\ndone 3 0\n"),
    (b"0 0\n1 -1\n2 0\n", "host 0\nhost -1\nhost 0\ndone 3 0\n"),
    (b"0 -4\n1 0\n2 0\n", "host -4\nhost 0\nhost 1\ndone 3 0\n"),
    (b"0 4\n1 0\n2 0\n", "host 4\nhost 0\nhost -1\ndone 3 0\n"),
    # 1/2 and -1/2, 3/2 and -3/2, 5/2 and -5/2.
    (b"0 -3\n1 0\n2 0\n", "host -3\nhost 0\nhost 1\ndone 3 0\n"),
    (b"0 3\n1 0\n2 0\n", "host 3\nhost 0\nhost -1\ndone 3 0\n"),
    (b"0 -9\n1 0\n2 0\n", "host -9\nhost 0\nhost 2\ndone 3 0\n"),
    (b"0 9\n1 0\n2 0\n", "host 9\nhost 0\nhost -2\ndone 3 0\n"),
    (b"0 0\n1 0\n2 3\n", "host 0\nhost 0\nhost 3\ndone 3 0\n"),
    (b"0 0\n1 0\n2 -3\n", "host 0\nhost 0\nhost -3\ndone 3 0\n"),
    # -1, 3, 13, and 3/2 and -3/2.
    (b"0 7\n1 0\n3 0\n", "host 7\nhost 0\nhost -1\ndone 3 0\n"),
    (b"0 0\n1 14\n3 0\n", "host 0\nhost 14\nhost 3\ndone 3 0\n"),
    (b"0 0\n1 0\n3 14\n", "host 0\nhost 0\nhost 13\ndone 3 0\n"),
    (b"0 0\n1 7\n3 0\n", "host 0\nhost 7\nhost 2\ndone 3 0\n"),
    (b"0 0\n1 -7\n3 0\n", "host 0\nhost -7\nhost -2\ndone 3 0\n"),
    # 7/2 above the oldest, and below it: the half goes away from its host time, and here towards 0.
    (b"0 -103\n1 -100\n2 -100\n", "host -103\nhost -100\nhost -99\ndone 3 0\n"),
    (b"0 103\n1 100\n2 100\n", "host 103\nhost 100\nhost 99\ndone 3 0\n"),
    # A flat line.
    (b"-9 -5\n0 -5\n1 -5\n1000000 -5\n", "host -5\nhost -5\nhost -5\nhost -5\ndone 4 0\n"),
    # A line that falls.
    (b"0 1000\n10 0\n20 -1000\n", "host 1000\nhost 0\nhost -1000\ndone 3 0\n"),
    # Late: the same sample, an earlier one, and one that is far too. A pair that was refused isn't the newest one.
    (b"5 0\n5 0\n4 0\n5 2147483649\n6 0\n", "host 0\nlate 5\nlate 5\nlate 5\nhost 0\ndone 5 3\n"),
    (
        b"0 0\n10 100\n2147483659 0\n11 110\n5 0\n11 7\n12 120",
        "host 0\nhost 100\nfar 0 0\nhost 110\nlate 11\nlate 11\nhost 120\ndone 7 3\n",
    ),
    # Distances of 2^31, and one more.
    (b"0 0\n2147483648 0\n", "host 0\nhost 0\ndone 2 0\n"),
    (b"0 0\n2147483649 0\n", "host 0\nfar 0 0\ndone 2 1\n"),
    (b"-1 0\n2147483647 0\n", "host 0\nhost 0\ndone 2 0\n"),
    (b"-1 0\n2147483648 0\n", "host 0\nfar -1 0\ndone 2 1\n"),
    (b"0 0\n1 2147483648\n", "host 0\nhost 2147483648\ndone 2 0\n"),
    (b"0 0\n1 2147483649\n", "host 0\nfar 0 0\ndone 2 1\n"),
    (b"0 0\n1 -2147483648\n", "host 0\nhost -2147483648\ndone 2 0\n"),
    (b"0 0\n1 -2147483649\n", "host 0\nfar 0 0\ndone 2 1\n"),
    (b"0 7\n2147483648 -2147483641\n", "host 7\nhost -2147483641\ndone 2 0\n"),
    # Of two far pairs the older one, and of three the only far one: its host time, its sample, and one by each.
    (b"0 5\n1 6\n2147483650 0\n", "host 5\nhost 6\nfar 0 5\ndone 3 1\n"),
    (b"0 100\n1 200\n2 2147483849\n", "host 100\nhost 200\nfar 0 100\ndone 3 1\n"),
    (b"0 100\n1 0\n3 2147483650\n", "host 100\nhost 0\nfar 1 0\ndone 3 1\n"),
    (b"0 9\n1 9\n2147483649 9\n", "host 9\nhost 9\nfar 0 9\ndone 3 1\n"),
    (b"0 9\n1 -9\n2147483649 2147483640\n", "host 9\nhost -9\nfar 0 9\ndone 3 1\n"),
    (b"0 9\n2147483649 2147483658\n1 9\n", "host 9\nfar 0 9\nhost 9\ndone 3 1\n"),
    # Both ends of the range. The last two lines end at 2^60 and 1/2, and there below 0.
    (
        b"-1152921504606846976 1152921504606846976\n1152921504606846976 1152921504606846976\n",
        "host 1152921504606846976\nfar -1152921504606846976 1152921504606846976\ndone 2 1\n",
    ),
    (
        b"1152921504606846975 -1152921504606846976\n1152921504606846976 -1152921504606846976\n1152921504606846976 0\n",
        "host -1152921504606846976\nhost -1152921504606846976\nlate 1152921504606846976\ndone 3 1\n",
    ),
    (
        b"0 -1152921504606846976\n1 1152921504606846976\n",
        "host -1152921504606846976\nfar 0 -1152921504606846976\ndone 2 1\n",
    ),
    (
        b"1152921504606846974 1152921504606846973\n1152921504606846975 1152921504606846976\n1152921504606846976 1152921504606846976\n",
        "host 1152921504606846973\nhost 1152921504606846976\nhost 1152921504606846977\ndone 3 0\n",
    ),
    (
        b"-1152921504606846976 -1152921504606846973\n-1152921504606846975 -1152921504606846976\n-1152921504606846974 -1152921504606846976\n",
        "host -1152921504606846973\nhost -1152921504606846976\nhost -1152921504606846977\ndone 3 0\n",
    ),
]


def worked():
    """The texts above, and longer ones: the text, and what has to come of it."""
    yield from WORKED
    # Pairs on one line, of which the oldest go unseen.
    yield written((256 * k, 5000 * k) for k in range(1000)), "".join(f"host {5000 * k}\n" for k in range(1000)) + "done 1000 0\n"
    # The oldest pair is 1000 above or below a flat line of n pairs in all, which it turns about their middle: at the newest sample by
    # 1000 * (2n - 4) / (n * (n + 1)) to the other side. The 513th pair takes its place.
    for sign, shown in ((1, "-"), (-1, "")):
        lines = [f"host {1000 * sign}\n", "host 0\n"]
        for n in range(3, 513):
            size = (2 * 1000 * (2 * n - 4) + n * (n + 1)) // (2 * n * (n + 1))
            lines.append(f"host {shown}{size}\n")
        lines += ["host 0\n"] * 2
        yield written([(0, 1000 * sign)] + [(k, 0) for k in range(1, 514)]), "".join(lines) + "done 514 0\n"
    # The oldest of 512 pairs goes, so that it is none that a pair can be far from; while there are 511 it stays, and is one.
    flat = "host 7\n"
    full, room = written((k, 7) for k in range(512)), written((k, 7) for k in range(511))
    yield full + b"2147483649 7\n2147483650 7\n2147483652 7\n", flat * 514 + "far 3 7\ndone 515 1\n"
    yield full + b"2147483650 7\n512 7\n513 7\n2147483651 7\n", flat * 512 + "far 1 7\n" + flat * 3 + "done 516 1\n"
    yield room + b"2147483649 7\n511 7\n", flat * 511 + "far 0 7\n" + flat + "done 513 1\n"
    # The second of n pairs in a row, 1000 above the others, lifts the newest by 1000 * (10 - 2n) / (n * (n + 1)): 333 at the third pair, 0
    # at the fifth, and from then on it weighs it down. Pairs that are refused push none out, so it is the oldest behind them.
    lines = ["host 0\n", "host 1000\n", "host 333\n", "host 100\n", "host 0\n"]
    for n in range(6, 513):
        lines.append(f"host {-((2 * 1000 * (2 * n - 10) + n * (n + 1)) // (2 * n * (n + 1)))}\n")
    lines += ["far 1 1000\n"] * 3 + ["late 511\n"] * 3 + ["host -4\n", "host 0\n", "done 520 6\n"]
    refused = b"2147483650 0\n" * 3 + b"511 0\n" * 3
    yield written([(0, 0), (1, 1000)] + [(k, 0) for k in range(2, 512)]) + refused + b"512 0\n513 0\n", "".join(lines)
    # The newest of 512 pairs in a row has (4 * 512 - 2) / (512 * 513) of what it is above the others: here 341/43776 of 2^31, which
    # is 16728160 and less than a half. It is 2^31 and 1 from the host time of the pair that goes.
    yield written([(0, -1)] + [(k, 0) for k in range(1, 512)] + [(512, FAR)]), (
        "host -1\n" + "host 0\n" * 511 + "host 16728160\ndone 513 0\n"
    )
    # As long as a text may be.
    greatest = b"1152921504606846976 1152921504606846976\n"
    count = (LONGEST - 16) // len(greatest)
    yield greatest * count + b"0 0\n" * 4, (
        "host 1152921504606846976\n" + "late 1152921504606846976\n" * (count + 3) + f"done {count + 4} {count + 3}\n"
    )


# Texts at fault.

MISSPELLED = [
    b"-0",
    b"00",
    b"01",
    b"-01",
    b"+1",
    b"-",
    b"--1",
    b"1-",
    b"1.0",
    b"1e3",
    b"0x1",
    b"1_0",
    b"1,",
    b"x",
    b"\t1",
    b"1\t",
    b"1\v",
    b"\xb2",
    "\u0661".encode(),
    b"1\0",
    b"1152921504606846977",
    b"-1152921504606846977",
    b"9223372036854775808",
    b"-9223372036854775809",
    b"18446744073709551616",
    b"9" * 40,
    b"-" + b"9" * 400,
]
# Each with the first line at fault.
AT_FAULT = [
    (b"\n", 1),
    (b" \n", 1),
    (b"  \n", 1),
    (b"\r\n", 1),
    (b"\0", 1),
    (b"#\n", 1),
    (b"# SAMPLE HOST\n0 0\n", 1),
    (b"0 0\n\n", 2),
    (b"0 0\n\n\n0\n", 2),
    (b"0 0\n1 1\n# a comment\n", 3),
    (b"0\n", 1),
    (b"0 \n", 1),
    (b" 0\n", 1),
    (b"0 0\n1", 2),
    (b"0 0\n1 ", 2),
    (b"0 0 \n", 1),
    (b" 0 0\n", 1),
    (b"0  0\n", 1),
    (b"0 0 0\n", 1),
    (b"0 0 #\n", 1),
    (b"0\t0\n", 1),
    (b"0\xc2\xa00\n", 1),
    (b"0 0\r\n1 1\r\n", 1),
    (b"0 0\n1 1\r\n", 2),
    (b"0 0\n1 1\r", 2),
    (b"0 0\r1 1\n", 1),
    (b"\xef\xbb\xbf0 0\n", 1),
    (b"0 0\n1 1\n\0", 3),
    (b"host 0\ndone 1 0\n", 1),
    (b"0 0\n512 11610\n1024 x\n2048 y\n", 3),
    (b"0 0\n0 0\n2147483649 0\n1\n", 4),
]


def at_fault():
    yield from AT_FAULT
    for word in MISSPELLED:
        yield b"0 0\n1 1\n" + word + b" 2\n", 3
        yield word + b" 0", 1
        yield b"0 " + word + b"\n0\n", 1
    # Many lines are right, and the last one isn't.
    yield written((k, k) for k in range(100_000)) + b"100000 -0", 100_001


# Texts that are drawn.


def callback(draw, count, jitter=None):
    """Pairs of an audio callback: blocks of one size at one rate, told late by up to so many microseconds."""
    block, rate = draw.choice([32, 64, 128, 256, 441, 512, 1024, 4096]), draw.choice([44_100, 48_000, 88_200, 96_000])
    start, opened = draw.choice([0, 0, 7, -1000, draw.randrange(-(2**50), 2**50)]), draw.choice([0, 0, -10**6, draw.randrange(-(2**50), 2**50)])
    jitter = draw.choice([0, 1, 30, 500, 3000, 20_000]) if jitter is None else jitter
    pairs = []
    for k in range(count):
        late = int(jitter * draw.random() ** draw.choice([1, 3]))
        pairs.append((start + block * k, opened + (2 * block * k * 1_000_000 + rate) // (2 * rate) + late))
    return pairs


def steady(draw):
    return callback(draw, draw.choice([1, 2, 3, 10, 100, 400]))


def dropped(draw):
    """Blocks that nobody was called for."""
    pairs = callback(draw, draw.choice([20, 200, 500]))
    for _ in range(draw.randrange(1, 6)):
        at = draw.randrange(1, len(pairs) - 1)
        del pairs[at : at + min(draw.choice([1, 1, 5, 50]), len(pairs) - 5)]
    return pairs


def jumps(draw):
    """A host clock that is set, by little and by as much as is far."""
    pairs, moved = callback(draw, draw.choice([20, 100, 300])), 0
    for k, (sample, host) in enumerate(pairs):
        if draw.random() < 0.05:
            moved += draw.choice([-1, 1]) * draw.choice([1, 1000, 10**6, FAR - 10**6, FAR, FAR + 1, 2**40, FAR])
        if draw.random() < 0.02:
            # From a pair that is kept, or may be, just as far as it may be or one farther.
            moved = draw.choice([-1, 1]) * (FAR + draw.choice([-1, 0, 1])) + draw.choice(pairs[: k + 1])[1] - host
        pairs[k] = pairs[max(0, k - 3)][0] if draw.random() < 0.1 else sample, host + moved
    return pairs


def back(draw):
    """Samples that stand still, go back, or begin anew."""
    pairs = callback(draw, draw.choice([10, 100, 300]))
    for k in range(1, len(pairs)):
        if draw.random() < 0.1:
            at = draw.choice([k, k - 1, max(0, k - 10), 0])
            pairs[k] = pairs[at][0], pairs[k][1] + draw.choice([0, 0, FAR, -2 * FAR])
    return pairs


def huge(draw):
    """Numbers near the ends of the range, with steps of all sizes."""
    sample = draw.choice([-LIMIT, LIMIT - draw.choice([5, 100, 2**20, 2**33]), draw.randrange(-LIMIT, LIMIT)])
    low, high = draw.choice([(-LIMIT, -LIMIT + 2**31), (LIMIT - 2**31, LIMIT), (-LIMIT, LIMIT), (LIMIT - 10, LIMIT), (-LIMIT, 10 - LIMIT)])
    pairs = []
    for _ in range(draw.choice([3, 20, 100])):
        step = draw.choice([0, 1, 1, 2, 2**10, 2**25, FAR - 1, FAR, FAR + 1, -1] if draw.random() < 0.3 else [1, 1, 2, 3])
        sample = max(-LIMIT, min(LIMIT, sample + step))
        pairs.append((sample, draw.choice([low, high, draw.randint(low, high)])))
    return pairs


def small(draw):
    """Few pairs of small numbers, so that lines end at halves."""
    sample, pairs = draw.randrange(-5, 5), []
    for _ in range(draw.choice([3, 4, 5, 6, 7, 12])):
        sample += draw.choice([0, 1, 1, 1, 2, 3])
        pairs.append((sample, draw.randrange(-9, 10)))
    return pairs


def long(draw):
    """More pairs than are kept, with something of all the above."""
    pairs = callback(draw, draw.randrange(520, 900))
    for k in range(1, len(pairs)):
        kind, (sample, host) = draw.random(), pairs[k]
        if kind < 0.01:
            pairs[k] = pairs[k - 1][0], host
        elif kind < 0.02:
            pairs[k] = sample, host + draw.choice([-1, 1]) * 2**40
    return pairs


def wide(draw):
    """Pairs over nearly all that may lie between them, evenly or in two heaps."""
    count, ground, low = draw.choice([3, 4, 6, 10, 100, 300, 600]), draw.choice([0, -LIMIT, LIMIT - 3 * FAR]), draw.choice([0, -LIMIT, LIMIT - FAR])
    step = FAR // min(count, KEPT)
    hosts = draw.choice([lambda: draw.choice([0, FAR]), lambda: draw.randint(0, FAR), lambda: draw.randrange(100)])
    if draw.random() < 0.5:
        return [(ground + step * k + draw.randrange(step), low + hosts()) for k in range(count)]
    first = draw.randrange(1, min(count, 4))
    return [(ground + k + (k >= first) * (FAR - count), low + hosts()) for k in range(count)]


def filled(draw):
    """As many pairs as are kept, and then one that is as far as it may be from the first or the second of them, or one less or more."""
    count, shift = draw.choice([511, 512, 513]), draw.randrange(-1000, 1000)
    step = draw.choice([1, 3])
    pairs = [(step * k, draw.choice([0, 0, 0, shift])) for k in range(count)]
    (sample, host), newest = pairs[draw.choice([0, 1, 2])], pairs[-1][0]
    away = FAR + draw.choice([-1, 0, 1])
    if draw.random() < 0.5:
        pairs.append((sample + away, draw.choice([0, shift])))
    else:
        pairs.append((newest + 1, host + draw.choice([-1, 1]) * away))
    pairs += [(newest + 2, 0), (newest + FAR, shift), (newest + FAR + 1, 0)]
    return pairs


def drawn(draw):
    # 5,000 pairs of a callback that comes up to three milliseconds late.
    yield written(callback(draw, 5000, 3000))
    for kind, count in ((steady, 20), (dropped, 12), (jumps, 20), (back, 12), (huge, 16), (small, 40), (wide, 20), (long, 6), (filled, 16)):
        for _ in range(count):
            text = written(kind(draw))
            yield text if draw.random() < 0.8 else text[:-1]


# Comparing.


def told(program, text):
    return common.answer(program, ["filter"], text)


def show(program, text, want=None):
    """Where nothing is said of what is wanted, as short a text as the plain reading tells another answer of."""
    if want is None:

        def differs(text):
            return told(program, text) != wanted(text, Counter())

        lines = text.splitlines(keepends=True)
        front = b"".join(lines[: common.first_difference(wanted(text, Counter())[1], told(program, text)[1]) + 1])
        text = common.shortened(front if differs(front) else text, differs, common.at_most(300))
        want = wanted(text, Counter())
    common.show("the first text that differs", text, want, told(program, text))


def main(program, seed):
    tally, reached = common.Tally(), Counter()
    for text, output in worked():
        want = 0, output, None
        read = wanted(text, reached) if len(text) < LONGEST else want
        if not tally.note(told(program, text) == want == read):
            if read != want:
                print(f"{text[:200]!r}: wanted {output[:400]!r}, the plain reading {str(read)[:400]}")
            if tally.failed == 1:
                show(program, text, want)
    faults = list(at_fault())
    for text, line in faults:
        found, read = told(program, text), wanted(text, Counter())
        why = f"{text[-60:]!r}: wanted status 8 and line {line}, told {str(found)[:200]}, the plain reading {str(read)[:200]}"
        tally.note(found == read == (8, "", line), why)
    pairs = 0
    for text in drawn(random.Random(seed)):
        pairs += text.count(b"\n")
        if not tally.note(told(program, text) == wanted(text, reached)) and tally.failed == 1:
            show(program, text)
    print(f"{len(faults)} texts at fault, {pairs:,} pairs drawn; cases: {tally.want_reached(REACHED, reached)}")
    return tally.end()


if __name__ == "__main__":
    common.begin(main, __doc__, has_seed=True)
