#!/usr/bin/env python3
"""Compares the built program's `load` with a plain reading of the rules, checks/node.py: checks/load.py PROGRAM [SEED].

The events are drawn here anew from their description in docs/FORMATS.md. Compared are exit status, standard output and an empty standard
error of seeds 0, 7 and 2^64 - 1, each at all counts from 1 to 40 and at some greater ones, since only the last state is written; of seeds
and counts drawn from SEED (1 where not given); of some that were worked out by hand; and of the spellings of numbers that are taken or
refused. An event of a kind that no run reaches is a failure. The last line is 'N passed, N failed'. `checks/load.py expect SEED COUNT`
writes what `load SEED COUNT` has to write, without a program.
"""
import random
import sys
from collections import Counter

sys.dont_write_bytecode = True
import common  # noqa: E402
import node  # noqa: E402

OPENED = 1_000_000
MOST = 524_288
KINDS = ("alive", "ping", "tick", "bye", "commit")
# The words behind `load`, and the seed and the count that they mean; None where they are refused.
SPELLINGS = [
    (["+7", "+40"], (7, 40)),
    (["007", "0040"], (7, 40)),
    (["--", "7", "40"], (7, 40)),
    (["7", "--", "40"], (7, 40)),
    (["7", "40", "--"], (7, 40)),
    ([], None),
    (["7"], None),
    (["7", "40", "1"], None),
    (["7", "40", ""], None),
    (["7", "--", "40", "--"], None),
    (["7", "0"], None),
    (["7", str(MOST + 1)], None),
    (["7", str(2**64)], None),
    ([str(2**64), "40"], None),
    (["-1", "40"], None),
    (["7", "-1"], None),
    (["--", "-1", "40"], None),
    (["7", "1e3"], None),
    (["7", "0x10"], None),
    (["7", "4_0"], None),
    (["7", ""], None),
    (["", "40"], None),
    (["7", " 40"], None),
    (["7 40"], None),
    (["7", "\u0664\u0660"], None),
    (["7", "40", "--help"], None),
    (["--help"], None),
    (["-h"], None),
    (["--version"], None),
    (["-V"], None),
    (["help"], None),
    (["--seed=7", "40"], None),
    ([b"7\xff", "40"], None),
    (["+7", "007"], (7, 7)),
    (["007", "+5"], (7, 5)),
    (["--", "7", "5"], (7, 5)),
    (["7", "--", "5"], (7, 5)),
    (["7", "5", "--"], (7, 5)),
    (["7", "5", "5"], None),
    (["7", "5", ""], None),
    (["7", "5", "--", "5"], None),
    (["", "5"], None),
    (["7 5"], None),
    ([" 7", "5"], None),
    (["7", "5\n"], None),
    (["-1", "5"], None),
    (["--", "-1", "5"], None),
    (["7", "-0"], None),
    (["-", "5"], None),
    (["+", "5"], None),
    (["++7", "5"], None),
    (["1e3", "5"], None),
    (["0x7", "5"], None),
    (["7.0", "5"], None),
    (["1_000", "5"], None),
    (["18446744073709551616", "5"], None),
    (["7", "5", "--help"], None),
]
OPENING = "state 0 500000 0 1000000 0 0 0 1 0 1000000 0 0 4c4f41444e4f4445 4000000\n"
# What was worked out by hand. In each the node is still in its first session, and no quantum but its first is ever set.
WORKED = {
    (0, 1): "load 1 1 1\n" + OPENING,
    (7, 1000): "load 1000 109 806\nstate 108 372100 -21618 296253 0 0 0 1 8 10985784 61 0 4c4f41444e4f4445 4000000\n",
    (2**64 - 1, 5000): "load 5000 553 3992\nstate 552 389900 -6853 -5257281 0 0 0 1 6 51348760 320 0 4c4f41444e4f4445 4000000\n",
    (123456789, 20_000): "load 20000 2245 15864\nstate 2244 397100 -37720 -27662380 0 0 0 1 8 200561943 1271 0 4c4f41444e4f4445 4000000\n",
}


def local(port):
    return bytes([127, 0, 0, 1]) + port.to_bytes(2, "big")


def edited(state, mpb, at):
    """The timeline of the state with another tempo, through the beat that was there at that time."""
    mpb = max(60_060, min(3_000_000, mpb))
    through = node.Timeline(mpb, node.beat_at(state.timeline, at), at)
    return node.Timeline(mpb, state.timeline.beat, node.time_at(through, state.timeline.beat))


class Load:
    """A node, and the events that it takes one by one."""

    def __init__(self, seed):
        gate = node.Gate(local(20808), [local(20809)])
        self.node = node.Node(node.Config(b"LOADNODE", seed, 500_000, 1, OPENED, 0, 4_000_000, [gate]))
        self.words, self.now, self.count, self.kinds = node.Ids(seed, 2), OPENED, 0, Counter()
        self.states, self.sends = 1, 0

    def event(self):
        a, b, c = (self.words.word() for _ in range(3))
        self.now, self.count, kind, j = self.now + 1 + b % 20_000, self.count + 1, a % 8, c % 16
        sender, endpoint = b"PEER%04d" % j, local(30_000 + j)
        if kind < 4:
            timeline = node.Timeline(400_000 + 1000 * j, 1000 * self.count, 0)
            session = b"LOADNODE" if j < 8 else sender
            return "alive", ("rx", self.now, 0, endpoint, node.write_state(1, 0, sender, session, timeline, node.STOPPED, endpoint))
        if kind == 4:
            return "ping", ("rx", self.now, 0, endpoint, node.write_ping(self.now))
        if kind < 7:
            return "tick", ("tick", self.now)
        if j % 2 == 0:
            return "bye", ("rx", self.now, 0, endpoint, node.write_bye(0, sender))
        state = self.node.published
        new = edited(state, 300_000 + 100 * (c % 1000), self.now)
        return "commit", ("app_commit", self.now, self.now, new if new != state.timeline else None, None, None)

    def step(self):
        kind, event = self.event()
        self.kinds[kind] += 1
        sent, state = self.node.step(*event)
        self.sends += len(sent)
        if state:
            self.states += 1
            # A state has its own moment, which is that of the event that published it.
            self.shown = node.state_line(2, self.states - 1, self.node, state)

    def text(self):
        return f"load {self.count} {self.states} {self.sends}\n" + self.shown

    shown = OPENING


def texts(seed, counts, kinds):
    """What has to come of a seed, at each of some counts."""
    load = Load(seed)
    for count in range(1, max(counts) + 1):
        load.step()
        if count in counts:
            yield count, load.text()
    kinds.update(load.kinds)


def told(program, words, given=b""):
    status, output, error = common.ended([program, "load", *words], given)
    return status, output.decode("latin-1"), error.decode("latin-1")


def cases(draw, kinds):
    """The words of each run, and what it has to answer; where words are refused, any text of standard error will do."""
    runs = [(seed, [*range(1, 41), 100, 1000, 5000]) for seed in (0, 7, 2**64 - 1)]
    for _ in range(30):
        seed = draw.choice([draw.randrange(2**64), draw.randrange(1000), 2**64 - 1 - draw.randrange(1000), 1 << draw.randrange(64)])
        runs.append((seed, [draw.randrange(1, 3000)]))
    runs.append((draw.randrange(2**64), [20_000]))
    for seed, counts in runs:
        for count, text in texts(seed, counts, kinds):
            yield [str(seed), str(count)], text
    for (seed, count), text in WORKED.items():
        yield [str(seed), str(count)], text
    for words, meant in SPELLINGS:
        yield words, next(texts(meant[0], [meant[1]], kinds))[1] if meant else None


def apart(program):
    """A run whose standard input isn't read, and the greatest seed and count, which would take the plain reading too long."""
    yield "with something on standard input", told(program, ["7", "1000"], b"not read") == (0, WORKED[7, 1000], "")
    status, output, error = told(program, [str(2**64 - 1), str(MOST)])
    yield "of the greatest count", (status, error) == (0, "") and output.startswith(f"load {MOST} ")


def main(program, seed):
    tally, kinds = common.Tally(), Counter()
    for name, holds in apart(program):
        tally.note(holds, f"load {name} is not as wanted")
    for words, text in cases(random.Random(seed), kinds):
        status, output, error = told(program, words)
        is_well = (status, output) == (2, "") and error if text is None else (status, output, error) == (0, text, "")
        wanted = "status 2, no output and a text on standard error" if text is None else f"status 0 and {text!r}"
        tally.note(is_well, f"load {words}: told status {status}, {output!r}, standard error {error!r}\n  wanted {wanted}")
    print(f"events: {tally.want_reached(KINDS, kinds)}")
    return tally.end()


def expect(seed, count):
    if not 0 <= seed < 2**64 or not 1 <= count <= MOST:
        sys.exit(f"a seed is from 0 to {2**64 - 1}, a count from 1 to {MOST}")
    for _, text in texts(seed, [count], Counter()):
        sys.stdout.write(text)
    return 0


if __name__ == "__main__":
    if len(sys.argv) == 4 and sys.argv[1] == "expect":
        sys.exit(expect(int(sys.argv[2]), int(sys.argv[3])))
    common.begin(main, __doc__, has_seed=True)
