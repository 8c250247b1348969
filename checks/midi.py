#!/usr/bin/env python3
"""Compares the built program's `midi` with a plain reading of its rules: checks/midi.py PROGRAM [SEED].

The plain reading goes from microsecond to microsecond in exact numbers, over the states that checks/node.py shows. Scripts of both versions
are drawn from the seed (1 where not given), and the blocks with them: commits and peers that put beats and starts before, into and behind
what is played, sessions that are joined, timelines near the limit, events at a block's begin and beside it, in the past and behind the last
block; and stories of checks/replay.py. Where all events were taken when the first block began, other blocks over the same time have to give
the same lines. Beside them runs that were worked out by hand, and seconds of a steady tempo by a formula, which the plain reading has to
give too; scripts at fault, with the first line at fault; and spellings of the words, of which the wrong ones are told before any script.
Compared are exit status, standard output, and of standard error the line that it names first, or that it is empty. A case of REACHED that
no drawn script reaches is a failure. The first run that differs is shortened and printed. The last line is 'N passed, N failed'.
"""
import random
import sys
from collections import Counter
from time import monotonic

sys.dont_write_bytecode = True
import common  # noqa: E402
import node  # noqa: E402
import replay  # noqa: E402
import worked  # noqa: E402

LIMIT = 2**60
SECOND, MOST_BLOCKS = 1_000_000, 524_288
CLOCK, START, CONTINUE, STOP, POSITION = 0xF8, 0xFA, 0xFB, 0xFC, 0xF2
REACHED = (
    "version 1, version 2, no blocks, blocks of a microsecond, a block of a second, a block without an event, 400 clocks in a block, "
    "three others in a block, 403 events in a block, a clock in the first microsecond, a clock in the last microsecond, "
    "start at pulse 0, start 16384 sixteenths on, continue, continue behind 16383 and more, continue before the beat origin, "
    "position of two bytes, position 16383, stop, stop for a later start, stop and start in a block, stop and continue in a block, "
    "begun in the first microsecond of its start, begun sixteenths later, start a microsecond behind a sixteenth, "
    "start before a block, start at its begin, start inside it, start in its last microsecond, start behind it, "
    "the beat jumps back, the beat jumps ahead, another tempo and the beat goes on, the beat jumps while it runs, "
    "a rounded beat, a half after the origin, a half before the origin, a beat clipped in a block, a clipped beat, a beat clipped before a block, "
    "an event at a block's begin, an event a microsecond behind a begin, an event inside a block, an event in the past, "
    "an event held up by one before it, several states before a block, events that no block reaches, other blocks over the same time, "
    "joined, founded, timeline taken, start taken, timeline committed, start committed, quantum committed"
).split(", ")


# The plain reading.


def pulse_at(timeline, time):
    """How many pulses are passed, 24 to a beat, from the beat origin on. The beat is that of node.beat_at, in one go, since each
    microsecond asks for it."""
    mpb, origin, zero = timeline
    size = (2 * abs(time - zero) * 1_000_000 + mpb) // (2 * mpb)
    beat = origin + (size if time >= zero else -size)
    beat = LIMIT if beat > LIMIT else -LIMIT if beat < -LIMIT else beat
    return 24 * (beat - origin) // 1_000_000


class Clock:
    """Whether it runs, and what it has sent: times and bytes."""

    def __init__(self):
        self.running, self.sent = False, []

    def send(self, time, *data):
        self.sent.append((time, bytes(data)))

    def play(self, state, start, length):
        timeline, begun = state.timeline, state.start
        before = pulse_at(timeline, start - 1)
        for time in range(start, start + length):
            wants = begun.playing and begun.at <= time
            if self.running and not wants:
                self.send(time, STOP)
                self.running = False
            pulse = pulse_at(timeline, time)
            if pulse > before:
                if not self.running and wants and pulse % 6 == 0:
                    self.begin(time, pulse // 6 % 16_384)
                self.send(time, CLOCK)
            before = pulse

    def begin(self, time, position):
        if position == 0:
            self.send(time, START)
        else:
            self.send(time, POSITION, position % 128, position // 128)
            self.send(time, CONTINUE)
        self.running = True


class Cases:
    """Counts which cases a run reaches; nothing that is sent hangs on it."""

    def __init__(self, reached, length):
        self.reached, self.length = reached, length
        self.shown, self.begin = None, None

    def event(self, moment, last, start, state):
        """One that is taken when a block begins. The last moment was the greatest before it."""
        if state is None or self.begin is None:
            return
        self.reached["an event at a block's begin"] += moment == start
        self.reached["an event a microsecond behind a begin"] += moment == self.begin + 1 < start
        self.reached["an event inside a block"] += self.begin + 1 < moment < start
        self.reached["an event in the past"] += moment < last
        self.reached["an event held up by one before it"] += moment <= self.begin

    def block(self, state, start, was, sent):
        """One that has been played."""
        reached, begun, end = self.reached, state.start, start + self.length
        if self.shown not in (None, state):
            self.change(self.shown.timeline, state, start, was)
        self.shown, self.begin = state, start
        if begun.playing:
            at = begun.at
            reached["start before a block" if at < start else "start at its begin" if at == start else "start behind it" if at >= end else "start inside it"] += 1
            reached["start in its last microsecond"] += at == end - 1
            reached["start a microsecond behind a sixteenth"] += start < at < end and pulses(state.timeline, at - 1) and pulse_at(state.timeline, at - 1) % 6 == 0
        exact = [exact_beat(state.timeline, time) for time in (start - 1, start, end - 1)]
        reached["a beat clipped before a block"] += exact[0] < -LIMIT
        reached["a beat clipped in a block"] += exact[1] < LIMIT < exact[2]
        reached["a clipped beat"] += exact[1] > LIMIT
        if not sent:
            reached["a block without an event"] += 1
            return
        kinds = Counter(data[0] for _, data in sent)
        reached["400 clocks in a block"] += kinds[CLOCK] == 400
        reached["three others in a block"] += len(sent) == kinds[CLOCK] + 3
        reached["403 events in a block"] += len(sent) == 403
        if kinds[STOP]:
            reached["stop for a later start" if begun.playing else "stop"] += 1
            reached["stop and start in a block"] += kinds[START]
            reached["stop and continue in a block"] += kinds[CONTINUE]
        for time, data in sent:
            if data[0] == CLOCK:
                reached["a clock in the first microsecond"] += time == start
                reached["a clock in the last microsecond"] += time == end - 1
                self.rounding(state.timeline, time)
            elif data[0] in (START, POSITION):
                self.opening(state, time, data)

    def change(self, old, state, start, was):
        reached, new = self.reached, state.timeline
        before, after = pulse_at(old, start), pulse_at(new, start)
        reached["the beat jumps back"] += after < before
        reached["the beat jumps ahead"] += after > before
        reached["another tempo and the beat goes on"] += after == before and new.mpb != old.mpb
        reached["the beat jumps while it runs"] += after != before and was and state.start.playing and state.start.at <= start

    def opening(self, state, time, data):
        reached, pulse = self.reached, pulse_at(state.timeline, time)
        if data[0] == START:
            reached["start 16384 sixteenths on" if pulse else "start at pulse 0"] += 1
        else:
            reached["continue"] += 1
            reached["continue behind 16383 and more"] += pulse > 6 * 16_384
            reached["continue before the beat origin"] += pulse < 0
            reached["position of two bytes"] += data[1] > 0 and data[2] > 0
            reached["position 16383"] += data[1:] == b"\x7f\x7f"
        reached["begun in the first microsecond of its start"] += time == state.start.at
        reached["begun sixteenths later"] += pulse_at(state.timeline, state.start.at) < pulse - 6

    def rounding(self, timeline, time):
        """How the beat of a clock is rounded, or the one of the microsecond before it."""
        exact, mpb, pulse = (time - timeline.time) * 1_000_000, timeline.mpb, pulse_at(timeline, time)
        if 24 * (exact // mpb) // 1_000_000 < pulse:
            self.reached["a rounded beat"] += 1
            self.reached["a half after the origin"] += exact > 0 and exact % mpb * 2 == mpb
        before = exact - 1_000_000
        if before < 0 and before % mpb * 2 == mpb:
            self.reached["a half before the origin"] += 24 * (before // mpb + 1) // 1_000_000 == pulse


def pulses(timeline, time):
    return pulse_at(timeline, time) > pulse_at(timeline, time - 1)


def exact_beat(timeline, time):
    """With nothing clipped."""
    return timeline.beat + node.near((time - timeline.time) * 1_000_000, timeline.mpb)


def sent_of(length, blocks, text, reached):
    """What is sent, and whether all events that come within the blocks' time were taken when the first one began."""
    version, config, events = node.read_script(text)
    machine, clock, cases, taken, first = node.Node(config), Clock(), Cases(reached, length), 0, 0
    for k in range(blocks):
        start, states = config.now + k * length, 0
        while taken < len(events) and events[taken][1] <= start:
            last = machine.moment
            _, state = machine.step(*events[taken])
            cases.event(events[taken][1], last, start, state)
            taken, states = taken + 1, states + (state is not None)
        first = taken if k == 0 else first
        reached["several states before a block"] += states > 1
        was, count = clock.running, len(clock.sent)
        clock.play(machine.published, start, length)
        cases.block(machine.published, start, was, clock.sent[count:])
    reached[f"version {version}"] += 1
    reached["no blocks"] += blocks == 0
    reached["blocks of a microsecond"] += length == 1 and blocks > 1
    reached["a block of a second"] += length == SECOND and blocks > 0
    reached["events that no block reaches"] += taken < len(events)
    reached.update(machine.reached)
    is_still = blocks > 0 and (first == len(events) or events[first][1] > config.now + blocks * length)
    return clock.sent, is_still


def output_of(blocks, sent):
    return "".join(f"midi {time} {data.hex()}\n" for time, data in sent) + f"done {blocks} {len(sent)}\n"


def wanted(words, text, reached):
    """Status, output and line at fault, and the same of other blocks over the same time, by their words."""
    length, blocks = map(int, words)
    try:
        sent, is_still = sent_of(length, blocks, text, reached)
    except node.Fault as fault:
        return (8, "", int(str(fault))), {}
    others = other_blocks(length, blocks) if is_still else ()
    return (0, output_of(blocks, sent), None), {(str(one), str(count)): (0, output_of(count, sent), None) for one, count in others}


def other_blocks(length, blocks):
    whole = length * blocks
    for one in (1, length // 2, 2 * length, whole):
        if 0 < one <= SECOND and one != length and whole % one == 0 and whole // one <= MOST_BLOCKS:
            yield one, whole // one


# What was worked out by hand.


def head_of(mpb=500_000, now=0):
    return f"replay 1\nnode QRSTUVWX 1 {mpb} 1 {now}\ngate 127.0.0.1:20809\n"


def told_as(blocks, events):
    """The output that has these events, as in `0 fa, 0 f8`."""
    events = events.split(", ") if events else []
    return "".join(f"midi {event}\n" for event in events) + f"done {blocks} {len(events)}\n"


HEAD, HEAD_2 = head_of(), "replay 2\nnode QRSTUVWX 1 500000 1 0\ngroup 1\nquantum 0\ngate 127.0.0.1:20809\n"
# The pulses of the first tenth of a second at 500,000: one each 20,833 1/3 microseconds.
TENTH = "0 f8, 20834 f8, 41667 f8, 62500 f8, 83334 f8"
NEXT_TENTH = "104167 f8, 125000 f8, 145834 f8, 166667 f8, 187500 f8"
PLAYS = "app 0 0 s 1 0 1\n"

# Lengths and numbers of blocks, scripts, and the events.
WORKED = [
    (100_000, 1, HEAD, TENTH),
    (50_000, 2, HEAD, TENTH),
    (1, 20_835, HEAD, "0 f8, 20834 f8"),
    (100_000, 1, HEAD_2, TENTH),
    (100_000, 0, HEAD + PLAYS, ""),
    # A pulse is in the first microsecond of a block, and in the last one.
    (20_834, 2, HEAD, "0 f8, 20834 f8, 41667 f8"),
    (20_835, 2, HEAD, "0 f8, 20834 f8, 41667 f8"),
    (20_834, 1, HEAD, "0 f8"),
    # From the opening moment, which may be the last one.
    (100_000, 1, head_of(now=1_000_000), "1000000 f8, 1020834 f8, 1041667 f8, 1062500 f8, 1083334 f8"),
    (1, 1, head_of(now=2**55), "36028797018963968 f8"),
    # At 3,000,000 the beat of the microsecond before the opening is rounded to that of the opening, so that pulse is before the blocks.
    (125_001, 1, head_of(3_000_000), "125000 f8"),
    # A start at the opening and a microsecond later, when pulse 0 is over.
    (100_000, 1, HEAD + PLAYS, "0 fa, " + TENTH),
    (200_000, 1, HEAD + "app 0 0 s 1 1 1\n", f"{TENTH}, 104167 f8, 125000 f20100, 125000 fb, {NEXT_TENTH[11:]}"),
    (100_000, 2, HEAD + "app 0 0 s 1 125000 1\n", f"{TENTH}, 104167 f8, 125000 f20100, 125000 fb, {NEXT_TENTH[11:]}"),
    (100_000, 2, HEAD + "app 0 0 s 1 125001 1\n", f"{TENTH}, {NEXT_TENTH}"),
    (200_000, 1, HEAD + "app 0 0 s 0 0 1\n", f"{TENTH}, {NEXT_TENTH}"),
    # An event at a block's begin is taken for it, and one a microsecond later for the next. A stop waits for no pulse.
    (10_000, 3, HEAD + PLAYS + "app 10000 10000 s 0 0 2\n", "0 fa, 0 f8, 10000 fc, 20834 f8"),
    (10_000, 3, HEAD + PLAYS + "app 10001 10001 s 0 0 2\n", "0 fa, 0 f8, 20000 fc, 20834 f8"),
    (10_000, 3, HEAD + PLAYS + "app 20001 20001 s 0 0 2\n", "0 fa, 0 f8, 20834 f8"),
    (125_000, 2, HEAD + "app 125000 125000 s 1 0 1\n", f"{TENTH}, 104167 f8, 125000 f20100, 125000 fb, {NEXT_TENTH[11:]}, 208334 f8, 229167 f8"),
    (125_000, 2, HEAD + "app 125001 125001 s 1 0 1\n", f"{TENTH}, {NEXT_TENTH}, 208334 f8, 229167 f8"),
    # An event in the past waits for the one before it.
    (10_000, 3, HEAD + PLAYS + "app 10000 10000\napp 0 0 s 0 0 2\n", "0 fa, 0 f8, 10000 fc, 20834 f8"),
    # Of two states before a block the last one counts.
    (10_000, 2, HEAD + PLAYS + "app 10000 10000 s 0 0 2\napp 10000 10000 s 1 0 3\n", "0 fa, 0 f8"),
    # It stops for a later start, and goes on at the first sixteenth then.
    (
        250_000,
        2,
        HEAD + PLAYS + "app 250000 250000 s 1 300000 2\n",
        f"0 fa, {TENTH}, {NEXT_TENTH}, 208334 f8, 229167 f8, 250000 fc, 250000 f8, 270834 f8, 291667 f8, 312500 f8, 333334 f8, 354167 f8, "
        "375000 f20300, 375000 fb, 375000 f8, 395834 f8, 416667 f8, 437500 f8, 458334 f8, 479167 f8",
    ),
    # The beat jumps back to 0, and goes on at twice the tempo. What runs runs on, and nothing is told but clocks.
    (
        100_000,
        2,
        HEAD + PLAYS + "app 100000 100000 t 500000 0 100000\n",
        f"0 fa, {TENTH}, 100000 f8, 120834 f8, 141667 f8, 162500 f8, 183334 f8",
    ),
    (
        100_000,
        2,
        HEAD + PLAYS + "app 100000 100000 t 250000 0 50000\n",
        f"0 fa, {TENTH}, 102084 f8, 112500 f8, 122917 f8, 133334 f8, 143750 f8, 154167 f8, 164584 f8, 175000 f8, 185417 f8, 195834 f8",
    ),
    # Positions, by so many quarters of a beat since the origin: 127, 128, 129, 16383, and what comes then; 1 and 16384 before it.
    (1000, 1, HEAD + "app 0 0 t 500000 0 -15875000 s 1 0 1\n", "0 f27f00, 0 fb, 0 f8"),
    (1000, 1, HEAD + "app 0 0 t 500000 0 -16000000 s 1 0 1\n", "0 f20001, 0 fb, 0 f8"),
    (1000, 1, HEAD + "app 0 0 t 500000 0 -16125000 s 1 0 1\n", "0 f20101, 0 fb, 0 f8"),
    (1000, 1, HEAD + "app 0 0 t 500000 0 -2047875000 s 1 0 1\n", "0 f27f7f, 0 fb, 0 f8"),
    (1000, 1, HEAD + "app 0 0 t 500000 0 -2048000000 s 1 0 1\n", "0 fa, 0 f8"),
    (1000, 1, HEAD + "app 0 0 t 500000 0 -2048125000 s 1 0 1\n", "0 f20100, 0 fb, 0 f8"),
    (1000, 1, HEAD + "app 0 0 t 500000 0 125000 s 1 0 1\n", "0 f27f7f, 0 fb, 0 f8"),
    (1000, 1, HEAD + "app 0 0 t 500000 0 2048000000 s 1 0 1\n", "0 fa, 0 f8"),
    # At 2,000,000 each other microsecond has half a microbeat, which goes away from the origin.
    (250_000, 1, head_of(2_000_000), "0 f8, 83333 f8, 166667 f8, 249999 f8"),
    (250_001, 1, head_of(2_000_000) + "app 0 0 t 2000000 0 250000\n", "0 f8, 83334 f8, 166668 f8, 250000 f8"),
    # The beat origin is 120,000 below 2^60, so pulse 2 is the last one. A stop still comes.
    (100_000, 2, HEAD + "app 0 0 t 500000 1152921504606726976 0\n", "0 f8, 20834 f8, 41667 f8"),
    (
        100_000,
        2,
        HEAD + "app 0 0 t 500000 1152921504606726976 0 s 1 0 1\napp 100000 100000 s 0 0 2\n",
        "0 fa, 0 f8, 20834 f8, 41667 f8, 100000 fc",
    ),
    # At 0 the beat is -2^60, and a microsecond before it is clipped to that: pulse -6 is passed long since.
    (100_000, 1, HEAD + "app 0 0 t 500000 -1152921504606596976 125000 s 1 0 1\n", "20834 f8, 41667 f8, 62500 f8, 83334 f8"),
    # Another session of the same timeline and clock is joined.
    (
        100_000,
        2,
        worked.joined(worked.HEAD, "\n")[0],
        "1000000 f8, 1020834 f8, 1041667 f8, 1062500 f8, 1083334 f8, 1104167 f8, 1125000 f8, 1145834 f8, 1166667 f8, 1187500 f8",
    ),
]


def steady(mpb, pulse):
    """When a pulse comes, from 0 on, of a timeline with its origin at 0: where the rounded beat is the first that has passed it."""
    beat = (pulse * 125_000 + 2) // 3
    return max(0, -((mpb - 2 * beat * mpb) // 2_000_000))


def seconds():
    """A steady tempo."""
    for mpb, length, count in ((60_061, 100_000, 40), (1_234_567, 300_000, 6), (2_000_000, 250_000, 4)):
        yield length, 1, head_of(mpb) + PLAYS, ", ".join(["0 fa"] + [f"{steady(mpb, pulse)} f8" for pulse in range(count)])
    # The second of two has as many as it may have: a stop, and sixteenth 100 is the first one half a second later.
    events = ["0 fa"] + [f"{steady(60_060, pulse)} f8" for pulse in range(800)]
    events[601:601] = ["1501500 f26400", "1501500 fb"]
    events.insert(401, "1000000 fc")
    yield SECOND, 2, head_of(60_060) + PLAYS + "app 1000000 1000000 s 1 1500000 2\n", ", ".join(events)
    # As many blocks as there may be.
    yield 1, MOST_BLOCKS, HEAD, ", ".join(f"{steady(500_000, pulse)} f8" for pulse in range(26))


# Scripts at fault, and words.


def at_fault():
    """Words, scripts and the first line at fault, whether a block comes to it or not; 0 where there is none."""
    for count, (text, line) in enumerate(worked.EDGES):
        yield ("1000", str(count % 3)), worked.meant(text).encode(), line
    yield ("1", "1"), (HEAD + "tick 36028797018963968\ntick\n").encode(), 5
    yield ("1", "0"), (HEAD + "tick 0\n" * 100_000 + "tick -1").encode(), 100_004


# The words behind `midi`, and the length and the number that they mean; None where they are refused.
SPELLINGS = [
    (["+1000", "+3"], (1000, 3)),
    (["001000", "03"], (1000, 3)),
    (["--", "1000", "3"], (1000, 3)),
    (["1000", "--", "3"], (1000, 3)),
    (["1000", "3", "--"], (1000, 3)),
    (["1", "0"], (1, 0)),
    (["1000000", "0"], (1_000_000, 0)),
    ([], None),
    (["1000"], None),
    (["1000", "3", "3"], None),
    (["1000", "3", ""], None),
    (["1000", "--", "3", "--"], None),
    (["--", "1000", "3", "3"], None),
    (["0", "1"], None),
    (["0", "0"], None),
    (["00", "1"], None),
    (["1000001", "1"], None),
    (["1000001", "0"], None),
    (["1000", "524289"], None),
    ([str(2**64), "1"], None),
    ([str(2**64 + 1), "1"], None),
    (["1000", str(2**64)], None),
    (["-1", "3"], None),
    (["1000", "-1"], None),
    (["--", "-1", "3"], None),
    (["--", "1000", "-1"], None),
    (["1000", "-0"], None),
    (["", "3"], None),
    (["1000", ""], None),
    (["+", "3"], None),
    (["++1000", "3"], None),
    (["1000", "+-3"], None),
    (["-", "3"], None),
    (["1e3", "3"], None),
    (["0x10", "3"], None),
    (["1_000", "3"], None),
    (["1000.0", "3"], None),
    (["1,000", "3"], None),
    ([" 1000", "3"], None),
    (["1000", "3\n"], None),
    (["1000 3"], None),
    (["1000", "\u0663"], None),
    (["--length", "1000", "3"], None),
    (["--length=1000", "3"], None),
    (["LENGTH=1000", "BLOCKS=3"], None),
    (["1000", "3", "--help"], None),
    (["--help"], None),
    (["-h"], None),
    (["--version"], None),
    (["-V"], None),
    (["help"], None),
    (["midi", "1000", "3"], None),
    ([b"1000\xff", "3"], None),
]


# Scripts that are drawn.


def blocks_of(draw, span):
    """Words of blocks that take about so many microseconds."""
    length = draw.choice([span, span // 2, span // 3, draw.randint(1, span), draw.choice([1, 10, 1000, 2503, 10_000, 20_000])])
    length = max(1, min(length, SECOND))
    return length, 0 if draw.random() < 0.01 else min(5000, max(1, span // length))


class Story(replay.Story):
    """A story whose events come while blocks are played, and whose beats and starts lie about there."""

    def __init__(self, draw, span=None, words=None, mpb=None):
        self.span = span or draw.choice([3000, 10_000, 30_000, 60_000, 60_000])
        self.length, self.blocks = words or blocks_of(draw, self.span)
        self.fixed = mpb
        self.opened = draw.choice([0, 1, 1_000_000, draw.randrange(10**12), replay.LAST - draw.randrange(2 * self.span)])
        super().__init__(draw, now=self.opened)

    def mpb(self):
        quick = [60_060, 60_060, 60_061] + [self.draw.randrange(60_060, 100_000) for _ in range(5)]
        return self.fixed or self.one(*quick, 500_000, 2_000_000, 3_000_000, self.draw.randrange(60_060, 3_000_001))

    def later(self):
        """A moment soon, in every second case that of a block's begin or next to it, seldom one before the last."""
        if self.still:
            return self.now
        if self.draw.random() < 0.06:
            return self.now - self.one(0, 1, self.length, self.now) if self.now > self.length else 0
        now = self.now + self.one(0, 0, 1, self.draw.randrange(self.span // 3))
        if self.draw.random() < 0.5:
            now = self.opened + -(-(now - self.opened) // self.length) * self.length + self.one(0, 0, 0, 1, -1)
        self.now = max(0, min(replay.LAST, now))
        return self.now

    def place(self):
        """A time that is played, or nearly."""
        begin = self.opened + self.length * self.draw.randrange(self.blocks + 1)
        return self.one(self.now, begin, self.opened + self.draw.randrange(self.span)) + self.one(0, 0, 0, 1, -1)

    def sixteenths(self):
        """A number of them since the beat origin."""
        near, far = self.draw.randrange(-4, 40), self.draw.randrange(16_384)
        return self.one(0, 0, 0, near, near, far, *[self.one(1, 127, 128, 16_383, 16_384, 16_385, 40_000, -1, -16_384)] * 3)

    def sixteenth(self, line):
        """The time of a sixteenth that is near to what is played, or next to it."""
        count = pulse_at(line, self.place()) // 6 + self.one(0, 1)
        near = node.time_at(line, node.clip(line.beat + count * 250_000))
        first = next((time for time in range(near - 3, near + 4) if pulse_at(line, time) >= 6 * count), near)
        return first + self.one(-1, 0, 0, 1)

    def line(self):
        """A timeline that has a drawn pulse somewhere in what is played; on some the beat goes on, and on some it is clipped there."""
        held, kind = self.node.client, self.draw.random()
        mpb, place = self.one(held.mpb, self.mpb(), self.mpb()), self.place()
        if kind < 0.22:
            gone = node.beat_at(held, self.now) - held.beat
            return node.Timeline(mpb, held.beat, node.clip(self.now - node.near(gone * mpb, 1_000_000)))
        pulses = self.draw.randrange(-100, 1000) if self.draw.random() < 0.2 else 6 * self.sixteenths()
        time = node.clip(place - pulses * mpb // 24)
        beat = self.one(held.beat, 0, self.time(held.beat))
        if kind > 0.85:
            beat = self.one(LIMIT, LIMIT, -LIMIT) - (self.place() - time) * 1_000_000 // mpb
        elif kind > 0.8:
            time = self.time(held.time)
        return node.Timeline(mpb, node.clip(beat), time)

    def begun(self, line, stamp):
        """A start about what is played, by this timeline; seldom with an old stamp."""
        at = self.one(self.place(), self.place(), self.sixteenth(line), self.sixteenth(line), self.one(LIMIT, -LIMIT))
        return node.Start(self.one(0, 1, 1, 1), node.clip(at), node.clip(stamp + self.one(*[1] * 9, 0)))

    def commit(self):
        words, line = "", self.node.client
        if self.draw.random() < 0.5:
            line = self.line()
            words += f" t {line.mpb} {line.beat} {line.time}"
        if self.draw.random() < 0.65:
            start = self.begun(line, self.node.client_start.stamp)
            words += f" s {start.playing} {start.at} {start.stamp}"
        if self.script.version == 2 and self.draw.random() < 0.2:
            words += f" q {self.quantum()}"
        self.put_commit(words)

    def peer(self):
        """One of the own session tells a timeline or a start that counts more."""
        held, line = self.node, self.line()
        beat = node.clip(held.timeline.beat + self.one(0, 1, 1, self.draw.randrange(1_000_000)))
        shared = self.shared(line, beat, held.offset)
        start = self.begun(line, held.start.stamp)
        told = (start.playing, node.beat_at(shared, held.to_ghost(start.at)), start.stamp)
        self.rx(self.state(self.one(1, 2), self.one(*self.ids[:4]), held.session, shared, self.one(None, told), ttl=self.one(0, 5, 255)))

    def shared(self, line, beat, offset):
        """A session's timeline with this beat origin, whose beat 0 is at the time origin of this one."""
        return node.Timeline(line.mpb, beat, node.time_at(node.Timeline(line.mpb, 0, node.clip(line.time + offset)), beat))


STEPS = [Story.commit] * 8 + [Story.peer] * 3 + [Story.tick] * 2 + [Story.bye] * 3 + [Story.hear, Story.ping, Story.pong, Story.end, Story.damaged]


def played(draw):
    story = Story(draw)
    story.go(draw.choice([0, 1, 3, 6, 12]), STEPS)
    if draw.random() < 0.3:
        end = story.opened + story.length * story.blocks
        story.now = max(0, min(replay.LAST, end + draw.choice([-story.length, 1 - story.length, 0, 10**9])))
        story.still = True
        story.go(draw.randrange(1, 3), STEPS)
    return story


def at_once(draw):
    """All that happens comes at the opening moment."""
    story = Story(draw, draw.choice([1000, 20_000, 40_000]))
    story.still = True
    story.go(draw.randrange(1, 6), STEPS)
    return story


def joined(draw):
    """Another session, of another timeline or clock, is measured and joined."""
    story = Story(draw)
    story.noise, story.jitter = 0.02, draw.choice([0, 0, 3])
    story.go(draw.randrange(4), STEPS)
    session, story.lead = draw.choice([(bytes(8), 0), (bytes(8), 499_999), (b"PEER0000", 500_001), (b"PEER0000", 10**9), (b"PEER0000", 500_000)])
    line = story.shared(story.line(), draw.randrange(10**6), node.clip(story.node.offset + story.lead))
    replay.peer_of(story, session, line=line)
    story.still = True
    story.event(f"tick {story.now}")
    for _ in range(60):
        if story.node.measurement is None:
            break
        story.pong()
    story.still = False
    story.go(draw.randrange(1, 6), STEPS)
    return story


def again(draw):
    """It runs, and with most blocks a start comes that is a little later, or another beat."""
    length, count = draw.choice([20_000, 30_000, 40_000]), 4
    story = Story(draw, count * length, (length, count), draw.randrange(60_060, 80_000))
    begins = [min(replay.LAST, story.opened + k * length) for k in range(count)]
    for k, begin in enumerate([story.opened, *begins]):
        words, place = "", begin + draw.randrange(length)
        at = max(begin + 1, place - draw.randrange(15_000)) if k else begin - draw.randrange(2)
        if draw.random() < 0.6:
            words += f" t {story.fixed} 0 {place - story.sixteenths() * story.fixed // 4}"
        if k == 0 or draw.random() < 0.7:
            words += f" s {draw.choice([0, 1, 1, 1]) if k else 1} {at} {story.node.client_start.stamp + 1}"
        story.event(f"app {begin} {begin}{words}")
    return story


def pinned(draw):
    """A sixteenth at an end of a block or between, and a start at it, or next to it."""
    story = Story(draw, 6000, (2000, 3), draw.randrange(60_060, 80_000))
    place, begin = story.opened + draw.choice([0, 1999, 2000, 3999, draw.randrange(6000)]), story.now
    story.event(f"app {begin} {begin} t {story.fixed} 0 {place - story.sixteenths() * story.fixed // 4}")
    line = story.node.client
    place = next((time for time in range(place - 3, place + 4) if pulses(line, time)), place)
    story.event(f"app {begin} {begin} s 1 {place + draw.choice([-1, 0, 0, 1])} {story.node.client_start.stamp + 1}")
    return story


def slow(draw):
    """Long beats, of which a pulse comes in the blocks. At 2,000,000 alone a pulse can be at half a microbeat, and then all are."""
    story = Story(draw, draw.choice([20_000, 60_000, 100_000]), mpb=draw.choice([2_000_000, 2_000_000, draw.randrange(300_000, 3_000_001)]))
    count = draw.choice([draw.randrange(1, 100), draw.randrange(-100, 0), 6 * story.sixteenths()])
    place = story.opened + draw.randrange(story.span)
    story.event(f"app {story.now} {story.now} t {story.fixed} 0 {node.clip(place - count * story.fixed // 24)}")
    story.go(draw.randrange(3), STEPS)
    return story


def clipped(draw):
    """Beats that are clipped while blocks are played, or till just before."""
    story = Story(draw, draw.choice([10_000, 30_000]))
    for k in range(draw.randrange(1, 3)):
        now, mpb = min(replay.LAST, story.opened + k * story.length), story.mpb()
        if draw.random() < 0.6:
            time = now - draw.randrange(story.span)
            beat = LIMIT - (now + draw.randrange(story.span) - time) * 1_000_000 // mpb
        else:
            # By whole beats, so that a pulse would come there.
            time = now + draw.choice([draw.randrange(1, story.span), mpb * draw.randrange(1, 5)])
            beat = -LIMIT + draw.randrange((time - now) * 1_000_000 // mpb + 2)
        start = f" s 1 {now + draw.randrange(story.span)} {story.node.client_start.stamp + 1}" if draw.random() < 0.5 else ""
        story.event(f"app {now} {now} t {mpb} {beat} {time}{start}")
    return story


def full(draw):
    """Two seconds of the fastest tempo, of which the second has a stop and a start."""
    story = Story(draw, 2 * SECOND, (SECOND, 2), 60_060)
    moments = [story.opened, min(replay.LAST, story.opened + SECOND)]
    starts = [story.opened, moments[1] + draw.randrange(1, 900_000)]
    for stamp, (moment, start) in enumerate(zip(moments, starts), 1):
        story.event(f"app {moment} {moment} s 1 {start} {story.node.client_start.stamp + stamp}")
    return story


def drawn(draw):
    """Words and scripts."""
    yield ("1000000", "0"), played(draw).text()
    for kind, count in ((played, 210), (at_once, 30), (joined, 30), (again, 36), (pinned, 40), (slow, 20), (clipped, 24), (full, 1)):
        for _ in range(count):
            story = kind(draw)
            yield (str(story.length), str(story.blocks)), story.text()
    kinds = [(lambda draw: replay.walk(draw, 20), 12), (replay.moved, 6), (replay.spent, 6), (replay.silent, 3), (replay.crowded, 2)]
    for kind, count in kinds:
        for _ in range(count):
            length, blocks = blocks_of(draw, draw.choice([3000, 20_000, 60_000]))
            yield (str(length), str(blocks)), kind(draw).text()


# Comparing.


def told(program, words, text):
    return common.answer(program, ["midi", *words], text)


def differs(program, words, text):
    return told(program, words, text) != wanted(words, text, Counter())[0]


def show(program, words, text, want=None):
    """Where nothing is said of what is wanted, as few blocks as half of them and a half of that show a difference too, and the script
    without the lines that aren't needed for one: what is found in half a minute."""
    if want is None:
        end = monotonic() + 30
        length, blocks = map(int, words)
        while blocks > 1 and monotonic() < end and differs(program, (str(length), str(blocks // 2)), text):
            blocks //= 2
        words = (str(length), str(blocks))
        text = common.shortened(text, lambda text: differs(program, words, text), lambda: monotonic() < end)
        want = wanted(words, text, Counter())[0]
    common.show(f"the first run that differs: midi {' '.join(words)}", text, want, told(program, words, text))


class Tally(common.Tally):
    def __init__(self, program):
        super().__init__()
        self.program = program

    def holds(self, name, *holds):
        return self.note(all(holds), f"{name}: not as wanted")

    def by_hand(self):
        for length, blocks, script, events in [*WORKED, *seconds()]:
            words, text, want = (str(length), str(blocks)), script.encode(), (0, told_as(blocks, events), None)
            read = wanted(words, text, Counter())[0]
            if not self.holds(f"midi {length} {blocks} of {script[:200]!r}", told(self.program, words, text) == want, read == want):
                if read != want:
                    print(f"the plain reading: {str(read)[:600]}")
                if self.failed == 1:
                    show(self.program, words, text, want)

    def faults(self):
        for words, text, line in at_fault():
            read = wanted(words, text, Counter())[0]
            want = (8, "", line) if line else read
            self.holds(f"midi {words} of {text[-60:]!r}, with line {line} at fault", told(self.program, words, text) == want, read == want)

    def spellings(self):
        right, wrong = (HEAD + PLAYS).encode(), b"replay 3\n"
        for words, meant in SPELLINGS:
            if meant:
                read = wanted(tuple(map(str, meant)), right, Counter())[0]
                self.holds(f"midi {words}", told(self.program, words, right) == read)
                self.holds(f"midi {words} of a script at fault", told(self.program, words, wrong) == (8, "", 1))
                continue
            for text in (right, wrong):
                status, output, error = told(self.program, words, text)
                self.holds(f"midi {words}, told status {status}, {output[:100]!r}, {str(error)[:100]!r}", status == 2, output == "", error is not None)

    def scripts(self, draw, reached):
        for words, text in drawn(draw):
            want, others = wanted(words, text, reached)
            reached["microseconds"] += int(words[0]) * int(words[1])
            if not self.note(told(self.program, words, text) == want) and self.failed == 1:
                show(self.program, words, text)
            for other, want in others.items():
                reached["other blocks over the same time"] += 1
                self.holds(f"midi {' '.join(other)} for midi {' '.join(words)} of {text[:300]!r}", told(self.program, other, text) == want)


def main(program, seed):
    tally, reached = Tally(program), Counter()
    tally.by_hand()
    tally.faults()
    tally.spellings()
    tally.scripts(random.Random(seed), reached)
    print(f"{reached['microseconds']:,} microseconds of drawn scripts; cases: {tally.want_reached(REACHED, reached)}")
    return tally.end()


if __name__ == "__main__":
    common.begin(main, __doc__, has_seed=True)
