#!/usr/bin/env python3
"""Compares the built program's `replay` with a plain reading of the rules, checks/node.py: checks/replay.py PROGRAM [SEED].

The scripts are of both versions and drawn from the seed (1 where not given). Long and short stories of a node, in most of them of another
group than 0: what comes next is drawn with the plain reading beside it, so that moments fall on limits and deadlines, pongs fit the
measurement that runs and commits the timeline that counts; some messages are of other groups, and in version 2 some commits have a quantum.
Stories in which measurements end at an exact lead, a session is joined and nothing else changes, tables are full, an origin is spent, and
many destinations are told. Scripts with one change: each word of every kind of line at the ends of its range, past them, misspelled, lost
and doubled, and lines lost, doubled and exchanged. Stories with a changed word, line or byte, and those of version 1 in which a commit has
a quantum. Exit status, standard output and, under status 8, the line that standard error names first are compared. The first script that
differs is shortened and printed. A rule that no story reaches is a failure. Beside them stand the scripts that checks/worked.py has for
`replay`, whose answers were worked out by hand; the plain reading has to give them too. The last line is 'N passed, N failed'.
"""
import random
import sys
from collections import Counter

sys.dont_write_bytecode = True
import common  # noqa: E402
import node  # noqa: E402
import worked  # noqa: E402

LIMIT, LAST = 2**60, 2**55
HOUR = 3_600_000_000
REACHED = (
    "ping answered, row ended by a bye, gate full, sessions full, timeline taken, start taken, pong passed over, failed by another session, failed by silence, "
    "measured anew, joined, stayed, current one not measured, other one not measured, other one forgotten, origin spent, timeline kept, timeline committed, "
    "start committed, quantum committed, quantum kept, quantum beside a start that is too old, quantum lost to a spent origin, "
    "another session alone shown, founded, told, told early, "
    "state of another group passed over, bye of another group passed over, group 0 passed over, "
    "response in another group than 0, alive in another group than 0, bye in another group than 0"
).split(", ")


class Story:
    """A script in the making, and beside it the node that takes each of its events."""

    def __init__(self, draw, gates=None, peers=None, now=None, version=None):
        self.draw, self.script, self.lines = draw, node.Script(), []
        self.name = "".join(chr(draw.randrange(33, 127)) for _ in range(8))
        self.now = self.one(0, 1, 1_000_000, draw.randrange(10**12), LAST - draw.randrange(100 * 10**6)) if now is None else now
        seed = self.one(0, 1, 2**64 - 1, draw.randrange(2**64))
        version = self.one(1, 2, 2, 2) if version is None else version
        self.put(f"replay {version}")
        self.put(f"node {self.name} {seed} {self.mpb()} {draw.randrange(2)} {self.now}")
        if version == 2:
            self.put(f"group {self.one(0, 1, 256, 258, 65_535, draw.randrange(65_536))}")
            self.put(f"quantum {self.quantum()}")
        for gate in range(self.one(1, 1, 1, 2, 3, 4) if gates is None else gates):
            self.put(f"gate {self.endpoint()}")
            for _ in range(self.one(0, 0, 1, 1, 2, 3, 32 if draw.random() < 0.2 else 1) if peers is None else peers):
                self.put(f"to {self.endpoint()}")
        self.sent, self.node = [], node.Node(self.script.config())
        strangers = [bytes(draw.randrange(256) for _ in range(8)) for _ in range(3)]
        self.ids = [b"PEER000%d" % k for k in range(4)] + strangers + [b"\0" * 8, b"\xff" * 8]
        # By how much the pongs say that the measured session is ahead, the number of the last audio commit, and how often
        # pongs and moments don't fit.
        self.lead, self.number, self.noise = 0, 0, 1.0
        self.jitter, self.still = draw.choice([0, 0, 1, 3000]), False

    def one(self, *choices):
        return self.draw.choice(choices)

    def put(self, line):
        if self.draw.random() < 0.01:
            self.lines.append(self.one("", "# ", "#" * 30, "#tick"))
        self.lines.append(line)
        self.script.line(line)

    def event(self, line):
        self.put(line)
        self.sent, _ = self.node.step(*self.script.events[-1])

    def text(self):
        return "\n".join(self.lines).encode() + (b"" if self.draw.random() < 0.2 else b"\n")

    # What is drawn.

    def endpoint(self):
        address = self.one("127.0.0.1", "10.0.0.%d" % self.draw.randrange(4), "0.0.0.0", "255.255.255.255")
        return f"{address}:{self.one(0, 1, 20808, 20808 + self.draw.randrange(4), 65535)}"

    def mpb(self):
        return self.one(60_060, 60_061, 500_000, 500_000, 500_001, 2_000_000, 2_999_999, 3_000_000, self.draw.randrange(60_060, 3_000_001))

    def quantum(self):
        return self.one(0, 1, 4_000_000, 3_000_000, 2**40, self.draw.randrange(2**40))

    def time(self, *near):
        held, drawn = self.node, (self.draw.randrange(-(2**44), 2**44), self.draw.randrange(-LIMIT, LIMIT))
        n = self.one(0, held.moment, held.moment - held.offset, *drawn, *near, *near)
        n = self.one(LIMIT, -LIMIT) if self.draw.random() < 0.03 else n
        return node.clip(n + self.one(0, 0, 0, 1, -1))

    def limits(self):
        """The moments at which something is due."""
        held = self.node
        found = [row.limit for row in held.rows.values()][: 3 if self.draw.random() < self.noise else 0]
        if held.broadcast is not None:
            found += [held.broadcast + 50_000, held.broadcast + 250_000]
        if held.measurement:
            found += [held.measurement.deadline] * 4
        if held.remeasuring is not None:
            found += [held.remeasuring] * (2 if self.draw.random() < 0.1 else 0)
        return found or [held.moment]

    def later(self):
        """A moment, seldom before the last one."""
        kind = self.draw.random()
        if self.still:
            now = self.now
        elif kind < 0.5:
            now = self.now + self.one(0, 1, 10, 1000, 20_000, 49_999, 50_000, 50_001)
        elif kind < 0.9:
            now = self.one(*self.limits()) + self.one(-1, 0, 0, 1)
        elif kind < 0.95 or self.draw.random() > self.noise:
            now = self.now - self.one(1, 50_000, 10**9, self.now)
        else:
            now = self.now + self.one(250_000, 1_000_000, 6_000_000, 30_000_000, HOUR)
        self.now = max(0, min(LAST, now))
        return self.now

    # Datagrams.

    def rx(self, datagram, gate=None, endpoint=None, now=None):
        gate = self.draw.randrange(len(self.script.gates)) if gate is None else gate
        digits = datagram.hex() or "-"
        digits = digits.upper() if self.draw.random() < 0.2 else digits
        self.event(f"rx {self.later() if now is None else now} {gate} {endpoint or self.endpoint()} {digits}")

    def group(self):
        """Of a message, as it stands in its head: mostly the node's own, else one that has a bit or a byte of it, or is 0 or 1."""
        own = self.node.config.group
        group = self.one(*[own] * 12, 0, 1, own ^ 1, own ^ 256, own % 256 * 256 + own // 256)
        return group.to_bytes(2, "big")

    def own_group(self):
        return self.node.config.group.to_bytes(2, "big")

    def state(self, kind, sender, session, line, start, endpoint=b"\x7f\0\0\1\x51\x48", ttl=5, group=None):
        group = self.own_group() if group is None else group
        parts = [node.entry(b"tmln", b"".join(map(node.eight, line))), node.entry(b"sess", session)]
        if start:
            parts.append(node.entry(b"stst", bytes([start[0]]) + node.eight(start[1]) + node.eight(start[2])))
        if endpoint:
            parts.append(node.entry(b"mep4", endpoint))
        if self.draw.random() < 0.1:
            parts.append(self.one(node.entry(b"mep6", bytes(18)), node.entry(b"none", b""), parts[0], parts[1], node.entry(b"sess", self.node.session)))
            self.draw.shuffle(parts)
        return b"_asdp_v\x01" + bytes([kind, ttl]) + group + sender + b"".join(parts)

    def drawn_state(self):
        held = self.node
        sender = self.one(*self.ids, *self.ids, held.id, self.name.encode())
        session = self.one(held.session, held.session, held.session, sender, sender, self.name.encode(), *self.ids)
        mpb = self.one(self.mpb(), self.mpb(), 1, 2**31, 60_059, 3_000_001, self.one(0, -1, 2**31 + 1))
        line = (mpb, self.time(held.timeline.beat, held.timeline.beat + 1), self.time())
        start = self.one(None, (self.one(0, 1, 255), self.time(), self.time(held.start.stamp, held.start.stamp + 1)))
        endpoint = self.one(None, b"\x7f\0\0\1\x51\x48", b"\x0a\0\0\1\x51\x49", bytes(6))
        return self.state(self.one(1, 1, 2), sender, session, line, start, endpoint, self.one(0, 1, 5, 5, 5, 255), self.group())

    def hear(self):
        self.rx(self.drawn_state())

    def bye(self):
        rows = list(self.node.rows) or [(0, self.ids[0])]
        gate, sender = self.one(*rows)
        sender = self.one(sender, sender, sender, sender, self.node.id, self.ids[0])
        payload = bytes(self.one(0, 0, 3))
        self.rx(b"_asdp_v\x01\x03" + bytes([self.one(0, 5)]) + self.group() + sender + payload, self.one(gate, gate, gate, 0))

    def ping(self):
        length = self.one(0, 8, 16, 31, 32, 32, 33, 34, 503, 504)
        self.rx(b"_link_v\x01\x01" + self.one(node.write_ping(7, 9)[9:], node.write_ping(self.now)[9:], self.draw.randbytes(length)))

    def pong(self):
        """A pong that fits the measurement that runs, or nearly so."""
        running, now = self.node.measurement, self.later()
        gate, endpoint = running.target if running else (0, b"\x7f\0\0\1\x51\x48")
        session = running.session if running else self.node.session
        m, wanted = max(now, self.node.moment), node.clip(self.node.offset + self.lead)
        host = m - 2 * self.one(0, 100, 5000) if abs(wanted) < 2**58 else m % 2 - (2**59 if wanted > 0 else -(2**59))
        ghost = wanted + (m + host) // 2 + self.draw.randint(-self.jitter, self.jitter)
        previous = 2 * wanted + 2 * host - ghost + self.draw.randint(-self.jitter, self.jitter)
        kind = self.draw.random() / self.noise
        if kind < 0.06:
            ghost, host, previous = self.one((0, host, previous), (ghost, 0, previous), (ghost, host, 0), (LIMIT, -LIMIT, LIMIT), (-LIMIT, LIMIT, -1))
        elif kind < 0.12:
            session = self.one(*self.ids, self.node.session)
        elif kind < 0.15:
            endpoint = self.one(b"\x7f\0\0\1\x51\x47", bytes(6))
        elif kind < 0.17:
            gate = self.draw.randrange(len(self.script.gates))
        numbers = ((b"__gt", ghost), (b"__ht", host), (b"_pgt", previous))
        parts = [node.entry(b"sess", session)] + [node.entry(key, node.eight(n)) for key, n in numbers if n or self.draw.random() < 0.5]
        if self.draw.random() < 0.05:
            self.draw.shuffle(parts)
        self.rx(b"_link_v\x01\x02" + b"".join(parts), gate, node.endpoint_text(endpoint), now)

    def damaged(self):
        pong = b"_link_v\x01\x02" + node.entry(b"sess", self.node.session) + node.entry(b"__gt", node.eight(LIMIT))
        whole = self.one(self.drawn_state(), node.write_ping(5, 6), pong)
        at = self.draw.randrange(len(whole))
        changed = whole[:at] + bytes([self.one(0, 1, 255, self.draw.randrange(256))]) + whole[at + 1 :]
        filled = whole + node.entry(b"fill", bytes(self.one(512, 513) - len(whole) - 8))
        self.rx(self.one(changed, changed, changed, whole[:at], whole + bytes(7), filled, b"", whole[:8]))

    # The other events.

    def tick(self):
        self.event(f"tick {self.later()}")

    def end(self):
        self.event(f"end {self.later()}")

    def commit(self):
        held, words = self.node, ""
        if self.draw.random() < 0.7:
            client = held.client
            mpb = self.one(client.mpb, client.mpb, self.mpb())
            beat = self.one(client.beat, client.beat, self.time(client.beat), self.time())
            time = self.one(client.time, client.time, self.time(client.time), self.time())
            words += f" t {mpb} {beat} {time}"
        if self.draw.random() < 0.5:
            stamp = self.time(held.client_start.stamp, held.client_start.stamp + 1, node.clip(held.start.stamp - held.offset))
            words += f" s {self.draw.randrange(2)} {self.time()} {stamp}"
        if self.script.version == 2 and self.draw.random() < 0.5:
            words += f" q {self.one(held.quantum, self.quantum(), self.quantum(), self.quantum())}"
        self.put_commit(words)

    def put_commit(self, words):
        at = self.time(self.node.moment)
        if self.draw.random() < 0.6 or self.number == LIMIT - 1:
            self.event(f"app {self.later()} {at}{words}")
        else:
            self.number = min(LIMIT - 1, self.number + self.one(1, 1, 1, 1, 2, 2**59))
            self.event(f"audio {self.later()} {self.number} {at}{words}")

    def go(self, count, steps):
        for _ in range(count):
            self.draw.choice(steps)(self)


ALL = (
    [Story.hear] * 12 + [Story.tick] * 10 + [Story.commit] * 6 + [Story.pong] * 4 + [Story.ping] * 2 + [Story.bye] * 2 + [Story.damaged] * 2 + [Story.end]
)


def walk(draw, count):
    """Everything, in any order."""
    story = Story(draw)
    story.go(count, ALL)
    return story


def peer_of(story, session, sender=None, gate=0, line=(500_000, 5_000_000, 0), endpoint=b"\x7f\0\0\1\x51\x48", ttl=255, start=(1, 7, 9)):
    story.rx(story.state(1, sender or session, session, line, start, endpoint, ttl), gate, "127.0.0.1:20808", story.now)


def measured(draw):
    """Other sessions, whose measurements end with an exact lead, or not at all; and the current one, thirty seconds later."""
    story = Story(draw, now=draw.choice([0, 1_000_000, draw.randrange(10**12)]))
    story.noise, far = draw.choice([0.02, 0.1, 0.3]), draw.random() < 0.2
    for turn in range(draw.randrange(1, 5)):
        session, same = draw.choice(story.ids), draw.random() < 0.3
        for _ in range(draw.randrange(1, 4)):
            line = story.node.timeline if same else (500_000, draw.choice([5_000_000, 5_000_000, 5_000_001]), draw.randrange(3))
            sender = draw.choice(story.ids + [session])
            peer_of(story, session, sender, draw.randrange(len(story.script.gates)), line, start=None if same else (1, 7, 9))
        story.lead = draw.choice([500_001, 500_001, 500_000, 499_999, 0, 0, -499_999, -500_000, -500_001, 10**9, -(10**9), 2**60])
        if far:
            story.lead = draw.choice([-story.node.moment, -story.node.moment - draw.choice([0, 499_999, 500_000, 500_001])]) if turn else 2**60
        old, story.still = story.node.session, same
        answered(story)
        story.still = False
        if same:
            story.now = min(LAST, story.node.moment + 50_000)
            story.event(f"tick {story.now}")
        if draw.random() < 0.3:
            peer_of(story, old, b"OLDPEER0")
        due = story.node.remeasuring
        if draw.random() < 0.15:
            for gate, sender in list(story.node.rows):
                story.rx(node.write_bye(story.node.config.group, sender), gate, now=story.now)
        if due is not None:
            for row in range(draw.randrange(3)):
                peer_of(story, story.node.session, story.ids[row], line=(500_000, draw.choice([5_000_000, story.node.timeline.beat + 1]), 0))
            story.now = max(0, min(LAST, due + draw.choice([-1, 0, 0, 0, 1])))
            story.lead = draw.choice([0, 1, -1, 10**6, -(10**6), 2**60])
            answered(story)
        story.go(draw.randrange(5), ALL)
    return story


def answered(story):
    """A tick, and pongs for the measurement that then runs, until it has ended."""
    story.event(f"tick {story.now}")
    for _ in range(120):
        if story.node.measurement is None:
            break
        steps = (Story.pong,) * 60 + (Story.tick, Story.hear, Story.ping, Story.commit)
        story.draw.choice(steps)(story)
        story.now = min(story.now, story.node.moment + 60_000)
    story.go(story.draw.randrange(3), (Story.pong, Story.tick, Story.commit))


def moved(draw):
    """A session of the same timeline and clock, and of as many peers, is joined."""
    story = Story(draw, now=1_000_000 + draw.randrange(10**9))
    story.noise, story.jitter, story.still = 0.02, 0, True
    story.go(draw.randrange(3), (Story.tick, Story.ping))
    line, count = story.node.timeline, draw.randrange(1, 4)
    # Of the second session no id is less.
    for session, senders in ((story.node.session, story.ids[:count]), (bytes(8), story.ids[4 : 4 + count])):
        for sender in senders:
            peer_of(story, session, sender, draw.randrange(len(story.script.gates)), line, start=None)
    story.event(f"tick {story.now}")
    for _ in range(120):
        if story.node.measurement is None:
            break
        story.pong()
    story.still = False
    story.go(draw.randrange(6), ALL)
    return story


def silent(draw):
    """Measurements that nobody answers."""
    story = Story(draw, now=draw.randrange(10**9))
    for _ in range(draw.randrange(5, 60)):
        if draw.random() < 0.15:
            sender = draw.choice(story.ids)
            session = draw.choice([*story.ids[:3], sender, story.node.session])
            peer_of(story, session, sender, draw.randrange(len(story.script.gates)), endpoint=draw.choice([None, bytes(6), b"\x0a\0\0\1\x51\x48"]))
        running = story.node.measurement
        story.now = (running.deadline if running else story.node.moment) + draw.choice([-1, 0, 0, 0, 1, 70_000])
        story.event(f"tick {story.now}")
        if draw.random() < 0.05:
            story.go(1, ALL)
    return story


def crowded(draw):
    """More peers than a gate has rows, or more sessions than are kept; then they go."""
    story = Story(draw, gates=draw.choice([1, 2]), peers=1, now=draw.randrange(10**9))
    many = [b"%08d" % k for k in range(131)]
    draw.shuffle(many)
    one_gate, sessions = draw.random() < 0.7, draw.choice([1, 2, 66, 131])
    for k, sender in enumerate(many):
        session = story.node.session if sessions == 1 else many[k % sessions]
        gate = 0 if one_gate else draw.randrange(len(story.script.gates))
        line = (500_000, draw.choice([k, draw.randrange(-5, 5)]), 0)
        peer_of(story, session, sender, gate, line, draw.choice([None, bytes(6)]), draw.choice([0, 5, 5, 255]))
        if draw.random() < 0.05:
            story.go(1, ALL)
    for _ in range(5):
        peer_of(story, story.node.session, draw.choice(many), line=(500_000, story.node.timeline.beat + 1, 0), ttl=draw.choice([0, 5]))
    story.go(40, ALL)
    for _ in range(draw.randrange(140)):
        story.bye()
    story.go(60, ALL)
    return story


def sessions(draw):
    """As many sessions as are kept, or one more or fewer; each is measured until a pong of another session comes."""
    story = Story(draw, now=draw.randrange(10**9))
    count = draw.choice([63, 64, 65, 66, 67])
    for k in range(count):
        peer_of(story, b"%08d" % k, endpoint=bytes([1, 2, 3, 4, 0, k]))
    for _ in range(count + 3):
        story.event(f"tick {story.now}")
        running = story.node.measurement
        if running and draw.random() < 0.98:
            gate, endpoint = running.target
            story.rx(b"_link_v\x01\x02" + node.entry(b"sess", b"\0" * 8) + node.entry(b"__gt", bytes(8)), gate, node.endpoint_text(endpoint), story.now)
        if draw.random() < 0.02:
            peer_of(story, draw.choice([b"%08d" % draw.randrange(70), story.node.session]), b"PEER9999")
    return story


def spent(draw):
    """A session whose beat origin is the last one, or the one before it."""
    story = Story(draw)
    peer_of(story, story.node.session, story.ids[0], line=(500_000, LIMIT - draw.choice([0, 0, 1, 2]), 0))
    steps = (Story.commit,) * 6 + (Story.tick, Story.hear, Story.bye)
    story.go(draw.randrange(3, 20), steps)
    return story


def wide(draw):
    """As many gates as there may be, each with as many destinations: a tick and an end reach them all."""
    story = Story(draw, gates=4, peers=32, now=draw.randrange(10**9))
    for session in story.ids[:2]:
        peer_of(story, session, gate=3)
    story.event(f"tick {story.now}")
    story.go(20, ALL)
    story.end()
    return story


# Scripts with one word, line or byte changed; most of them are broken.

# For each place of a word what may stand there and just not any more; the first of each is what stands there in the whole script.
ENDS = {
    "ONE": "1 2 0 3 10 11 1.0".split(),
    "TWO": "2 1 0 3 20 22 02 +2 -2 2.0 2\r".split(" "),
    "GROUP": ["1", "0", "65535", "65536", "65537", str(2**32), str(2**64)],
    "QUANTUM": ["4000000", "0", str(2**40), str(2**40 + 1), str(2**63), str(2**64)],
    "ID": "ABCDEFGH !ABCDEF~ ABCDEFG ABCDEFGHI ABCDEFG\x7f ABCDEFG\t ABCDEFG\u00e9".split(" "),
    "SEED": ["0", str(2**64 - 1), str(2**64)],
    "MPB": "500000 60060 60059 3000000 3000001".split(),
    "BIT": "1 0 2".split(),
    "NOW": ["1000000", "0", str(2**55), str(2**55 + 1)],
    "GATE": "1 0 2 3 4".split(),
    "HEX": ["5F6c", "-", "00", "0", "000", "0g", "g0", "-0", "--", "0-", "00" * 512, "00" * 513, "00" * 514, "0" * 1027],
    "LIMITED": ["-7", str(LIMIT), str(LIMIT + 1), str(-LIMIT), str(-LIMIT - 1)],
    "NUMBER": ["7", "6", "5", "4", str(LIMIT - 1), str(LIMIT)],
    "ENDPOINT": (
        "1.2.3.4:5 255.255.255.255:65535 0.0.0.0:0 256.1.1.1:1 1.256.1.1:1 1.1.256.1:1 1.1.1.256:1 1.1.1.1:65536 1.1.1.1 1.1.1.1: :1 1.1.1:1 1.1.1.1.1:1 "
        "01.1.1.1:1 1.1.1.1:01 -1.1.1.1:1 1.1.1.-1:1 1.1.1.-0:1 1.1.1.1:-1 1.1.1.1:-0 1..1.1:1 1.1.1.1:1:1 1.1.1.1;1 1,1.1.1:1 1.1.1.+1:1 .1.1.1.1:1"
    ).split(" "),
}
MISSPELLED = ["", "-0", "-1", "-01", "00", "01", "+1", "1.", "0x1", "1\r", "1\t", "\u00b2", "\u0661", "#", "x", "-", "9" * 40, "-" + "9" * 40]
HEADS = [
    """\
replay ONE
node ID SEED MPB BIT NOW
""",
    """\
replay TWO
node ID SEED MPB BIT NOW
group GROUP
quantum QUANTUM
""",
]
BEHIND = """\
gate ENDPOINT
gate ENDPOINT
to ENDPOINT
rx NOW GATE ENDPOINT HEX
tick NOW
app NOW LIMITED t MPB LIMITED LIMITED s BIT LIMITED LIMITED
app NOW LIMITED s BIT LIMITED LIMITED
app NOW LIMITED
audio NOW 5 LIMITED
audio NOW NUMBER LIMITED t MPB LIMITED LIMITED s BIT LIMITED LIMITED
end NOW
"""
# Commits of version 2 alone.
WITH_QUANTUM = """\
app NOW LIMITED t MPB LIMITED LIMITED s BIT LIMITED LIMITED q QUANTUM
app NOW LIMITED t MPB LIMITED LIMITED q QUANTUM
app NOW LIMITED s BIT LIMITED LIMITED q QUANTUM
app NOW LIMITED q QUANTUM
audio NOW 3 LIMITED s BIT LIMITED LIMITED q QUANTUM
audio NOW 4 LIMITED t MPB LIMITED LIMITED s BIT LIMITED LIMITED q QUANTUM
"""
NUMBER_5 = "audio NOW 5 LIMITED\n"
# Behind each head: in version 2 the commits with a quantum too.
BODIES = [BEHIND, BEHIND.replace(NUMBER_5, WITH_QUANTUM + NUMBER_5)]
# Commits of no version: parts in another order, twice, without their word, or with too few or too many.
NO_COMMITS = """\
app 5 5 q 5 s 1 0 0
app 5 5 q 5 t 500000 0 0
app 5 5 q 5 t 500000 0 0 s 1 0 0
app 5 5 s 1 0 0 t 500000 0 0
app 5 5 s 1 0 0 t 500000 0 0 q 5
app 5 5 t 500000 0 0 q 5 s 1 0 0
app 5 5 t 500000 0 0 t 500000 0 0 q 5
app 5 5 s 1 0 0 s 1 0 0 q 5
app 5 5 q 5 q 5
app 5 5 q
app 5 5 s 1 0 0 q
app 5 5 q 5 5
app 5 5 5
app 5 q 5
app q 5
audio 5 9 5 q 5 s 1 0 0
audio 5 9 5 t 500000 0 0 s 1 0 0 q 5 5
audio 5 9 5 q
audio 5 9 q 5
audio 5 q 5
"""


def spelled(words):
    return [ENDS.get(word, [word])[0] for word in words]


def text_of(lines):
    return ("\n".join(lines) + "\n").encode()


def edges(head, body):
    """A script of this head that has lines of all kinds, with one change; and what may stand at its ends, and how often."""
    whole = [line.split(" ") for line in (head + body).splitlines()]
    lines, first = [" ".join(spelled(words)) for words in whole], len(head.splitlines())
    for at, words in enumerate(whole):
        yield from lines_changed(lines, at)
        for line in words_changed(words):
            yield text_of(lines[:at] + [line] + lines[at + 1 :])
    gates = ["gate 1.2.3.4:5", "to 1.2.3.4:5"]
    others = ["replay 1", "replay 2", "group 1", "quantum 5", "app 5 t 500000 0 0 s 1 0 0", "app 5 5 q 5", "q 5", *gates]
    for more in ("", " ", "\r", "#", " #", "#\r", "end 5", "end 5 ", " end 5", *others):
        yield text_of(lines + [more])
        yield text_of([more] + lines)
    for count in (2, 3, 4, 5):
        yield text_of(lines[:first] + lines[first : first + 1] * count + lines[first + 3 :])
    for count in (31, 32, 33):
        yield text_of(lines[: first + 2] + lines[first + 2 : first + 3] * count + lines[first : first + 1])
    for more in (*NO_COMMITS.splitlines(), *(" ".join(spelled(line.split(" "))) for line in WITH_QUANTUM.splitlines())):
        yield text_of(lines + [more])
        yield text_of(lines[:-2] + [more] + lines[-2:])
    yield text_of(lines)[:-1]
    yield text_of(lines) + b"\0"


def lines_changed(lines, at):
    """The text with the line at a place taken out, doubled, exchanged with the next or behind others, and with nothing from there on."""
    yield text_of(lines[:at] + lines[at + 1 :])
    yield text_of(lines[: at + 1] + lines[at:])
    yield text_of(lines[:at])
    yield text_of(lines[:at] + lines[at : at + 2][::-1] + lines[at + 2 :])
    yield text_of([*lines[:at], "#", *lines[at : at + 1], "", *lines[at + 1 :]])
    for more in (["group 1"], ["quantum 5"], ["group 1", "quantum 5"]):
        yield text_of(lines[:at] + more + lines[at:])


def words_changed(words):
    """The line with one word changed, taken out or parted by two spaces."""
    for place, word in enumerate(words):
        wrong = ENDS[word] + MISSPELLED if word in ENDS else [word + "s", word[:-1], word.upper(), word + "\r"]
        for other in (*([one] for one in wrong), [], ["", *spelled([word])]):
            yield " ".join(spelled(words[:place]) + other + spelled(words[place + 1 :]))


def plain(draw):
    """Of version 1, with a quantum behind one of its commits, and with nothing else at fault."""
    story = Story(draw, version=1)
    story.go(draw.choice([0, 1, 5, 20]), ALL + [Story.commit] * 20)
    story.commit()
    lines = story.lines
    at = draw.choice([k for k, line in enumerate(lines) if line.startswith(("app ", "audio "))])
    lines[at] += f" q {story.quantum()}"
    return story


def broken(draw):
    story = Story(draw)
    story.go(draw.choice([0, 0, 1, 2, 5]), ALL + [Story.commit] * 20)
    lines, kind = story.lines, draw.random()
    at = draw.randrange(len(lines)) if draw.random() < 0.6 else len(lines) - 1
    words = lines[at].split(" ")
    place, drawn = draw.randrange(len(words)), draw.choice(MISSPELLED + draw.choice(list(ENDS.values())))
    if kind < 0.3:
        words[place] = drawn
    elif kind < 0.5:
        words.insert(place, drawn)
    elif kind < 0.6:
        del words[place]
    lines[at] = " ".join(words)
    if kind > 0.9:
        lines[at], lines[-1] = lines[-1], lines[at]
    elif kind > 0.8:
        lines = lines[:at]
    text = "\n".join(lines).encode() + draw.choice([b"", b"\n", b"\n\n", b"\n \n", b"\r\n", b"\0"])
    if 0.6 < kind < 0.8 and text:
        at = draw.randrange(len(text))
        text = text[:at] + bytes([draw.choice([0, 9, 10, 13, 32, 35, 45, 48, 127, 128, 255])]) + text[at + draw.randrange(2) :]
    return text


def scripts(draw):
    yield b""
    yield b"\n"
    yield b"#"
    for count in (1, 2, 3, 8, 8, 20, 20, 50):
        for _ in range(15):
            yield walk(draw, count).text()
    for _ in range(8):
        yield walk(draw, 1000).text()
    for kind, count in ((measured, 150), (moved, 20), (silent, 80), (crowded, 30), (sessions, 12), (spent, 40), (plain, 40)):
        for _ in range(count):
            yield kind(draw).text()
    for head, body in zip(HEADS, BODIES):
        yield from edges(head, body)
    for _ in range(300):
        yield broken(draw)
    for _ in range(6):
        yield wide(draw).text()


# Comparing.


def wanted(text, reached):
    try:
        return 0, node.output_of(*node.read_script(text), reached), None
    except node.Fault as fault:
        return 8, "", int(str(fault))


def told(program, text):
    return common.answer(program, ["replay"], text)


def show(program, text):
    text = common.shortened(text, lambda text: told(program, text) != wanted(text, Counter()), common.at_most(1000))
    common.show("the first script that differs, shortened", text, wanted(text, Counter()), told(program, text))


def main(program, seed):
    tally, faults, reached = common.Tally(), 0, Counter()
    for text in scripts(random.Random(seed)):
        want = wanted(text, reached)
        faults += want[0] == 8
        if not tally.note(told(program, text) == want) and tally.failed == 1:
            show(program, text)
    for text, by_hand in worked.replayed():
        found, read = told(program, text.encode()), wanted(text.encode(), Counter())
        if not tally.note(worked.agrees(found, by_hand) and worked.agrees(read, by_hand)):
            for name, what in (("wanted", by_hand), ("told", found), ("the plain reading", read)):
                print(f"{text[:200]!r}: {name} {str(what)[:400]}")
    print(f"{faults} scripts outside the grammar; reached: {tally.want_reached(REACHED, reached)}")
    return tally.end()


if __name__ == "__main__":
    common.begin(main, __doc__, has_seed=True)
