#!/usr/bin/env python3
"""Runs the built program's `control` over the loopback interface, and is its client: checks/control.py PROGRAM [SEED].

Beside a `live` run, lines that are drawn from the seed (1 where not given) are sent in pieces that are drawn too: right ones, numbers at
and past their ranges, spellings that are none, and lines with a byte changed. Each answer is held against a reading of its own of the table
in docs/CONTROL.md, and against the states: where two answers to `status` tell one timeline, and nothing was committed in between, each
beat and each time between them is by it. What is committed shows in the next status, and the other run hears the tempo and the start.
Then runs of a node alone: its first timeline, a change of tempo and a start against the clock of this machine; the same bytes in one piece,
in drawn ones and byte by byte; two lines sent at once, whose second answer waits for nothing; a client that goes away in mid-line, in
several ways; lines of 64, of 65 and of 100,000 bytes, with and without a line feed; 4,096 lines and one more; no client, a second one, and
one at another address; and each status that a run can end with, but for 9. The summaries count what was sent, and what a run tells on
standard error from where it listens on, of its client too, is held line by line. Last, what tools/control.py tells through a pipe, of a
run, of bars that begin at any beat, and of what is no run. No run is left behind.
The last line is 'N passed, N failed'.
"""
import os
import random
import re
import socket
import struct
import subprocess
import sys
import tempfile
import threading
import time

sys.dont_write_bytecode = True
import common  # noqa: E402
import node  # noqa: E402
from common import Differs, free_ports, started, want  # noqa: E402
from live import COUNTS, STATE, numbers  # noqa: E402

TOOL = os.path.join(common.HERE, "tools", "control.py")
LIMIT, LEAST_MPB, MOST_MPB, MOST_LINES = 2**60, 60_060, 3_000_000, 4096
RANGES = {b"tempo": (LEAST_MPB, MOST_MPB), b"beat": (-LIMIT, LIMIT), b"time": (-LIMIT, LIMIT)}
COMMITS = ("tempo", "play", "stop")
# How long the run beside the node under control lives, in microseconds, and how many lines are drawn for that one. They are sent long
# before its end, on a slow machine too, and other runs go on meanwhile.
BESIDE, DRAWN = 15_000_000, 1500
# Seconds until which something has to happen, wherever it is waited for.
PATIENCE = 30
LISTENS = re.compile(r"^jorazhil: listening for a client at (127\.0\.0\.1:[0-9]+)$", re.M)
CAME = re.compile(r"^jorazhil: a client came from (127\.0\.0\.1:[0-9]+)$", re.M)
JOURNAL = re.compile(r"^jorazhil: the journal took ([0-9]+) of ", re.M)
COMMENT = "# a node under control\n\n"

# Reading the table.


def asked(line):
    """What a line asks for: a word, and a number or None. None for a line that is answered `bad`."""
    if line in (b"status", b"play", b"stop"):
        return line.decode(), None
    word, _, digits = line.partition(b" ")
    if word not in RANGES or len(digits) > 20:
        return None
    try:
        number = int(digits)
    except ValueError:
        return None
    least, most = RANGES[word]
    return (word.decode(), number) if str(number).encode() == digits and least <= number <= most else None


def told(answer):
    """The word of an answer and its numbers, each spelled as it has to be."""
    word, *digits = answer.split(" ")
    values = [int(one) for one in digits if re.fullmatch("-?[0-9]{1,20}", one)]
    if [str(value) for value in values] != digits:
        raise Differs(f"an answer is not spelled so: {answer!r}")
    return word, values


def want_form(line, answer, commits):
    """The answer to a line has the form of the table, and its numbers their ranges. Answers how many commits there were with it."""
    ask = asked(line)
    if ask is None:
        want(f"the answer to {line[:40]!r}", answer, "bad")
        return commits
    if ask[0] in COMMITS:
        want(f"the answer to {line!r}", answer, f"ok {commits + 1}")
        return commits + 1
    word, values = told(answer)
    ranges = [(-LIMIT, LIMIT)]
    if ask[0] == "status":
        ranges = [(LEAST_MPB, MOST_MPB), (-LIMIT, LIMIT), (-LIMIT, LIMIT), (0, 1), (0, 2**32 - 1)]
    want(f"the word and the numbers of the answer {answer!r} to {line!r}", (word, len(values)), (ask[0], len(ranges)))
    want(f"whether {answer!r} is in range", [least <= value <= most for value, (least, most) in zip(values, ranges)], [True] * len(values))
    return commits


def by_timeline(line, status):
    """What a line about beats or times is answered by the timeline of a status."""
    (word, number), timeline = asked(line), node.Timeline(*status[:3])
    return f"{word} {(node.beat_at if word == 'beat' else node.time_at)(timeline, number)}"


def want_answers(lines, answers, commits=0):
    """All answers have their forms, and those between two statuses fit them. Answers how many were compared by a timeline."""
    want("how many lines are answered", len(answers), len(lines))
    last, since, compared = None, [], 0
    for line, answer in zip(lines, answers):
        commits = want_form(line, answer, commits)
        ask = asked(line)
        if ask is None:
            continue
        if ask[0] != "status":
            since.append((line, answer))
            continue
        status = told(answer)[1]
        if last is not None:
            compared += want_between(last, since, status)
        last, since = status, []
    return compared


def want_between(last, between, status):
    """The lines between two statuses, each with its answer: what was committed shows, and all else is by the timeline that both tell."""
    made = [asked(line) for line, _ in between if asked(line)[0] in COMMITS]
    tempos, starts = [number for word, number in made if word == "tempo"], [word for word, _ in made if word != "tempo"]
    want(f"the tempo behind {made}", status[0], (tempos or [last[0]])[-1])
    want(f"whether it plays behind {made}", status[3], int(starts[-1] == "play") if starts else last[3])
    if made or status[:3] != last[:3]:
        return 0
    for line, answer in between:
        want(f"the answer to {line!r} by {status[:3]}", answer, by_timeline(line, status))
    return len(between)


# Lines to send.

EDGES = sorted({edge + step for edge in (0, LEAST_MPB, MOST_MPB, 500_000, LIMIT, 2**63, 2**64, 10**18) for step in (-2, -1, 0, 1, 2)})
AT_EDGES = [b"%s %d" % (word, sign * edge) for word in RANGES for edge in EDGES for sign in (1, -1)]
WRONG = [
    *(b"", b" ", b"\r", b"\0", b"#", b"# status", b"nope", b"bad", b"ok 1", b"quit", b"stat", b"statuss", b"Status", b"STATUS", b" status"),
    *(b"status ", b"status\r", b"status 1", b"status\0", b"play 1", b"play ", b"stop\t", b"play stop", b"stop\r", b"tempo", b"tempo ", b"beat"),
    *(b"time", b"time ", b"tempo  500000", b"tempo 500000 ", b" tempo 500000", b"tempo\t500000", b"tempo 500000\r", b"tempo 0500000"),
    *(b"tempo +500000", b"tempo 5e5", b"tempo 500_000", b"tempo 500,000", b"tempo 500000.0", b"tempo 0x7a120", b"tempo -500000", b"beat -0"),
    *(b"beat 00", b"beat 01", b"beat -01", b"beat +1", b"beat 1.0", b"beat - 1", b"beat --1", b"beat -", b"beat 1 2", b"beat 1\r", b"beat\xa01"),
    *(b"time -0", b"time 07", b"time +0", b"time 1_0", b"time 1 ", b"beat \xd9\xa1", b"\xff\xfe", b"tempo 120", b"look", b"force 0", b"quantum 4"),
    *(b"at 0 tempo 500000", b"x" * 25, b"x" * 64, b"x" * 65, b"x" * 66, b"beat " + b"1" * 59, b"beat " + b"1" * 60, b"status" + b" " * 59, b"y" * 600),
    *(b"statu", b"PLAY", b"Tempo 500000", b"tempo500000", b"tempo 500000 1", b"tempo 18446744073710051616", b"beat ", b"beat  1", b"beat 1 "),
    *(b"time +1", b"time 01", b"time 1 2", b"at 0 play", b"status\xff", b"beat 1" + b"0" * 59),
]


def drawn_number(draw):
    if draw.random() < 0.3:
        return draw.choice(EDGES) * draw.choice((1, -1))
    return draw.randrange(-(2 ** draw.randrange(1, 62)), 2 ** draw.randrange(1, 62))


def drawn_line(draw):
    kind = draw.random()
    if kind < 0.25:
        return b"status"
    if kind < 0.6:
        return b"%s %d" % (draw.choice((b"beat", b"time")), drawn_number(draw))
    if kind < 0.65:
        # By the one of both every other beat is a half, which is rounded.
        mpb = draw.choice((2_000_000, draw.randrange(LEAST_MPB, MOST_MPB + 1)))
        return draw.choice((b"play", b"stop", b"tempo %d" % mpb))
    if kind < 0.85:
        return draw.choice(WRONG)
    line = bytearray(draw.choice((b"status", b"play", b"stop", b"tempo 500000", b"beat %d" % drawn_number(draw), b"time %d" % drawn_number(draw))))
    at = draw.randrange(len(line))
    line[at : at + draw.randrange(2)] = draw.choice((b"", b" ", b"0", b"-", b"+", b"1", b"\r", bytes([draw.randrange(11, 256)])))
    return bytes(line)


def drawn_lines(draw, count):
    """So many, and in between all wrong ones and all at the edges."""
    lines = [drawn_line(draw) for _ in range(count)] + WRONG + AT_EDGES
    draw.shuffle(lines)
    return lines


def text_of(lines):
    return b"".join(line + b"\n" for line in lines)


def pieces_of(draw, text):
    at = 0
    while at < len(text):
        size = draw.choice((1, 1, 2, draw.randrange(1, 9), draw.randrange(1, 90), 511, 512, 513, draw.randrange(1, 3000)))
        yield text[at : at + size]
        at += size


# A run, and its client.

WITHOUT_A_LINE = "jorazhil: the client left without a line; a line ends with a line feed\n"
# How a client went: it sent no more, or the connection broke in a read or in an answer.
LEFT = "jorazhil: the client left\n"
UNHEARD = "jorazhil: hearing the client failed: Connection reset by peer (os error 104)\n"
UNANSWERED = "jorazhil: answering the client failed: Connection reset by peer (os error 104)\n"
# The line that comes last, by the status.
WHY = {
    3: "the network failed: a gate could not be bound (its address must be this machine's, and its port free), or a socket broke; "
    "a run that had begun went on without it",
    6: "the journal was full before the run ended, and what came then was not taken; `--events` gives it more room, up to 524288",
    7: "standard output could not be written: No space left on device (os error 28); what was written is the front of the output",
    11: "the client could not be served: its endpoint could not be opened (its address must be this machine's, and its port free), "
    "or the connection broke; the run ended there",
    12: "the client sent more than 4096 lines, which are what one run answers; it ended there",
}


def unopened(at, reason):
    """What is told where a run can't listen."""
    return f"jorazhil: listening for a client at {at} failed: {reason}\n"


class Run:
    """A run under control, which listens where it was told to or can't."""

    def __init__(self, program, words=(), at="127.0.0.1:0", more="gate 127.0.0.1:0\n", out=subprocess.PIPE):
        self.error, self.out, self.at, self.came, self.counts = tempfile.TemporaryFile(), out, None, None, {}
        self.room = f"{words[1]} event{'' if words[1] == '1' else 's'}" if "--events" in words else "262144 events"
        self.before = time.monotonic_ns() // 1000
        script = COMMENT + "link 1\nsetup 500000 1\n" + more
        self.child = started([program, "control", at, *words], script, stdout=out, stderr=self.error)

    def told(self):
        # Without a seek, which would move the place where the run writes next.
        return os.pread(self.error.fileno(), 1 << 20, 0).decode()

    def listens(self):
        """Where it does. Notes the moment of this machine before which it began to."""
        end = time.monotonic() + PATIENCE
        while not (found := LISTENS.search(self.told())):
            if self.child.poll() is not None or time.monotonic() > end:
                raise Differs(f"it doesn't say where it listens: {self.told()!r}")
            time.sleep(0.001)
        self.behind = time.monotonic_ns() // 1000
        self.at = found[1]
        host, port = self.at.split(":")
        return host, int(port)

    def client(self):
        client = Client(self.listens())
        self.came = "{}:{}".format(*client.socket.getsockname())
        return client

    def end(self, status, lines, commits, ways=(LEFT,)):
        """It ends with this status, and its summary has so many lines logged, or any number for None, and so many commits. It tells one of
        these ways in which its client went, if there are any."""
        out, _ = self.child.communicate(timeout=PATIENCE)
        want("the status, and where it isn't 0 what was told", (self.child.returncode, ""), (status, "" if self.child.returncode == status else self.told()))
        if self.out == subprocess.PIPE:
            self.want_summary(out.decode().split("\n"), status, lines, commits)
        self.want_told_behind(status, self.counts["captures"] if lines is None else lines, ways)

    def want_summary(self, summary, status, lines, commits):
        self.counts, self.state = numbers(summary[0], "# live", COUNTS), numbers(summary[1], "# state", STATE)
        want("what is behind the summary", summary[2:], [""])
        lines = self.counts["captures"] if lines is None else lines
        wanted = {"reads": 0, "captures": lines, "app": commits, "audio": 0, "plays": 0, "clicks": 0}
        want("the summary", {name: self.counts[name] for name in wanted}, wanted)
        # The state has a number, from 0.
        want("the number of the last state", self.state["number"], self.counts["states"] - 1)
        if status not in (3, 6):
            want("the commits that the last state has", (self.state["app"], self.state["audio"]), (commits, 0))
            # Beside the commits there are the opening tick and the end at the least.
            want("whether there are as many events", self.counts["events"] >= commits + 2, True)

    def want_told_behind(self, status, lines, ways):
        """All that it tells behind how it was set up, in this order, but for what the system refused to send."""
        text = self.told()
        told = text[text.find("jorazhil: listening ") :].splitlines(keepends=True)
        told = [line for line in told if not line.startswith("jorazhil: the system refused ")]
        wanted = []
        if self.at is not None:
            # Of another program that was the client the port isn't known.
            came = self.came or "".join(CAME.findall(text))
            wanted = [f"jorazhil: listening for a client at {self.at}\n", f"jorazhil: a client came from {came}\n"]
        wanted += ([way for way in ways if way in told] or list(ways))[:1]
        events = self.counts["events"] if self.counts else "".join(JOURNAL.findall(text))
        wanted.append(f"jorazhil: the journal took {events} of {self.room}\n")
        wanted.append(f"jorazhil: the run took {lines} of at most 4096 lines of its client\n")
        if lines == 0 and status not in (3, 9, 11):
            wanted.append(WITHOUT_A_LINE)
        if status != 0:
            wanted.append(f"jorazhil: {WHY[status]}\n")
        want("what is told from where it listens on", told, wanted)

    def want_told(self, *texts):
        for text in texts:
            want(f"whether {text!r} is told in {self.told()!r}", text in self.told(), True)


class Client:
    def __init__(self, address):
        self.socket, self.bytes, self.asked = socket.create_connection(address, PATIENCE), b"", 0
        self.socket.setsockopt(socket.IPPROTO_TCP, socket.TCP_NODELAY, 1)

    def send(self, text):
        self.socket.sendall(text)

    def answers(self, count):
        """The next answers, which are so many."""
        while (there := self.bytes.count(b"\n")) < count:
            part = self.socket.recv(65536)
            if not part:
                raise Differs(f"the answers end behind {there} of {count}")
            self.bytes += part
        *lines, rest = self.bytes.split(b"\n", count)
        self.bytes = rest
        return [line.decode("latin-1") for line in lines]

    def ask(self, *lines):
        self.send(text_of(lines))
        self.asked += len(lines)
        return self.answers(len(lines))

    def by_one_status(self, lines_of):
        """The answers to lines that a status gives, between two answers that tell it."""
        while True:
            status = self.status()
            *answers, last = self.ask(*lines_of(status), b"status")
            if told(last)[1] == status:
                return status, answers

    def status(self):
        return told(self.ask(b"status")[0])[1]

    def rest(self):
        """What comes until the run's end. One that ends by itself may break the connection."""
        try:
            while part := self.socket.recv(65536):
                self.bytes += part
        except ConnectionResetError:
            pass
        return self.bytes

    def ends(self):
        """Says that no more comes, and nothing comes any more."""
        self.socket.shutdown(socket.SHUT_WR)
        want("what comes behind the answers", self.rest(), b"")
        self.socket.close()

    def breaks(self):
        """Goes away so that the connection breaks."""
        self.socket.setsockopt(socket.SOL_SOCKET, socket.SO_LINGER, struct.pack("ii", 1, 0))
        self.socket.close()


# The checks of a run.


class Beside:
    """A run under control beside a live one, which ends when its time is over."""

    def __init__(self, program, seed):
        self.program, self.draw, self.lines, self.compared = program, random.Random(seed), [], 0
        self.other = self.run = self.client = None

    def begin(self):
        own, other = free_ports(2)
        words = [self.program, "live", "--blocks", "0", "--group", "7"]
        script = f"link 1\nsetup 500000 1\ngate 127.0.0.1:{other}\nto 127.0.0.1:{own}\nat {BESIDE} look\n"
        self.other = started(words, script, stdout=subprocess.PIPE, stderr=subprocess.DEVNULL)
        self.run = Run(self.program, ["--group", "7"], more=f"gate 127.0.0.1:{own}\nto 127.0.0.1:{other}\n")
        self.client = self.run.client()

    def ask(self, *lines):
        self.lines += lines
        return self.client.ask(*lines)

    def until_peers(self, count):
        """The first status that tells so many peers."""
        end = time.monotonic() + PATIENCE
        while (status := told(self.ask(b"status")[0])[1])[4] != count:
            if time.monotonic() > end:
                raise Differs(f"there are never {count} peers")
            time.sleep(0.02)
        return status

    def drawn(self):
        """Nothing is committed before both are in one session."""
        self.begin()
        self.until_peers(1)
        want("the answer to the first commit", self.ask(b"tempo 300000"), ["ok 1"])
        lines = drawn_lines(self.draw, DRAWN)
        for piece in pieces_of(self.draw, text_of(lines)):
            self.client.send(piece)
            if self.draw.random() < 0.3:
                time.sleep(self.draw.uniform(0, 0.002))
        self.lines += lines
        self.compared = want_answers(lines, self.client.answers(len(lines)), 1)
        want(f"whether 200 lines were compared by a timeline, which it is for {self.compared}", self.compared >= 200, True)
        made = self.commits()
        want("the last answers", self.ask(b"stop", b"tempo 400000", b"play"), [f"ok {made + k}" for k in (1, 2, 3)])
        want("whether the live run goes on meanwhile", self.other.poll(), None)

    def commits(self):
        return sum((asked(line) or ("",))[0] in COMMITS for line in self.lines)

    def heard(self):
        """The live run tells its last state, and after that the one under control ends."""
        if self.client is None:
            raise Differs("no run under control was there")
        out, _ = self.other.communicate(timeout=PATIENCE)
        want("the live run's status", self.other.returncode, 0)
        other = numbers(out.decode().split("\n")[1], "# state", STATE)
        want("what the live run heard: tempo, playing, peers", [other[name] for name in ("mpb", "playing", "peers")], [400_000, 1, 1])
        mpb, _, _, playing, _ = self.until_peers(0)
        want("the last status", (mpb, playing), (400_000, 1))
        self.client.ends()
        self.run.end(0, len(self.lines), self.commits())
        self.run.want_told("; room for 262144 events, bars of 4 beats, group 7\n")
        want("the last state", [self.run.state[name] for name in ("mpb", "playing", "peers", "sync")], [400_000, 1, 0, 1])
        want("whether it has left their session", self.run.state["session"] != other["session"], True)


def own_time():
    return time.monotonic_ns() // 1000


def by_the_clock(program):
    """The node's clock began between the start of the process and the line that says where it listens."""
    run = Run(program, ["--quantum", "3000000"])
    client = run.client()
    mpb, beat, origin, playing, peers = client.status()
    want("the first status, without its time", (mpb, beat, playing, peers), (500_000, 0, 0, 0))
    want(f"whether the node opened at {origin}, of {run.behind - run.before} since it was started", 0 <= origin <= run.behind - run.before, True)
    asks = [b"beat %d" % (origin + t) for t in (-1, 0, 1_000_000)] + [b"time %d" % beat for beat in (-1, 0, 1, 4_000_000)]
    times = [f"time {origin + t}" for t in (-1, 0, 1, 2_000_000)]
    want("beats and times beside the origin", client.ask(*asks), ["beat -2", "beat 0", "beat 2000000", *times])
    sent = own_time()
    want("the answer to a tempo", client.ask(b"tempo 250000"), ["ok 1"])
    came = own_time()
    mpb, beat, later, _, _ = client.status()
    want(f"whether the tempo is another, and the origin as it was but for a rounding: {mpb}, {beat}", (mpb, abs(beat) <= 2), (250_000, True))
    # Both timelines have the same beat at the moment of the change, so that its distance from the origins is as the tempos are.
    moment = 2 * later - origin
    want(f"whether it was set at {moment}", sent - run.behind - 10 <= moment <= came - run.before + 10, True)
    want("the answers to starts", client.ask(b"play", b"play", b"stop"), ["ok 2", "ok 3", "ok 4"])
    want("whether it plays", client.status()[3], 0)
    sent = own_time()
    want("the answer to a start", client.ask(b"play"), ["ok 5"])
    came = own_time()
    want("whether it plays", client.status()[3], 1)
    # A beat of two seconds, of which a microsecond is half a microbeat.
    want("the answer to a slow tempo", client.ask(b"tempo 2000000"), ["ok 6"])
    (_, beat, *_), answers = client.by_one_status(lambda status: [b"beat %d" % (status[2] + t) for t in range(-3, 4)])
    want("halves, which go away from the origin", answers, [f"beat {beat + t}" for t in (-2, -1, -1, 0, 1, 1, 2)])
    client.ends()
    run.end(0, client.asked, 6)
    want("the quantum of its words", run.state["quantum"], 3_000_000)
    want(f"whether it was started at {run.state['start']}", sent - run.behind - 10 <= run.state["start"] <= came - run.before + 10, True)
    run.want_told("jorazhil: control at 127.0.0.1:0; room for 262144 events, bars of 3 beats\n")


def cut_in_any_way(program, seed):
    """Without commits and peers no answer changes."""
    draw, run = random.Random(seed), Run(program)
    client = run.client()
    lines = [line for line in drawn_lines(draw, 150) if (asked(line) or ("",))[0] not in COMMITS]
    text = text_of(lines)
    found = []
    for pieces in ([text], pieces_of(draw, text), (text[at : at + 1] for at in range(len(text)))):
        for piece in pieces:
            client.send(piece)
        found.append(client.answers(len(lines)))
    want_answers(lines, found[0])
    want("the answers to the bytes in drawn pieces", found[1], found[0])
    want("the answers to the bytes one by one", found[2], found[0])
    client.ends()
    run.end(0, 3 * len(lines), 0)


def sent_at_once(program):
    """Of two lines that are sent at once the second answer comes at once too. It doesn't wait until the client's system acknowledges the
    first, which Linux puts off for some 40 milliseconds where a line has followed each answer before. How long an answer takes at all goes
    by the machine, so it is held against that of one line."""
    run = Run(program)
    client = run.client()

    def took(*lines):
        begun = time.monotonic()
        client.ask(*lines)
        return round(1000 * (time.monotonic() - begun), 3)

    one, two = [], []
    for _ in range(21):
        one.append([took(b"beat %d" % k) for k in range(4)][-1])
        two.append(took(b"beat 1", b"beat 2"))
    longer = sorted(two)[10] - sorted(one)[10]
    want(f"whether two lines, {two}, take less than 20 milliseconds longer than one, {one}, in the median", longer < 20, True)
    client.ends()
    run.end(0, client.asked, 0)


def goes_away(program):
    """In mid-line, with and without the last answers read."""
    rests = (b"", b"tempo 4000", b"status", b"x" * 64, b"x" * 65, b"x" * 100_000, b"\r")
    runs = [Run(program) for _ in range(2 * len(rests) + 3)]
    for run, rest in zip(runs, 2 * rests):
        client = run.client()
        client.status()
        client.send(rest)
        if run in runs[: len(rests)]:
            client.ends()
        else:
            client.socket.close()
        run.end(0, 1, 0)
    nothing, in_a_read, in_an_answer = runs[2 * len(rests) :]
    nothing.client().ends()
    nothing.end(0, 0, 0)
    client = in_a_read.client()
    client.status()
    client.send(b"tempo 4000")
    client.breaks()
    in_a_read.end(11, 1, 0, [UNHEARD])
    client = in_an_answer.client()
    client.status()
    client.send(b"beat 1\n" * 3000)
    client.breaks()
    # It may have answered all of them by then, and so be in a read again.
    in_an_answer.end(11, None, 0, [UNANSWERED, UNHEARD])


def long_lines(program):
    run = Run(program)
    client, count = run.client(), 0
    for size in (63, 64, 65, 66, 511, 512, 513, 1024, 100_000):
        for filler in (b"x", b" ", b"status", b"beat 1"):
            line = (filler * size)[:size]
            want(f"the answer to {size} bytes", client.ask(line)[0], "bad")
            count += 1
        want(f"the word behind {size} bytes", client.ask(b"status")[0].split(" ")[0], "status")
        count += 1
    client.ends()
    run.end(0, count, 0)


def most_lines(program):
    """So many as are answered, a rest behind them, and one more."""
    lines = [(b"beat 1", b"nope", b"time -1", b"status")[k % 4] for k in range(MOST_LINES)]
    runs = [Run(program) for _ in range(3)]
    for run, more, status in zip(runs, (b"", b"tempo 400000", b"tempo 400000\n"), (0, 0, 12)):
        client = run.client()
        client.send(text_of(lines) + more)
        want_answers(lines, client.answers(MOST_LINES))
        if status:
            want("what comes behind the answers", client.rest(), b"")
        else:
            client.ends()
        run.end(status, MOST_LINES, 0, [] if status else [LEFT])


def without_a_client(program):
    """The node plays with its peers before there is a client, and says goodbye behind it."""
    with socket.socket(socket.AF_INET, socket.SOCK_DGRAM) as peer:
        peer.bind(("127.0.0.1", 0))
        peer.settimeout(PATIENCE)
        run = Run(program, more=f"gate 127.0.0.1:0\nto 127.0.0.1:{peer.getsockname()[1]}\n")
        alive, bye = b"_asdp_v\x01\x01", b"_asdp_v\x01\x03"
        heard = [peer.recv(513)[:9] for _ in range(2)]
        want("what is heard before there is a client", heard, [alive, alive])
        run.client().ends()
        run.end(0, 0, 0)
        while (kind := peer.recv(513)[:9]) == alive:
            pass
        want("what is heard at the end", kind, bye)


def second_client(program):
    """In a run whose journal has the most room."""
    run = Run(program, ["--events", "524288"])
    client = run.client()
    first = client.status()
    try:
        Client(run.listens()).ask(b"status")
    except ConnectionRefusedError:
        pass
    else:
        raise Differs("a second client was taken")
    want("the status behind the other's", client.status(), first)
    client.ends()
    run.end(0, 2, 0)


def ended(program, words, script=b""):
    """Status, standard output and standard error of a run that never waits for a client."""
    status, out, error = common.ended([program, "control", *words], script, timeout=PATIENCE)
    return status, out.decode(), error.decode()


def another_address(program):
    """Nobody listens at another address of this machine, and the client that comes then is served as ever."""
    run = Run(program)
    _, port = run.listens()
    try:
        Client(("127.0.0.2", port)).socket.close()
    except ConnectionRefusedError:
        pass
    else:
        raise Differs(f"a client was taken at 127.0.0.2:{port}")
    client = run.client()
    want("the answers", client.ask(b"nope", b"tempo 300000"), ["bad", "ok 1"])
    want("the tempo", client.status()[0], 300_000)
    client.ends()
    run.end(0, 3, 1)


def before_a_run(program):
    """Without an endpoint, and with a script that has a command. Words and heads at fault are in checks/statuses.py with their texts."""
    status, out, error = ended(program, [])
    want("a run without an endpoint", (status, out, error[:10], "Usage: jorazhil " in error), (2, "", "jorazhil: ", True))
    status, out, error = ended(program, ["127.0.0.1:0"], b"link 1\nsetup 500000 1\ngate 127.0.0.1:0\nat 0 look\n")
    want("a script with a command", (status, out, error.split(", ")[0]), (8, "", "jorazhil: line 4"))


def endpoint_in_use(program):
    """No line is served, and the run ends."""
    with socket.create_server(("127.0.0.1", 0)) as held:
        at = f"127.0.0.1:{held.getsockname()[1]}"
        Run(program, at=at).end(11, 0, 0, [unopened(at, "Address already in use (os error 98)")])
    at = "192.0.2.1:20900"
    Run(program, at=at).end(11, 0, 0, [unopened(at, "Cannot assign requested address (os error 99)")])


def other_faults(program):
    """A client is served without the network, and with a full journal; of two faults the status is that of the first in the order."""
    with socket.socket(socket.AF_INET, socket.SOCK_DGRAM) as held, socket.create_server(("127.0.0.1", 0)) as heard:
        held.bind(("127.0.0.1", 0))
        gate = f"gate 127.0.0.1:{held.getsockname()[1]}\n"
        run = Run(program, more=gate)
        client = run.client()
        want("the answers without the network", client.ask(b"tempo 400000", b"nope"), ["ok 1", "bad"])
        want("the tempo without the network", client.status()[0], 400_000)
        client.ends()
        run.end(3, 3, 1)
        run.want_told(
            f"jorazhil: the {gate[:-1]} could not be bound: Address already in use (os error 98); the run goes on without the network\n"
            "jorazhil: control without the network; room for 262144 events, bars of 4 beats\n"
        )
        at = f"127.0.0.1:{heard.getsockname()[1]}"
        Run(program, more=gate, at=at).end(3, 0, 0, [unopened(at, "Address already in use (os error 98)")])
    run = Run(program, ["--events", "1"])
    client = run.client()
    want("the answers with a full journal", client.ask(b"tempo 400000", b"nope"), ["ok 1", "bad"])
    want("the tempo with a full journal", client.status()[0], 400_000)
    client.ends()
    run.end(6, 3, 1)
    want("the events of a full journal", run.counts["events"], 1)
    run.want_told("; room for 1 event, bars of 4 beats\n")
    run = Run(program, ["--events", "1"])
    client = run.client()
    client.send(b"nope\n" * (MOST_LINES + 1))
    want("the answers with a full journal", set(client.answers(MOST_LINES)), {"bad"})
    run.end(6, MOST_LINES, 0, [])
    if os.path.exists("/dev/full"):
        with open("/dev/full", "wb") as full:
            run = Run(program, out=full)
            run.client().ends()
            run.end(7, 0, 0)


# What tools/control.py tells.

TYPED = """\
# a comment, and an empty line

status
beat
tempo 120.5
tempo 250000 us
play
watch 0.3
status
stop
beat 1:30.25
beat -1
time 16.25
beat
tempo 19
tempo 60059 us
tmpo 120
status now
time
beat soon
quit
status
"""
BPM_240 = "240.00 beats per minute, 250000 microseconds per beat"
# What stands in the place of each command's answer.
ANSWERED = [
    r"120.00 beats per minute, 500000 microseconds per beat, beat 0.000000 is at 0:0[0-9].[0-9]{6}, not playing, no peer, bar and beat aren't known",
    "commit 1: 120.50 beats per minute, 497925 microseconds per beat",
    f"commit 2: {BPM_240}",
    "commit 3: playing",
    r"240.00 beats per minute  bar [0-9]+\.[1-3]  playing  no peer",
    rf"{BPM_240}, beat (-?[0-9.]+) is at 0:([0-9.]+), playing, no peer, bar [0-9]+\.[1-3]",
    "commit 4: not playing",
    r"beat (-?[0-9.]+) is at 1:30\.250000",
    r"beat (-?[0-9.]+) is at -0:01\.000000",
    r"beat 16\.250000 is at 0:([0-9.]+)",
    r"beat [0-9.]+ is at 0:([0-9.]+), which is now, to ([0-9.]+) milliseconds",
]
RIGHT_TEMPO = "a tempo is from 20 to 999 beats per minute, as in `tempo 120`, or from 60060 to 3000000 microseconds per beat, as in `tempo 500000 us`, found"
AT_FAULT = f"""\
control: line 4: which time it is isn't known: --began tells it, or a `tempo` that changes the tempo; `beat 90.25` needs neither
control: line 15: {RIGHT_TEMPO} "19"
control: line 16: {RIGHT_TEMPO} "60059 us"
control: line 17: "tmpo" is no command; the nearest is `tempo`; `help` tells all
control: line 18: `status` takes no word behind it, found "now"
control: line 19: `time` takes a beat, as in `time 16` or `time 16.25`, found none
control: line 20: a time is in seconds, as in `beat 90.25` or `beat 1:30.25`, with at most six digits behind the point, and at most \
1,152,921,504,606, found "soon"
"""


def tell(words, text=""):
    """Status, standard output and standard error of the tool."""
    return common.ended([sys.executable, TOOL, *words], text, timeout=PATIENCE)


def millionths(text):
    return int(text.replace(".", ""))


def tool_in_a_pipe(program):
    run = Run(program)
    at = "{}:{}".format(*run.listens())
    begun = own_time()
    status, out, error = tell(["--bar", "3", at], TYPED)
    came = own_time()
    lines = out.splitlines()
    want("its status and standard error", (status, error), (2, AT_FAULT))
    want("how many lines it tells", len(lines), len(ANSWERED))
    found = [re.fullmatch(form, line) for form, line in zip(ANSWERED, lines)]
    want("the lines of other forms", [line for line, one in zip(lines, found) if not one], [])
    # The timeline is that of the second status.
    line = node.Timeline(250_000, millionths(found[5][1]), millionths(found[5][2]))
    beats = [node.beat_at(line, 90_250_000), node.beat_at(line, -1_000_000), node.time_at(line, 16_250_000)]
    want("its beats and its time", [millionths(one[1]) for one in found[7:10]], beats)
    now, off = millionths(found[10][1]), 1000 * float(found[10][2])
    want(f"whether it is {now} now, to {off}", begun - run.behind - off <= now <= came - run.before + off, True)
    # It asks `now` first, which is `bad` here, and for the status before and behind both tempos, since the first doesn't differ enough to
    # tell the time.
    run.end(0, 16, 4)


def tool_at_its_end(program):
    """It sends so many lines as are answered, and no more, so that the run ends well."""
    run = Run(program)
    at = "{}:{}".format(*run.listens())
    found = tell([at], "beat 1\n" * (MOST_LINES + 4))
    want("how many lines it tells", found[1].count("\n"), MOST_LINES - 1)
    want("its status and standard error", found[::2], (4, "control: the run has answered 4,096 lines, and one run answers no more\n"))
    run.end(0, MOST_LINES, 0)


def tool_and_bars(_):
    """Bar and beat are counted from the origin, whatever beat is there. What answers here is no node, so that its clock is known. A beat of
    3 seconds leaves room for a slow machine."""
    with socket.create_server(("127.0.0.1", 0)) as server:

        def serve():
            for _ in cases:
                client, _ = server.accept()
                with client:
                    for answer in (b"bad\n", b"status 3000000 1234567 3000000 0 0\n", b""):
                        client.recv(100)
                        client.sendall(answer)

        # Beats behind the origin, each with a tenth of one, for bars of four beats, of three and of none.
        cases = [(0, "4", "bar 1.1"), (7, "4", "bar 2.4"), (7, "3", "bar 3.2"), (7, "0", "beat 8"), (-1, "4", "bar 0.4")]
        threading.Thread(target=serve, daemon=True).start()
        for beats, bar, wanted in cases:
            began = time.time() - 3 * (beats + 1.1)
            status, out, error = tell(["--bar", bar, "--began", f"{began:.6f}", "{}:{}".format(*server.getsockname())], "status\n")
            want("its status and standard error", (status, error), (0, ""))
            want(f"where the beat is that is {beats} behind the origin", out.strip().rpartition(", ")[2], wanted)
            want("the origin", "beat 1.234567 is at 0:03.000000" in out, True)


def tool_without_a_run(_):
    """Nobody, another program, one that goes away at once or behind an answer, and words at fault."""
    with socket.create_server(("127.0.0.1", 0)) as server:
        port = server.getsockname()[1]
        at, answers = f"127.0.0.1:{port}", (b"hello\n", b"", b"bad\n", b"full\n", b"bad secret\n")

        def serve():
            for answer in answers:
                client, _ = server.accept()
                with client:
                    client.recv(100)
                    if answer:
                        client.sendall(answer)
                        # The next line, so that nothing is left that would break the connection.
                        client.recv(100)

        thread = threading.Thread(target=serve, daemon=True)
        thread.start()
        found = [tell([at], "status\nstatus\n") for _ in answers]
        thread.join(PATIENCE)
    want("of another program", found[0], (4, "", f'control: `now` was answered "hello". Is it `jorazhil serve` or `control` that listens at {at}?\n'))
    gone = f"control: the run at {at} did not answer (it was closed there). It serves another client, or has ended\n"
    want("of one that goes away at once", found[1], (3, "", gone))
    gone = "control: the connection ended behind 1 answers (it was closed there). The run's exit status tells why\n"
    want("of one that goes away behind an answer", found[2], (4, "", gone))
    want("of a server that has no seat", found[3], (3, "", f"control: the run at {at} has 15 clients already\n"))
    want("of a server that has a secret", found[4], (3, "", f"control: the run at {at} wants a word first: --secret tells it\n"))
    one = "A run of `control` takes one client: it refuses all others, and ends with that one"
    want("of nobody", tell([at], "status\n"), (3, "", f"control: nobody listens at {at}. Is `jorazhil serve {at}` running? {one}\n"))
    for words, sentence in (
        ([], "an endpoint is missing: the one at which `jorazhil serve` or `control` listens, as in 127.0.0.1:20900; --help tells all"),
        (["here"], 'an endpoint is an IPv4 address and a port, as in 127.0.0.1:20900, found "here"'),
        (["127.0.0.256:1"], 'an endpoint is an IPv4 address and a port, as in 127.0.0.1:20900, found "127.0.0.256:1"'),
        (["--every", "0.05", at], '--every is a number of seconds, 0.1 at the least, found "0.05"'),
        (["--began", "yesterday", at], '--began is a number of seconds, 0 at the least, found "yesterday"'),
        (["--began", "99999999999", at], "--began is later than it is now"),
        (["--bogus", at], "unrecognized arguments: --bogus; --help tells all"),
    ):
        want(f"{words}", tell(words), (2, "", f"control: {sentence}\n"))
    status, out, error = tell(["--help"])
    want("--help", (status, error, [word for word in ("4,096 lines", "Exit status:", "--watch", "tempo BPM") if word not in out]), (0, "", []))


def main(program, seed):
    beside = Beside(program, seed)
    checks = [
        ("lines that are drawn, beside a live run", beside.drawn),
        ("a run by the clock", by_the_clock, program),
        ("lines that are cut in any way", cut_in_any_way, program, seed),
        ("lines that are sent at once", sent_at_once, program),
        ("clients that go away", goes_away, program),
        ("long lines", long_lines, program),
        ("4,096 lines and one more", most_lines, program),
        ("a node without a client", without_a_client, program),
        ("a second client", second_client, program),
        ("another address", another_address, program),
        ("words and a script at fault", before_a_run, program),
        ("an endpoint in use", endpoint_in_use, program),
        ("other faults", other_faults, program),
        ("tools/control.py through a pipe", tool_in_a_pipe, program),
        ("tools/control.py at the end of the lines", tool_at_its_end, program),
        ("tools/control.py and bars", tool_and_bars, program),
        ("tools/control.py without a run", tool_without_a_run, program),
        ("what the live run heard", beside.heard),
    ]
    tally = common.carried_out(checks)
    print(f"{len(beside.lines)} lines beside a live run, {beside.commits()} of them commits, and {beside.compared} compared by a timeline")
    return tally.end()


if __name__ == "__main__":
    common.begin(main, __doc__, has_seed=True)
