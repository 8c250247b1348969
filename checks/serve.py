#!/usr/bin/env python3
"""Runs the built session server over the loopback interface, with many clients at once: checks/serve.py SERVER [SEED].

Fifteen clients send lines that are drawn from the seed (1 where not given), in pieces that are drawn too. Each answer is held against a
plain reading of the table in docs/SERVER.md: its form; numbers of commits, which rise by one over all clients; the clock of `now`, against
that of this machine; and, where two answers to `status` tell one timeline, each beat, phase and time between them by the formulas. No two
clients set the same tempo or quantum, so nothing changed there in between. Lines `changed` come only while a client watches, and each
differs from the one before. Alone, each edit is held against its formula. Then what others do to clients that are well: one that never
reads, one that watches and doesn't read, ones that vanish, CR LF, a million bytes without a line feed, 10,000 lines at once by three, and a
flood, beside which the median of a quiet client is told over that without it. A change by a second server is told to a watching client:
how long after its datagram came is told too. Both fail only where they are gross. Then a sixteenth client, secrets, ways to end, an hour's
hundredth, a full journal, gates that can't be bound or are refused, an endpoint in use, a script's head, and words at fault.
Where SERVER isn't built nothing is looked at. The last line is 'N passed, N failed'.
"""
import contextlib
import os
import random
import re
import socket
import struct
import subprocess
import sys
import tempfile
import threading
import time
from collections import Counter, namedtuple
from concurrent.futures import ThreadPoolExecutor
from statistics import median

sys.dont_write_bytecode = True
import common  # noqa: E402
import node  # noqa: E402
from common import Differs, come, free_ports, listener, started, want, write  # noqa: E402
from control import text_of  # noqa: E402
from node import LIMIT, Timeline, beat_at, clip, near, tidy, time_at  # noqa: E402

LEAST_MPB, MOST_MPB, MOST_QUANTUM, SEATS = 60_060, 3_000_000, 2**40, 15
# Drawn lines of each of the fifteen; changes by a second server; lines at once by each of three, and those that a quiet client asks.
DRAWN, CHANGES, AT_ONCE, SAMPLES = 150, 12, 10_000, 150
# Seconds until which something has to happen, wherever it is waited for; how long a program runs with `--hours 0.01`.
PATIENCE, HUNDREDTH = 20, 36
# Microseconds: by how much the clock may be off, and how late a watching client may be told; what is gross beside a flood.
SLACK, LATE, GROSS = 100_000, 100_000, 100_000
TOLD = "session_server: "
LISTENS = re.compile(rf"^{TOLD}listening.* at (127\.0\.0\.1):([0-9]+)$", re.M)
NUMBERS = re.compile(r"(0|-?[1-9][0-9]*)( (0|-?[1-9][0-9]*))*")
VIEW = ((LEAST_MPB, MOST_MPB), (-LIMIT, LIMIT), (-LIMIT, LIMIT), (0, 1), (-LIMIT, LIMIT), (0, 2**32 - 1), (0, MOST_QUANTUM))
View = namedtuple("View", "mpb beat time playing start peers quantum session number")
SIGNED, TEMPO, QUANTUM = (-LIMIT, LIMIT), (LEAST_MPB, MOST_MPB), (0, MOST_QUANTUM)
# The numbers behind each word; a word may come more than once.
ASKS = [
    *((word, ()) for word in ("status", "now", "watch", "unwatch", "clients", "gates", "end", "play", "stop")),
    *((word, (SIGNED,)) for word in ("beat", "phase", "time", "play", "stop")),
    *(("tempo", (TEMPO,)), ("quantum", (QUANTUM,)), ("force", (SIGNED, SIGNED)), ("request", (SIGNED, SIGNED))),
]
COMMITS = {"tempo", "bpm", "play", "stop", "force", "request", "quantum"}
FLOODER = """
import socket, sys, threading
flood = socket.create_connection(("127.0.0.1", int(sys.argv[1])))
def read():
    print(end=flood.recv(1).decode(), flush=True)
    while flood.recv(65536):
        pass
threading.Thread(target=read, daemon=True).start()
while True:
    flood.sendall(b"status\\nnow\\n" * 500)
"""


def now():
    return time.monotonic_ns() // 1000


def until(what, is_so):
    """Waits for it, and answers it; it has to come."""
    end = time.monotonic() + PATIENCE
    while not (found := is_so()):
        if time.monotonic() > end:
            raise Differs(f"{what} never comes")
        time.sleep(0.005)
    return found


# The formulas.


def phase(x, q):
    return x % q if q else 0


def next_match(x, y, q):
    return x + phase(y - x, q)


def closest_match(x, y, q):
    return next_match(x - near(q, 2), y, q) if q else x


def encoded_beat(line, at, q):
    return closest_match(beat_at(line, at), beat_at(line, at) - line.beat, q)


def encoded_time(line, x, q):
    into = phase(x - line.beat, q)
    return time_at(line, clip(x - into + q - closest_match(q - into, q - phase(x, q), q)))


def tempo_set(line, mpb, at):
    return tidy(Timeline(mpb, line.beat, time_at(Timeline(mpb, beat_at(line, at), at), line.beat)))


def forced(line, x, at, q):
    there = encoded_beat(line, at, q)
    match = closest_match(there, x, q)
    shift = time_at(line, clip(match - there)) - time_at(line, 0)
    return tidy(Timeline(line.mpb, clip(line.beat + x - match), clip(line.time - shift)))


def requested(line, x, at, q):
    """Beside peers."""
    return forced(line, x, encoded_time(line, clip(next_match(encoded_beat(line, at, q), x, q)), q), q)


def since(line, at):
    """The beat at a time, counted from the beat origin."""
    return beat_at(line, at) - line.beat


# Reading the table.


def mpb_of(bpm):
    """Of beats per minute with at most six places, as digits with a point or without one; None where they are none."""
    parts = re.fullmatch(rb"(0|[1-9][0-9]{0,8})(?:\.([0-9]{1,6}))?", bpm)
    millionths = int(parts[1]) * 10**6 + int((parts[2] or b"").ljust(6, b"0")) if parts else 0
    mpb = near(60 * 10**12, millionths) if millionths else 0
    return mpb if LEAST_MPB <= mpb <= MOST_MPB else None


def asked(line):
    """What a line asks for: a word, and its numbers; of `bpm` the tempo. None for a line that is answered `bad`."""
    word, *digits = line.removesuffix(b"\r").split(b" ")
    if word == b"bpm" and len(digits) == 1:
        mpb = mpb_of(digits[0])
        return mpb and ("bpm", [mpb])
    if not all(re.fullmatch(rb"0|-?[1-9][0-9]{0,18}", one) for one in digits):
        return None
    numbers = [int(one) for one in digits]
    for name, ranges in ASKS:
        if name.encode() == word and len(ranges) == len(numbers):
            return (name, numbers) if all(least <= n <= most for n, (least, most) in zip(numbers, ranges)) else None
    return None


def view_of(answer, word="status"):
    """The nine words behind `status` or `changed`."""
    first, *rest = answer.split(" ")
    want(f"the word and how many follow it of {answer!r}", (first, len(rest)), (word, 9))
    *numbers, session, number = rest
    want(f"whether the session of {answer!r} is an id", bool(re.fullmatch("[0-9a-f]{16}", session)), True)
    want(f"whether numbers of {answer!r} are spelled so", bool(NUMBERS.fullmatch(" ".join([*numbers, number]))), True)
    view = View(*map(int, numbers), session, int(number))
    want(f"whether {answer!r} is in range", all(least <= n <= most for n, (least, most) in zip(view, VIEW)) and view.number >= 0, True)
    return view


def line_of(view):
    return Timeline(*view[:3])


def numbers_of(answer, word, count):
    """The numbers behind a word."""
    first, _, rest = answer.partition(" ")
    want(f"whether {answer!r} is `{word}` and {count} numbers", (first, bool(NUMBERS.fullmatch(rest)), len(rest.split(" "))), (word, True, count))
    return [int(one) for one in rest.split(" ")]


def gates_of(answer):
    """Of each gate whether it is bound, and how many datagrams were refused there."""
    word, count, *rest = answer.split(" ")
    want(f"the words of {answer!r}", (word, count.isdigit() and len(rest)), ("gates", 2 * int(count)))
    return [(state, int(refused)) for state, refused in zip(rest[::2], rest[1::2])]


def want_bad(line, answer):
    """A few words behind it."""
    want(f"whether {answer!r} to {line[:60]!r} is `bad` and a reason", bool(re.fullmatch(r"bad [ -~]{3,150}", answer)), True)


def want_form(line, answer, clients=None):
    """The answer to a line has the form of the table."""
    ask = asked(line)
    if ask is None or ask[0] == "end":
        want_bad(line, answer)
    elif ask[0] in COMMITS:
        numbers_of(answer, "ok", 1)
    elif ask[0] in ("watch", "unwatch"):
        want(f"the answer to {line!r}", answer, "ok")
    elif ask[0] == "status":
        view_of(answer)
    elif ask[0] == "gates":
        want(f"the answer to {line!r}", [state for state, _ in gates_of(answer)], ["bound"])
    else:
        numbers = numbers_of(answer, ask[0], 3 if ask[0] == "now" else 1)
        if ask[0] == "clients" and clients:
            want(f"the answer to {line!r}", numbers, [clients])


def want_by(line, answer, view):
    """A line about beats and times is answered by the timeline and quantum of a state. Answers whether it is such a line."""
    (word, numbers), timeline = asked(line), line_of(view)
    if word == "now":
        at, *found = numbers_of(answer, "now", 3)
        want(f"beat and phase of {answer!r} by {view}", found, [since(timeline, at), phase(since(timeline, at), view.quantum)])
    elif word in ("beat", "phase"):
        beat = since(timeline, numbers[0])
        want(f"the answer to {line!r} by {view}", answer, f"{word} {beat if word == 'beat' else phase(beat, view.quantum)}")
    elif word == "time":
        want(f"the answer to {line!r} by {view}", answer, f"time {time_at(timeline, clip(numbers[0] + timeline.beat))}")
    return word in ("now", "beat", "phase", "time")


# A server and its clients.


class Server:
    def __init__(self, program, *words, at="127.0.0.1:0", given=None):
        self.error, self.begun = tempfile.TemporaryFile(), now()
        stdin = {"stdin": subprocess.DEVNULL if given is None else given}
        self.child = started([program, at, *map(str, words)], stdout=subprocess.PIPE, stderr=self.error, **stdin)

    def told(self):
        # Without a seek, which would move the place where the server writes next.
        return os.pread(self.error.fileno(), 1 << 22, 0).decode()

    def address(self):
        found = until("where it listens", lambda: LISTENS.search(self.told()) or self.child.poll() is not None)
        if found is True:
            raise Differs(f"it ended with status {self.child.returncode}, and told {self.told()!r}")
        return found[1], int(found[2])

    def client(self, **options):
        return Client(self.address(), **options)

    def want_told(self, form):
        until(f"{form!r} in {self.told()!r}", lambda: re.search(form, self.told()))

    def ends(self, status=0):
        found = self.child.wait(timeout=PATIENCE + HUNDREDTH)
        want(f"the status of a server that told {self.told()[-400:]!r}", found, status)

    def stop(self):
        """Ends what a case has no more use for."""
        self.child.kill()
        self.child.wait()


@contextlib.contextmanager
def serving(program, *words, **options):
    server = Server(program, *words, **options)
    try:
        yield server
    finally:
        server.stop()


class Client:
    """A client, and all that came to it: answers, and lines `changed` with the count of answers before, each with its moment."""

    def __init__(self, address, buffer=None):
        self.socket, self.rest, self.answers, self.changes, self.sent, self.taken = socket.socket(), b"", [], [], [], 0
        if buffer:
            self.socket.setsockopt(socket.SOL_SOCKET, socket.SO_RCVBUF, buffer)
            self.socket.setsockopt(socket.SOL_SOCKET, socket.SO_SNDBUF, buffer)
            # By small segments the system of the server sees that it needs no large buffer either.
            self.socket.setsockopt(socket.IPPROTO_TCP, socket.TCP_MAXSEG, 536)
        self.socket.settimeout(PATIENCE)
        self.socket.connect(address)
        self.socket.setsockopt(socket.IPPROTO_TCP, socket.TCP_NODELAY, 1)

    def port(self):
        return self.socket.getsockname()[1]

    def send(self, text):
        self.sent += [now()] * text.count(b"\n")
        self.socket.sendall(text)

    def take(self):
        """What comes next; whether something did."""
        part, at = self.socket.recv(65536), now()
        *lines, self.rest = (self.rest + part).split(b"\n")
        for line in (line.decode("latin-1") for line in lines):
            if line.startswith("changed "):
                self.changes.append((at, line, len(self.answers)))
            else:
                self.answers.append((at, line))
        return bool(part)

    def take_what_is_there(self):
        self.socket.setblocking(False)
        try:
            while self.take():
                pass
        except BlockingIOError:
            pass
        self.socket.settimeout(PATIENCE)

    def next(self, count):
        while len(self.answers) < self.taken + count:
            if not self.take():
                raise Differs(f"the answers end after {len(self.answers) - self.taken} of {count}")
        self.taken += count
        return [line for _, line in self.answers[self.taken - count : self.taken]]

    def ask(self, *lines):
        self.send(text_of(lines))
        return self.next(len(lines))

    def ask_one(self, line):
        return self.ask(line.encode())[0]

    def view(self):
        return view_of(self.ask_one("status"))

    def until_view(self, what, is_so):
        return until(what, lambda: (view := self.view()) and is_so(view) and view)

    def next_change(self, count):
        while len(self.changes) < count:
            if not self.take():
                raise Differs("the connection ended before a change was told")
        return self.changes[count - 1]

    def ends(self):
        """Nothing comes any more, and the connection is closed there."""
        with contextlib.suppress(ConnectionResetError):
            while self.take():
                pass
        found = [line for _, line in self.answers[self.taken :]], self.rest
        want("what comes before the connection ends", found, ([], b""))

    def vanish(self):
        self.socket.setsockopt(socket.SOL_SOCKET, socket.SO_LINGER, struct.pack("ii", 1, 0))
        self.socket.close()


# Drawn lines.

EDGES = sorted({edge + step for edge in (0, LEAST_MPB, MOST_MPB, MOST_QUANTUM, LIMIT, 2**63, 2**64, 10**18) for step in (-2, -1, 0, 1, 2)})
WRONG = [
    *(b"", b" ", b"\r", b"\0", b"#", b"nope", b"bad", b"ok 1", b"quit", b"Status", b" status", b"status ", b"status 1", b"status\r\r", b"now 1"),
    *(b"now ", b"sta\rtus", b"play 1 2", b"play ", b"stop\t", b"stop x", b"tempo", b"tempo  500000", b"tempo 0500000", b"tempo +500000", b"tempo 5e5"),
    *(b"tempo 60059", b"tempo 3000001", b"tempo -500000", b"tempo 500000.0", b"bpm", b"bpm 19", b"bpm 1000", b"bpm -120", b"bpm 120.", b"bpm .5"),
    *(b"bpm 0120", b"bpm 120.0000001", b"bpm 120,5", b"bpm 1e2", b"bpm 120 1", b"beat", b"beat -0", b"beat 01", b"beat 1.0", b"beat --1", b"phase"),
    *(b"phase x", b"phase 1 2", b"time", b"time 07", b"time +0", b"force", b"force x 0", b"force 0 x", b"force 1 2 3", b"request", b"quantum"),
    *(b"request 0 -0", b"quantum -1", b"quantum 1099511627777", b"watch 1", b"unwatch 1", b"watch\t", b"clients 1", b"gates 0", b"end", b"end 1"),
    *(b"hello", b"hello word", b"\xff\xfe", b"beat \xd9\xa1", b"x" * 127, b"x" * 128, b"x" * 129, b"y" * 600, b"status" + b" " * 122, b"beat 1" + b"0" * 125),
]
TELLING = (b"status", b"status", b"status", b"now", b"now", b"clients", b"gates")


def drawn_number(draw):
    if draw.random() < 0.2:
        return clip(draw.choice(EDGES) * draw.choice((1, -1)))
    return draw.randrange(-(2 ** draw.randrange(1, 61)), 2 ** draw.randrange(1, 61))


def drawn_commit(draw, tempos):
    """Where tempos and quanta that nobody had before come from."""
    word, at = draw.choice((b"tempo", b"bpm", b"play", b"stop", b"force", b"request", b"quantum")), draw.randrange(0, 10**7)
    if word == b"tempo":
        return b"tempo %d" % next(tempos)
    if word == b"bpm":
        # Each is far enough from all others that they are rounded to different tempos.
        return b"bpm %.3f" % (60_000_000 / next(tempos))
    if word == b"quantum":
        return b"quantum %d" % (7 * next(tempos))
    if word in (b"play", b"stop"):
        return draw.choice((word, b"%s %d" % (word, at)))
    return b"%s %d %d" % (word, draw.randrange(-(10**8), 10**8), at)


def drawn_line(draw, tempos):
    kind = draw.random()
    if kind < 0.4:
        return draw.choice(TELLING)
    if kind < 0.7:
        return b"%s %d" % (draw.choice((b"beat", b"phase", b"time")), drawn_number(draw))
    if kind < 0.8:
        return draw.choice((b"watch", b"watch", b"watch", b"unwatch"))
    if kind < 0.88:
        return drawn_commit(draw, tempos)
    return draw.choice(WRONG)


def drawn_lines(draw, tempos, count, seat):
    """So many, and of those at fault and at edges each client sends its own part. Some stand between two that tell the state. Each line may
    end with a carriage return too."""
    edges = [b"%s %d" % (draw.choice((b"beat", b"phase", b"time")), sign * edge) for edge in EDGES for sign in (1, -1)]
    parts = [[drawn_line(draw, tempos)] for _ in range(count)] + [[line] for line in (WRONG + edges)[seat::SEATS]]
    for _ in range(count // 15):
        asks = [b"%s %d" % (word, drawn_number(draw)) for word in (b"beat", b"phase", b"time")]
        parts.append([b"status", *asks, b"now", b"status"])
    draw.shuffle(parts)
    lines = [line for part in parts for line in part]
    return [line + b"\r" * (draw.random() < 0.1 and not line.endswith(b"\r")) for line in lines]


def far_apart(draw):
    """Tempos that are a few hundred microseconds apart, in a drawn order."""
    tempos = list(range(100_000, 2_000_000, 500))
    draw.shuffle(tempos)
    return iter(tempos)


def want_each_new(changes):
    """Each has its form, and a state that is no older than the one before, from which it differs where no answer came in between."""
    last, at = None, 0
    for _, line, behind in changes:
        view = view_of(line, "changed")
        if last and (view == last and at == behind or view.number < last.number):
            raise Differs(f"after {last} comes {view}")
        last, at = view, behind


class Drawn:
    """A client that sends drawn lines in drawn pieces, while it takes what comes."""

    def __init__(self, client, lines, seed):
        self.client, self.lines, self.draw = client, lines, random.Random(seed)

    def run(self):
        text, at = text_of(self.lines), 0
        while at < len(text):
            size = self.draw.choice((1, 2, 127, 255, 256, 257, *(self.draw.randrange(1, most) for most in (9, 90, 400))))
            self.client.send(text[at : at + size])
            at += size
            self.client.take_what_is_there()
            if self.draw.random() < 0.5:
                time.sleep(self.draw.uniform(0, 0.05))
        self.client.next(len(self.lines))

    def rows(self):
        return list(zip(self.lines, (line for _, line in self.client.answers)))

    def want_answers(self):
        """Each has its form. Answers how many were compared by a state."""
        want("how many lines are answered", len(self.client.answers), len(self.lines))
        last, between, compared = None, [], 0
        for line, answer in self.rows():
            want_form(line, answer, SEATS)
            if asked(line) is None:
                continue
            if asked(line)[0] != "status":
                between.append((line, answer))
                continue
            view = view_of(answer)
            if last and view.number < last.number:
                raise Differs(f"after state {last.number} comes {view.number}")
            if last and (view[:3], view.quantum) == (last[:3], last.quantum):
                compared += sum(want_by(*row, view) for row in between)
            last, between = view, []
        return compared

    def commits(self):
        return [numbers_of(answer, "ok", 1)[0] for line, answer in self.rows() if (asked(line) or ("",))[0] in COMMITS]

    def want_changes(self):
        """They come only while it watches, each differs from the one before, and no state is older. Answers how many came."""
        watching = [False]
        for line, _ in self.rows():
            word = (asked(line) or ("",))[0]
            watching.append(word == "watch" or watching[-1] and word != "unwatch")
        for _, line, behind in self.client.changes:
            want(f"whether it watches after {behind} answers, where {line!r} comes", watching[behind], True)
        want_each_new(self.client.changes)
        return len(self.client.changes)

    def clock(self):
        """By how much the node's clock is ahead of this machine's, at the least and at the most, by each `now`."""
        bounds = [(-(2**62), 2**62)]
        for (line, answer), sent, (came, _) in zip(self.rows(), self.client.sent, self.client.answers):
            if asked(line) and asked(line)[0] == "now":
                moment = numbers_of(answer, "now", 3)[0]
                bounds.append((moment - came, moment - sent))
        moments = [numbers_of(answer, "now", 3)[0] for line, answer in self.rows() if (asked(line) or ("",))[0] == "now"]
        want("whether its moments never fall", moments, sorted(moments))
        return max(least for least, _ in bounds), min(most for _, most in bounds)


def fifteen(program, seed):
    draw = random.Random(seed)
    tempos = far_apart(draw)
    with serving(program) as server:
        drawn = [Drawn(server.client(), drawn_lines(draw, tempos, DRAWN, seat), seed + seat) for seat in range(SEATS)]
        until("the fifteenth", lambda: drawn[-1].client.ask_one("clients") == f"clients {SEATS}")
        for each in drawn:
            each.client.answers, each.client.sent, each.client.taken = [], [], 0
        sixteenth(server)
        with ThreadPoolExecutor(SEATS) as pool:
            for done in [pool.submit(each.run) for each in drawn]:
                done.result()
        compared = sum(each.want_answers() for each in drawn)
        changes = sum(each.want_changes() for each in drawn)
        commits = [each.commits() for each in drawn]
        want("whether each client's commits rise", commits, [sorted(own) for own in commits])
        want("the numbers of all commits", sorted(sum(commits, [])), list(range(1, sum(map(len, commits)) + 1)))
        bounds = [each.clock() for each in drawn]
        least, most = max(least for least, _ in bounds), min(most for _, most in bounds)
        want(f"whether one clock has told all moments, {least - most} microseconds off", least <= most + SLACK, True)
        want(f"whether it began with the program, {least + server.begun} microseconds before", least <= -server.begun, True)
        want_reached(drawn, compared, changes)
        last_state(drawn[0].client, len(sum(commits, [])))


def want_reached(drawn, compared, changes):
    lines = [line for each in drawn for line in each.lines]
    reached = Counter((asked(line) or ("bad",))[0] for line in lines)
    words = {"bad", "bpm", *(word for word, _ in ASKS)}
    want("the words that no client sent", words - {*reached}, set())
    print(f"{len(lines)} lines of 15 clients, {sum(reached[word] for word in COMMITS)} of them commits; {compared} compared by a state, {changes} changes told")
    want(f"whether 300 answers were compared by a state, and 30 changes told: {compared}, {changes}", compared >= 300 and changes >= 30, True)


def last_state(client, commits):
    """The next commit has the next number, and shows."""
    want("the next commit", client.ask_one("tempo 654321"), f"ok {commits + 1}")
    want("the tempo that it shows", client.view().mpb, 654_321)


def sixteenth(server):
    client = server.client()
    want("the answer to a sixteenth client", client.next(1), ["full"])
    client.ends()


# One client alone.


def want_line(what, view, line):
    """A timeline, up to what the node rounds where it takes a commit."""
    found = line_of(view)
    is_near = abs(found.time - line.time) <= 3 and abs(found.beat - line.beat) <= 60
    want(f"whether {what} gives {line}, where {found} is told", found.mpb == line.mpb and is_near, True)


def taken_now(client, text):
    """Asks for an edit, which has the next number; answers the state before, and the moments between which it was asked."""
    before, first = client.view(), numbers_of(client.ask_one("now"), "now", 3)[0]
    numbers_of(client.ask_one(text), "ok", 1)
    return before, first, numbers_of(client.ask_one("now"), "now", 3)[0]


def edits(program):
    """Each by its formula, with a quantum and without one."""
    with serving(program, "--bpm", "120.5", "--quantum", "3000000") as server:
        client = server.client()
        view = client.view()
        want("the first state", (view.mpb, view.beat, view.playing, view.peers, view.quantum), (497_925, 0, 0, 0, 3_000_000))
        for text, mpb in (("tempo 400000", 400_000), ("bpm 97.5", 615_385), ("bpm 999", 60_060), ("bpm 20", 3_000_000), ("bpm 128.000001", 468_750)):
            want_tempo(client, text, mpb)
        for text in ("force 5000000 9000000", "request -1500000 70000000", "quantum 0", "force 7000000 123456789", "quantum 1500000", "force 0 -50"):
            want_edit(client, text)
        for text, playing in (("play", 1), ("stop 77000000", 0), ("play 99000000", 1), ("stop", 0)):
            _, first, last = taken_now(client, text)
            view = client.view()
            start = int(text.split(" ")[1]) if " " in text else None
            is_start = view.start == start if start else first <= view.start <= last
            want(f"whether {view} is of {text!r} between {first} and {last}", (view.playing, is_start), (playing, True))
        want_about_beats(client)
        server.want_told(rf"150(\.0+)? beats per minute|{client.port()}")


def one_after_another(program, seed):
    """Drawn commits with a status after each, sent at once: each shows at once, and those before it still do."""
    draw, wanted = random.Random(seed), View(500_000, 0, 0, 0, 0, 0, 4_000_000, "", 0)
    tempos, lines = far_apart(draw), []
    while len(lines) < 400:
        line = drawn_commit(draw, tempos)
        # Of two starts in one microsecond the second isn't taken, so they are rare.
        if line[:4] not in (b"play", b"stop") or len(lines) % 20 == 0:
            lines += [line, b"status"]
    with serving(program) as server:
        answers = server.client().ask(*lines)
    want("the numbers of the commits", answers[::2], [f"ok {k}" for k in range(1, 201)])
    for line, answer in zip(lines[::2], answers[1::2]):
        word, numbers = asked(line)
        if word in ("tempo", "bpm", "quantum"):
            wanted = wanted._replace(**{"quantum" if word == "quantum" else "mpb": numbers[0]})
        elif word in ("play", "stop"):
            wanted = wanted._replace(playing=int(word == "play"))
        view = view_of(answer)
        want(f"tempo, quantum and start after {line!r}", (view.mpb, view.quantum, view.playing), (wanted.mpb, wanted.quantum, wanted.playing))


def want_tempo(client, text, mpb):
    before, first, last = taken_now(client, text)
    view = client.view()
    want(f"the tempo of {text!r}", (view.mpb, abs(view.beat - before.beat) <= 60), (mpb, True))
    # Both timelines have one beat at the moment of the change, and there a beat moves by at most 8 microbeats.
    off = [since(line_of(view), at) - since(line_of(before), at) for at in (first - 20, last + 20)]
    want(f"whether {text!r} keeps the beat between {first} and {last}: {off} off", off[0] * off[1] <= 0 or min(map(abs, off)) <= 100, True)


def want_edit(client, text):
    before, *_ = taken_now(client, text)
    word, *numbers = text.split(" ")
    line, numbers = line_of(before), list(map(int, numbers))
    wanted = line if word == "quantum" else forced(line, *numbers, before.quantum)
    view = client.view()
    want_line(text, view, wanted)
    want(f"the quantum after {text!r}", view.quantum, numbers[0] if word == "quantum" else before.quantum)


def want_about_beats(client):
    view = client.view()
    lines = [b"%s %d" % (word, view.time + k) for word in (b"beat", b"phase") for k in (-1_000_001, -1, 0, 1, 12_345_678)]
    lines += [b"time %d" % beat for beat in (-(2**60), -1, 0, 1, 4_000_000, 2**60)] + [b"now"]
    for line, answer in zip(lines, client.ask(*lines)):
        want_by(line, answer, view)


def watching(program):
    """A change of one's own and one of another are told; after `unwatch` none is."""
    with serving(program) as server:
        watcher, other = server.client(), server.client()
        want("the answer to `watch`", watcher.ask_one("watch"), "ok")
        for client, mpb in ((other, 400_000), (watcher, 450_000), (other, 350_000)):
            client.ask_one(f"tempo {mpb}")
            while view_of(watcher.next_change(1)[1], "changed").mpb != mpb:
                watcher.changes.pop(0)
            # A state that was committed may be told again once it is published, and no more often.
            time.sleep(0.1)
            watcher.take_what_is_there()
            want_each_new(watcher.changes)
            want(f"whether few lines tell of one change: {watcher.changes}", len(watcher.changes) <= 3, True)
        want("the answer to `unwatch`", watcher.ask_one("unwatch"), "ok")
        count = len(watcher.changes)
        other.ask_one("tempo 600000")
        time.sleep(0.1)
        watcher.ask_one("status")
        want("what is told after `unwatch`", watcher.changes[count:], [])


# Clients beside those that are well.


def never_reads(program):
    """It sends until nothing is taken any more, and others are answered. Once it reads, each line that it sent is answered."""
    with serving(program) as server:
        silent, other = server.client(buffer=4096), server.client()
        lines, text, is_stuck = 0, text_of([b"status"] * 1000), False
        silent.socket.settimeout(0.5)
        while not is_stuck and lines < 1_000_000:
            try:
                sent = silent.socket.send(text)
                lines, text = lines + text[:sent].count(b"\n"), text[sent:] + text[:sent]
            except TimeoutError:
                is_stuck = True
        want(f"whether it is read from no more, after {lines} lines", is_stuck, True)
        slowest = max(timed(other, b"status")[1] for _ in range(50))
        want(f"whether others are answered within a second, which takes {slowest} microseconds", slowest < 1_000_000, True)
        want("the answer of a commit", other.ask_one("tempo 400000"), "ok 1")
        silent.socket.settimeout(PATIENCE)
        for answer in silent.next(lines):
            view_of(answer)
        silent.send(text[: text.find(b"\n") + 1])
        want("the tempo in the end", view_of(silent.next(1)[0]).mpb, 400_000)


def slow_watcher(program):
    """It watches, and reads only at the end: no older state comes after a newer one, and the last is what is shown."""
    with serving(program) as server:
        slow, other = server.client(buffer=4096), server.client()
        slow.ask_one("watch")
        for k in range(600):
            other.ask_one(f"tempo {400_000 + k}")
        want("the last that it is told", until("the last change", lambda: slow.take() and view_of(slow.changes[-1][1], "changed").mpb == 400_599), True)
        numbers = [view_of(line, "changed").number for _, line, _ in slow.changes]
        want("the numbers of its states", numbers, sorted(numbers))


def vanishing(program):
    """In mid-line, with answers unread, and by a half-closed connection. What stands after the last line feed is no line."""
    with serving(program) as server:
        stays = server.client()
        for text in (b"tempo 400000", b"status\n" * 500, b"watch\nnow\nnow\ntempo 4", b""):
            goes = server.client()
            until("two clients", lambda: stays.ask_one("clients") == "clients 2")
            goes.socket.sendall(text)
            time.sleep(0.02)
            goes.vanish()
            until("one client", lambda: stays.ask_one("clients") == "clients 1")
        want("the tempo", stays.view().mpb, 500_000)
        half = server.client()
        half.send(b"now\n" * 1000 + b"tempo 300000")
        half.socket.shutdown(socket.SHUT_WR)
        for answer in half.next(1000):
            numbers_of(answer, "now", 3)
        half.ends()
        want("the tempo", stays.view().mpb, 500_000)
        server.want_told(str(half.port()))


def carriage_returns(program):
    with serving(program) as server:
        client = server.client()
        client.send(b"status\r\nnow\r\ntempo 400000\r\nnope\r\nbpm 128.5\r\nstatus\r\r\nsta\rtus\r\n\r\nclients\r\n")
        answers = client.next(9)
        want("the words of the answers", [answer.split(" ")[0] for answer in answers], ["status", "now", "ok", "bad", "ok", "bad", "bad", "bad", "clients"])
        want("the commits", [answers[2], answers[4]], ["ok 1", "ok 2"])


def endless_line(program):
    """A million bytes without a line feed, and others meanwhile."""
    with serving(program) as server:
        client, other = server.client(), server.client()
        for _ in range(16):
            client.send(b"t" * 62_500)
            view_of(other.ask_one("status"))
        want_bad(b"", client.ask_one(""))
        for size in (126, 127, 128, 129, 130, 131, 255, 256, 257, 512, 4096, 100_000):
            want_bad(b"", client.ask_one("x" * size))
            want_bad(b"", client.ask(b" " * (size - 6) + b"status")[0])
            view_of(client.ask_one("status"))
        want("the tempo", other.view().mpb, 500_000)


def at_once(program):
    """10,000 lines by each of three. A status tells one timeline throughout, so each answer is known but for the clock."""
    with serving(program) as server:
        clients = [server.client() for _ in range(3)]
        view = clients[0].view()
        lines = [(b"now", b"time %d" % k, b"status", b"phase %d" % (7 * k))[k % 4] for k in range(AT_ONCE)]

        def run(client):
            threading.Thread(target=client.send, args=(text_of(lines),), daemon=True).start()
            return client.next(AT_ONCE)

        with ThreadPoolExecutor(3) as pool:
            for answers in pool.map(run, clients):
                for line, answer in zip(lines, answers):
                    if not want_by(line, answer, view):
                        want("the status", view_of(answer)[:5], view[:5])


def timed(client, line):
    """The answer, and how many microseconds it took."""
    begun = now()
    (answer,) = client.ask(line)
    return answer, now() - begun


def beside_a_flood(program):
    with serving(program) as server:
        client, pause = server.client(), random.Random(1)

        def samples():
            for k in range(SAMPLES):
                time.sleep(pause.uniform(0.001, 0.003))
                yield timed(client, (b"status", b"now")[k % 2])[1]

        quiet = median(samples())
        flood = started([sys.executable, "-c", FLOODER, str(server.address()[1])], stdout=subprocess.PIPE)
        want("whether the flood begins", flood.stdout.read(1), b"s")
        loud = median(samples())
        want("whether the flood goes on", flood.poll(), None)
        flood.kill()
        print(f"beside a flood a line is answered within {loud} microseconds in the median, {loud / quiet:.2f} times the {quiet} without it")
        want(f"whether {loud} microseconds are gross", loud < GROSS, True)


# A second server.


def tempo_told(datagram):
    """The tempo of an alive; None of what is none."""
    state = node.read_state(datagram[20:]) if datagram[:9] == b"_asdp_v\x01\x01" else None
    return state and state[0].mpb


class Two:
    """Two servers in one session, and a socket that hears what the second tells the first."""

    def __init__(self, program, ear):
        ports = free_ports(2)
        first, second = (f"127.0.0.1:{port}" for port in ports)
        words = ("--sync", "--group", 7)
        self.ear, self.first = ear, Server(program, "--gate", first, "--to", second, *words)
        self.second = Server(program, "--gate", second, "--to", first, "--to", "127.0.0.1:{1}".format(*ear.getsockname()), *words)
        self.a, self.b = self.first.client(), self.second.client()

    def meet(self):
        for one, other in ((self.a, self.b), (self.b, self.a)):
            one.until_view("a peer in one session", lambda view, other=other: (view.peers, view.session) == (1, other.view().session))

    def change(self, mpb):
        """The moments at which a datagram told the first server of a change, and a line its watching client."""
        self.b.ask_one(f"tempo {mpb}")
        end = time.monotonic() + PATIENCE
        self.ear.settimeout(PATIENCE)
        while tempo_told(self.ear.recv(513)) != mpb and time.monotonic() < end:
            pass
        sent = now()
        while view_of(self.a.next_change(1)[1], "changed").mpb != mpb:
            self.a.changes.pop(0)
        return sent, self.a.changes.pop(0)[0]

    def stop(self):
        self.first.stop()
        self.second.stop()


def told_by_another(program):
    with listener() as ear:
        two = Two(program, ear)
        try:
            two.meet()
            want("the answer to `watch`", two.a.ask_one("watch"), "ok")
            late = []
            for k in range(CHANGES):
                sent, came = two.change(400_000 + 1_000 * k)
                late.append(came - sent)
            print(f"a change by a second server is told to a watching client {median(late)} microseconds after its datagram in the median, {max(late)} at most")
            want(f"whether {late} microseconds are gross", median(late) < LATE, True)
            together(two)
        finally:
            two.stop()


def together(two):
    """Starts are shared, and beats: a request beside a peer moves the origin by whole quanta."""
    two.a.ask_one("unwatch")
    two.a.ask_one("play")
    two.b.until_view("a start of the other's", lambda view: view.playing)
    before = two.a.view()
    two.a.ask_one(f"request 1000000 {before.time + 50_000_000}")
    want_line("a request beside a peer", two.a.view(), requested(line_of(before), 1_000_000, before.time + 50_000_000, before.quantum))
    a, b = two.a.view(), two.b.until_view("the same tempo", lambda view: view.mpb == two.a.view().mpb)
    want("session and peers of both", (a.session, a.peers), (b.session, b.peers))
    two.ear.settimeout(PATIENCE)
    want("the group of its datagrams", two.ear.recv(513)[10:12], b"\0\7")


# How it begins and ends.


def at_its_end(program):
    """`end` where it is allowed, right after an edit: peers hear of that before the goodbye. All clients are left."""
    with listener() as ear:
        ear_at = "127.0.0.1:{1}".format(*ear.getsockname())
        with serving(program, "--gate", "127.0.0.1:0", "--to", ear_at, "--end-allowed", "--mpb", 600_000, "--group", 3) as server:
            other, client = server.client(), server.client()
            want("the tempo of the words", other.view().mpb, 600_000)
            want("the answers at its end", client.ask(b"tempo 432100", b"end"), ["ok 1", "ok"])
            client.ends()
            other.ends()
            server.ends()
        heard = [datagram for datagram, _ in come(ear)]
        told = [tempo for datagram in heard if (tempo := tempo_told(datagram))]
        want("the first tempo that peers hear, the last, and the last datagram", (told[0], told[-1], heard[-1][8:12]), (600_000, 432_100, b"\3\0\0\3"))


def end_of_input(program):
    """Nothing else ends it: neither bytes there, nor a client that leaves."""
    ours, theirs = os.pipe()
    with serving(program, "--until-input-ends", given=ours) as server:
        os.close(ours)
        server.client().vanish()
        client = server.client()
        os.write(theirs, b"end\nnothing\n" * 100)
        time.sleep(0.5)
        want_bad(b"end", client.ask_one("end"))
        want("whether it goes on", server.child.poll(), None)
        os.close(theirs)
        client.ends()
        server.ends()


def secret(program, folder):
    path = write(folder, "secret", "a word of ours\nanother line\n")
    with serving(program, "--secret", path) as server:
        client = server.client()
        want("the answers with the word", [answer.split(" ")[0] for answer in client.ask(b"hello a word of ours", b"status", b"nope")], ["ok", "status", "bad"])
        want("the answers with CR LF", server.client().ask(b"hello a word of ours\r", b"tempo 400000\r"), ["ok", "ok 1"])
        for line in (b"hello another line", b"hello a word of our", b"hello a word of ours ", b"hello", b"status", b"Hello a word of ours", b"", b"x" * 4000):
            other = server.client()
            other.send(line + b"\ntempo 700000\n")
            want(f"the answer to {line[:40]!r}", other.next(1), ["bad secret"])
            other.ends()
        want("the tempo", client.view().mpb, 400_000)
    with serving(program) as server:
        want_bad(b"hello", server.client().ask_one("hello word"))


def hundredth(program):
    with serving(program, "--hours", "0.01") as server:
        client = server.client()
        view_of(client.ask_one("status"))
        client.socket.settimeout(PATIENCE + HUNDREDTH)
        client.ends()
        server.ends()
        took = (now() - server.begun) / 1_000_000
    want(f"whether a hundredth of an hour takes {took:.1f} seconds", HUNDREDTH - 1 < took < HUNDREDTH + 8, True)


def full_journal(program):
    with serving(program, "--events", 8) as server:
        view_of(server.client().ask_one("status"))
        server.ends(6)


def gates(program):
    """One whose address isn't this machine's; one that has nobody; one of whose datagrams the system refuses some."""
    with serving(program, "--end-allowed", "--gate", "203.0.113.1:9") as server:
        client = server.client()
        want("the gate that can't be bound", client.ask_one("gates"), "gates 1 unbound 0")
        want("a commit without the network", client.ask(b"tempo 400000", b"end"), ["ok 1", "ok"])
        server.ends(3)
        server.want_told(r"203\.0\.113\.1:9 .*Cannot assign requested address")
    with serving(program) as server:
        want("a gate that has nobody", server.client().ask_one("gates"), "gates 1 bound 0")
    with serving(program, "--end-allowed", "--gate", "127.0.0.1:0", "--to", "255.255.255.255:20808", "--gate", "127.0.0.1:0") as server:
        client = server.client()
        found = until("a refusal", lambda: (found := gates_of(client.ask_one("gates")))[0][1] and found)
        want("two gates", ([state for state, _ in found], found[1][1]), (["bound", "bound"], 0))
        want("the answer to `end`", client.ask_one("end"), "ok")
        server.ends()
        server.want_told(r"255\.255\.255\.255:20808")


def in_use(program):
    with socket.create_server(("127.0.0.1", 0)) as held:
        for at, reason in (("127.0.0.1:{1}".format(*held.getsockname()), "Address already in use"), ("192.0.2.1:20900", "Cannot assign requested address")):
            with serving(program, at=at) as server:
                server.ends(11)
                server.want_told(reason)


def by_a_script(program, folder):
    path = write(folder, "head", "# a head\nlink 1\nsetup 654321 1\n\ngate 127.0.0.1:0\nto 127.0.0.1:9\n")
    with serving(program, "--script", path, "--quantum", 0) as server:
        view = server.client().view()
        want("tempo and quantum", (view.mpb, view.quantum), (654_321, 0))


TYPED = "status\ntempo 150\nplay\nbeat\nbeat 1:30.25\ntime 16.25\nwatch 0.2\ntmpo\nstop\nquit\n"
ANSWERED = [
    r"120\.00 beats per minute, 500000 microseconds per beat, beat 0\.000000 is at 0:0[0-9]\.[0-9]{6}, not playing, no peer, bar [1-9][0-9]*\.[1-3]",
    r"commit 1: 150\.00 beats per minute, 400000 microseconds per beat",
    r"commit 2: playing",
    r"beat ([0-9.]+) is at 0:([0-9.]+), which is now",
    r"beat ([0-9.]+) is at 1:30\.250000",
    r"beat 16\.250000 is at 0:([0-9.]+)",
    r"150\.00 beats per minute  bar [1-9][0-9]*\.[1-3]  playing  no peer",
    r"commit 3: not playing",
]
WATCHED = re.compile(r"(150|75)\.00 beats per minute  bar [1-9][0-9]*\.[1-4]  (not )?playing  no peer")


def tool(program, folder):
    """Through a pipe, with a word that it has to say first; and as it watches, until the server ends."""
    path, words = write(folder, "word", "a word\n"), [sys.executable, os.path.join(common.HERE, "tools", "control.py")]
    with serving(program, "--quantum", 3_000_000, "--secret", path) as server:
        at = "{}:{}".format(*server.address())
        status, output, error = common.ended([*words, "--secret", path, at], TYPED)
        want("its status, and what it says is wrong", (status, error.split(";")[0]), (2, 'control: line 8: "tmpo" is no command'))
        lines = output.splitlines()
        want("lines of another form", [row for row in zip(lines, ANSWERED) if not re.fullmatch(row[1], row[0])], [])
        want("how many lines it tells", len(lines), len(ANSWERED))
        (beat, at_now), (later,) = (re.fullmatch(ANSWERED[k], lines[k]).groups() for k in (3, 4))
        passed = node.near((90_250_000 - int(at_now.replace(".", ""))) * 10**6, 400_000)
        want("whether both beats are of one timeline", abs(int(later.replace(".", "")) - int(beat.replace(".", "")) - passed) <= 1, True)
        want("its status without the word", common.ended([*words, at], "status\n")[0], 3)
    with serving(program, "--mpb", 400_000) as server:
        at = "{}:{}".format(*server.address())
        watch = started([*words, "--watch", at], stdin=subprocess.DEVNULL, stdout=subprocess.PIPE, stderr=subprocess.PIPE, text=True)
        first, client = watch.stdout.readline(), server.client()
        client.ask_one("tempo 800000")
        second = watch.stdout.readline()
        server.stop()
        output, error = watch.communicate(timeout=PATIENCE)
        lines = [first.rstrip("\n"), second.rstrip("\n"), *output.splitlines()]
        want(f"whether {lines} tell what changed", all(map(WATCHED.fullmatch, lines)) and (first[:3], second[:3]) == ("150", "75."), True)
        want(f"its status, and whether {error!r} tells why", (watch.returncode, error.startswith("control: the connection ended ")), (4, True))


def faults(program, folder):
    at, missing = "127.0.0.1:0", os.path.join(folder, "missing")
    head, command = write(folder, "fault", "link 1\nsetup 5 1\ngate 127.0.0.1:0\n"), write(folder, "command", "link 1\nsetup 500000 1\ngate 127.0.0.1:0\nat 0 look\n")
    others = [word for port in range(1, 34) for word in ("--to", f"127.0.0.1:{port}")]
    cases = [
        ([], ["ENDPOINT"]),
        *(([word], [f'"{word}"']) for word in ("here", "127.0.0.1", "127.0.0.256:1", "127.0.0.1:65536", "localhost:1", "")),
        *(([at, option, word], [option, f'"{word}"']) for option in ("--gate", "--mpb", "--bpm", "--quantum", "--group", "--events", "--hours") for word in ("x", "-1")),
        *(([at, option, word], [option, f'"{word}"']) for option, word in (("--mpb", "60059"), ("--mpb", "3000001"), ("--bpm", "19"), ("--bpm", "1000"))),
        *(([at, option, word], [option, f'"{word}"']) for option, word in (("--quantum", "1099511627777"), ("--group", "65536"), ("--events", "524289"))),
        *(([at, option, "0"], [option, '"0"']) for option in ("--events", "--mpb", "--bpm")),
        *(([at, option], [option]) for option in ("--gate", "--mpb", "--bpm", "--quantum", "--group", "--events", "--hours", "--secret", "--script")),
        ([at, "--to", "127.0.0.1:1"], ["--to"]),
        ([at, "--gate", "127.0.0.1:0", "--to", "x"], ["--to", '"x"']),
        ([at, "--gate", "127.0.0.1:0", *others], ["32"]),
        ([at, *["--gate", "127.0.0.1:0"] * 5], ["--gate"]),
        ([at, "--bogus"], ['"--bogus"']),
        ([at, "127.0.0.1:1"], ['"127.0.0.1:1"']),
        ([at, "--mpb", "500000", "--bpm", "120"], ["--bpm"]),
        ([at, "--group", "1", "--group", "1"], ["--group"]),
        ([at, "--script", head, "--gate", "127.0.0.1:0"], ["--script"]),
        ([at, "--secret", missing], ["--secret"]),
        ([at, "--script", missing], ["--script"]),
    ]
    for words, parts in cases:
        status, output, error = common.ended([program, *words], "")
        first = error.partition("\n")[0]
        lacks = [part for part in parts if part.lower() not in first.lower()]
        want(f"status, output and what {error[:300]!r} lacks, of {words}", (status, output, lacks, error.startswith(TOLD), "\n\nUsage: " in error), (2, "", [], True, True))
    for path, number in ((head, 2), (command, 4)):
        status, output, error = common.ended([program, at, "--script", path], "")
        want(f"status, output and line of a script at fault: {error!r}", (status, output, f"line {number}," in error), (8, "", True))


def main(program, seed):
    if not os.access(program, os.X_OK):
        print(f"skipped: {program} isn't built")
        return 0
    with tempfile.TemporaryDirectory() as folder, ThreadPoolExecutor(5) as pool:
        # What takes an hour's hundredth waits meanwhile. What measures goes alone, the others beside each other.
        last = pool.submit(common.carried_out, [("an hour's hundredth", hundredth, program)])
        alone = [("beside a flood", beside_a_flood, program), ("told of another's change", told_by_another, program)]
        rows = [
            ("fifteen clients", fifteen, program, seed),
            ("edits by one client", edits, program),
            ("one commit after another", one_after_another, program, seed),
            ("one that watches", watching, program),
            ("one that never reads", never_reads, program),
            ("one that watches and doesn't read", slow_watcher, program),
            ("ones that vanish", vanishing, program),
            ("carriage returns", carriage_returns, program),
            ("a line without an end", endless_line, program),
            ("10,000 lines at once by three", at_once, program),
            ("`end`", at_its_end, program),
            ("the end of the input", end_of_input, program),
            ("a secret", secret, program, folder),
            ("a full journal", full_journal, program),
            ("gates", gates, program),
            ("an endpoint that can't be opened", in_use, program),
            ("a script's head", by_a_script, program, folder),
            ("words at fault", faults, program, folder),
            ("tools/control.py", tool, program, folder),
        ]
        tallies = [common.carried_out(alone), *pool.map(lambda row: common.carried_out([row]), rows), last.result()]
    whole = common.Tally()
    whole.passed, whole.failed = (sum(getattr(tally, count) for tally in tallies) for count in ("passed", "failed"))
    return whole.end()


if __name__ == "__main__":
    common.begin(main, __doc__, has_seed=True)
