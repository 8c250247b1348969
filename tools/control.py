#!/usr/bin/env python3
"""Drives a node that runs under `jorazhil serve` or `jorazhil control`, from a prompt or a pipe, one command a line, and tells the answers
as a person would.

The run has to be there first. A run of `serve` has up to 15 clients, which come and go. A run of `control` has one: while this is served it
takes no other, and it ends when this one ends.

  jorazhil serve 127.0.0.1:20900
  (elsewhere) jorazhil client 127.0.0.1:20900
"""
import difflib
import math
import os
import re
import select
import socket
import sys
import time
from collections import namedtuple
from fractions import Fraction

sys.dont_write_bytecode = True
from session import beat_words, peers_words, tempo_words  # noqa: E402
from shared import Refused, Words, clock, decimals, quoted  # noqa: E402

COMMANDS = """\
Commands:
  status            the tempo, where the beats are, whether it plays, how many peers there are, and which bar and beat it is
  tempo BPM         sets the tempo, from 20 to 999 beats per minute, as in `tempo 120` or `tempo 97.5`
  tempo MICROS us   the same in microseconds per beat, from 60060 to 3000000, as in `tempo 500000 us`
  play, stop        starts or stops, now
  beat TIME         which beat it is at a time of the node's clock, in seconds or as in `beat 1:30.25`; without TIME, which it is now
  time BEAT         at which time of that clock a beat is, as in `time 16` or `time 16.25`
  watch [SECONDS]   for so long or until Enter: of `serve` tells each change, of `control` shows one line and keeps it up to date
  help              this list
  quit              ends the talk, and with it a run of `control`, as the end of the input and Ctrl-C do
"""

OPTIONS = f"""\
{COMMANDS}
From a pipe a command is a line of its own; an empty line and one that begins with `#` are passed over. A command at fault is told on
standard error, and those behind it are carried out all the same.

Which of the two it is this tool asks first, by the line `now`: `serve` answers it.

Bar and beat are counted from the timeline's origin, wherever that beat is, as the node counts its accents and Link programs their phase.
`serve` tells its time and the length of a bar. Its `beat` and `time` count from the origin too. Whoever says nothing for ten minutes
without `watch` is let go there.

Of `control` no answer tells which time it is. So bar and beat are known where --began tells when the run was started, as well as it tells
that; and else from the first `tempo` on that changes the tempo by one in a hundred: the timelines before it and behind it meet at the
moment of the change. For that this tool asks for the status before it and behind it, which are two lines more. The beats of `beat` and
`time` are the node's own count, from its start on. No answer tells how long a bar is, so --bar does, nor whether the node has a network.
Where a gate couldn't be bound the run says so on its standard error, serves its client without peers, and ends with status 3.

4,096 lines are what a run of `control` answers. The first `now` is one, each command is one, and `help`, `quit` and a command at fault are
none. `watch` asks for the status as often as --every says, and counts the beats by itself meanwhile. Each time that half of the lines that
were left are used it asks half as often, so that it can watch for some four and a half hours by default. It ends when 16 are left.

Exit status: 0 where all was carried out, or where nobody reads on. With a sentence on standard error: 2 where the words or a command of a
pipe are at fault, 3 where no run could be reached, 4 where the run or the connection ended before the commands did, or no line was left.
"""

MOST_LINES, FEW_LINES, KEPT_LINES = 4096, 100, 16
LIMIT, MILLION = 2**60, 1_000_000
LEAST_MPB, MOST_MPB = 60_060, 3_000_000
# Seconds: to connect, until an answer, and between two drawings of the line that is watched.
CONNECTS, ANSWERS, DRAWS = 5, 30, 0.1
# For how many microseconds the time that `serve` told last counts.
FRESH = 10_000_000
NUMBER = "(0|-?[1-9][0-9]{0,18})"
OK, STATUS = "ok ([1-9][0-9]{0,18})", f"status {NUMBER} {NUMBER} {NUMBER} ([01]) (0|[1-9][0-9]{{0,9}})"
# Those of `serve`.
NOW, CHANGED = f"now {NUMBER} {NUMBER} {NUMBER}", "changed "
VIEW = f"{NUMBER} {NUMBER} {NUMBER} ([01]) {NUMBER} (0|[1-9][0-9]{{0,9}}) {NUMBER} ([0-9a-f]{{16}}) {NUMBER}"
WORDS = ("status", "tempo", "play", "stop", "beat", "time", "watch", "help", "quit")

# The bar is how long the node's own is; `control` doesn't tell it.
Status = namedtuple("Status", "mpb beat time playing peers bar")


class Lost(Exception):
    """A sentence for standard error: the run can't be asked any more. The exit status comes with it."""

    def __init__(self, status, text):
        super().__init__(text)
        self.status = status


# The talk.


class Talk:
    """The connection to a run: a line goes out, and its answer comes."""

    def __init__(self, endpoint):
        self.endpoint, self.lines, self.answers, self.rest = endpoint, 0, 0, b""
        # Whether it is `serve`, and what that told besides answers.
        self.is_server, self.changes = False, []
        host, port = endpoint.split(":")
        try:
            self.socket = socket.create_connection((host, int(port)), CONNECTS)
        except ConnectionRefusedError:
            one = "A run of `control` takes one client: it refuses all others, and ends with that one"
            raise Lost(3, f"nobody listens at {endpoint}. Is `jorazhil serve {endpoint}` running? {one}") from None
        except OSError as error:
            raise Lost(3, f"{endpoint} could not be reached: {error.strerror or error}") from None
        self.socket.setsockopt(socket.IPPROTO_TCP, socket.TCP_NODELAY, 1)
        self.socket.settimeout(ANSWERS)

    def greet(self, secret):
        """Finds out what listens there; it may want a word first."""
        if secret is not None and self.ask(f"hello {secret}", "(ok|bad.*)") != ("ok",):
            raise Lost(3, f"the run at {self.endpoint} was told the secret, and did not take it")
        told = re.fullmatch(NOW, answer := self.ask("now", f"({NOW}|bad|bad secret|full)")[0])
        if answer == "full":
            raise Lost(3, f"the run at {self.endpoint} has 15 clients already")
        if answer == "bad secret":
            raise Lost(3, f"the run at {self.endpoint} wants a word first: --secret tells it")
        self.is_server = told is not None

    def left(self):
        return math.inf if self.is_server else MOST_LINES - self.lines

    def ask(self, line, form):
        """The groups of the answer, which has to be of this form. Where no line is left nothing is sent, and so the run goes on."""
        if not self.left():
            raise Lost(4, f"the run has answered {MOST_LINES:,} lines, and one run answers no more")
        self.lines += 1
        try:
            self.socket.sendall(line.encode() + b"\n")
        except OSError as error:
            raise self.ended(error) from None
        # Ctrl-C may have left an answer unread.
        while self.answers < self.lines:
            answer = self.next()
            if answer.startswith(CHANGED):
                self.changes.append(answer)
            else:
                self.answers += 1
        parts = re.fullmatch(form, answer)
        if not parts:
            raise Lost(4, f"`{line.split(' ')[0]}` was answered {quoted(answer)}. Is it `jorazhil serve` or `control` that listens at {self.endpoint}?")
        return parts.groups()

    def next(self):
        """The next line that comes."""
        while b"\n" not in self.rest:
            self.take()
        line, self.rest = self.rest.split(b"\n", 1)
        return line.decode("latin-1")

    def next_change(self, most, keys):
        """The next change that `serve` tells within so many seconds; None where none is, or somebody pressed Enter."""
        end = time.monotonic() + most
        while not self.changes and b"\n" not in self.rest:
            there = select.select([self.socket, *keys], [], [], max(0, end - time.monotonic()))[0]
            if not there or there[-1] in keys:
                return None
            self.take()
        return self.changes.pop(0) if self.changes else self.next()

    def take(self):
        try:
            part = self.socket.recv(4096)
        except socket.timeout:
            raise Lost(4, f"no answer came within {ANSWERS} seconds") from None
        except OSError as error:
            raise self.ended(error) from None
        if not part:
            raise self.ended(None)
        self.rest += part

    def ended(self, error):
        reason = error.strerror if error else "it was closed there"
        if not self.answers:
            return Lost(3, f"the run at {self.endpoint} did not answer ({reason}). It serves another client, or has ended")
        why = "standard error" if self.is_server else "exit status"
        return Lost(4, f"the connection ended behind {self.answers:,} answers ({reason}). The run's {why} tells why")

    def look(self):
        """Finds out whether the connection is there still. The run says nothing by itself."""
        if select.select([self.socket], [], [], 0)[0]:
            self.take()


# Numbers.


def found(words):
    return quoted(" ".join(words)) if words else "none"


def near(n, d):
    """The nearest whole number, halves away from 0."""
    size = (2 * abs(n) + d) // (2 * d)
    return size if n >= 0 else -size


def millionths(word, form, right):
    """A decimal number of this form, in millionths: the sign, minutes or none, what stands before the point, and behind it."""
    parts = re.fullmatch(form, word)
    size = (60 * int(parts[2] or 0) + int(parts[3])) * MILLION + int((parts[4] or "").ljust(6, "0")) if parts else LIMIT + 1
    if size > LIMIT:
        raise Refused(f"{right}, found {quoted(word)}")
    return -size if parts[1] else size


SECONDS, BEATS = r"(-?)(?:([0-9]{1,12}):)?([0-9]{1,13})(?:\.([0-9]{1,6}))?", r"(-?)()([0-9]{1,13})(?:\.([0-9]{1,6}))?"
SIX_DIGITS = f"with at most six digits behind the point, and at most {LIMIT // MILLION:,}"


def moment_of(word):
    return millionths(word, SECONDS, f"a time is in seconds, as in `beat 90.25` or `beat 1:30.25`, {SIX_DIGITS}")


def beat_of(word):
    return millionths(word, BEATS, f"a beat is a number, as in `time 16` or `time 16.25`, {SIX_DIGITS}")


def mpb_of(words):
    """The microseconds per beat that the words behind `tempo` say."""
    mpb = 0
    if words[1:] == ["us"] and re.fullmatch("[1-9][0-9]{0,8}", words[0]):
        mpb = int(words[0])
    elif len(words) == 1 and re.fullmatch(r"[0-9]{1,9}(\.[0-9]{1,9})?", words[0]) and 20 <= Fraction(words[0]) <= 999:
        bpm = Fraction(words[0])
        mpb = near(60 * MILLION * bpm.denominator, bpm.numerator)
    if not LEAST_MPB <= mpb <= MOST_MPB:
        per_beat = f"from {LEAST_MPB} to {MOST_MPB} microseconds per beat, as in `tempo 500000 us`"
        raise Refused(f"a tempo is from 20 to 999 beats per minute, as in `tempo 120`, or {per_beat}, found {found(words)}")
    return mpb


# The node's clock.


def own_time():
    """That of this machine, in microseconds. It never falls."""
    return time.monotonic_ns() // 1000


class NodeClock:
    """How far the node's clock is ahead of this machine's, as far as that is known."""

    def __init__(self, began):
        self.ahead, self.off = None, None
        if began is not None:
            self.ahead = round((time.time() - began) * MILLION) - own_time()

    def is_learnt(self):
        return self.off is not None

    def set(self, moment, asked, answered):
        """By a moment that the node told between two of this machine."""
        self.ahead, self.off = moment - (asked + answered) // 2, (answered - asked) // 2 + 1

    def now(self):
        return None if self.ahead is None else own_time() + self.ahead

    def learn(self, before, asked, answered, after):
        """By a tempo that was set between two moments of this machine, and the status before it and behind it: at the moment that the
        node took for the change both timelines have the same beat. Both have the same origin, but for a rounding."""
        steps = before.mpb - after.mpb
        if 100 * abs(steps) < before.mpb or abs(after.beat - before.beat) > 2:
            return
        origin = after.time + near((before.beat - after.beat) * after.mpb, MILLION)
        moment = near((origin * before.mpb - before.time * after.mpb) * (1 if steps > 0 else -1), abs(steps))
        self.ahead = moment - (asked + answered) // 2
        # The moment was some time between both, and roundings of some microseconds count as often as the tempo changed by.
        self.off = (answered - asked) // 2 + (2 + after.mpb // MILLION) * before.mpb // abs(steps) + 1

    def words(self):
        """How well it is known."""
        return f"to {decimals(-(-self.off // 10), 100)} milliseconds" if self.is_learnt() else "as well as --began tells it"


def bar_words(status, moment):
    """Which bar and beat it is at a moment, counted from the origin."""
    since, bar = near((moment - status.time) * MILLION, status.mpb), status.bar
    return f"bar {since // bar + 1}.{since % bar // MILLION + 1}" if bar else f"beat {since // MILLION + 1}"


def playing_words(status):
    return "playing" if status.playing else "not playing"


# The commands.


class Client:
    """The commands, over a talk. Each answers what is to be printed, or None."""

    def __init__(self, talk, bar, every, began):
        self.talk, self.bar, self.every, self.clock, self.asked = talk, bar, every, NodeClock(began), None

    def carry_out(self, line):
        word, *words = line.split()
        if word not in WORDS:
            like = difflib.get_close_matches(word.lower(), WORDS, 1)
            raise Refused(f"{quoted(word)} is no command{f'; the nearest is `{like[0]}`' if like else ''}; `help` tells all")
        most = {"tempo": 2, "beat": 1, "time": 1, "watch": 1}.get(word, 0)
        if len(words) > most and word != "tempo":
            raise Refused(f"`{word}` takes {'one word at most' if most else 'no word'} behind it, found {found(words)}")
        return getattr(self, word)(*([words] if most else []))

    def ask_status(self):
        if self.talk.is_server:
            self.ask_now()
            return self.shown(self.talk.ask("status", f"status {VIEW}"))
        return Status(*map(int, self.talk.ask("status", STATUS)), 4 * MILLION if self.bar is None else self.bar)

    def shown(self, words):
        """The state that `serve` tells in the words behind `status` or `changed`."""
        mpb, beat, time, playing, _, peers, quantum = map(int, words[:7])
        return Status(mpb, beat, time, playing, peers, quantum if self.bar is None else self.bar)

    def ask_now(self):
        """Which time it is, and the beat then, as `serve` tells it."""
        self.asked = own_time()
        moment, beat, _ = map(int, self.talk.ask("now", NOW))
        self.clock.set(moment, self.asked, own_time())
        return moment, beat

    def status(self):
        status = self.ask_status()
        origin = f"beat {beat_words(status.beat)} is at {clock(status.time, 6)}"
        now = self.clock.now()
        place = "bar and beat aren't known" if now is None else bar_words(status, now)
        return f"{tempo_words(status.mpb)}, {origin}, {playing_words(status)}, {peers_words(status.peers)}, {place}"

    def tempo(self, words):
        mpb = mpb_of(words)
        learns = not self.clock.is_learnt() and self.talk.left() >= 3
        before, asked = self.ask_status() if learns else None, own_time()
        (number,) = self.talk.ask(f"tempo {mpb}", OK)
        answered = own_time()
        after = self.ask_status() if learns else None
        if learns and after.mpb == mpb:
            self.clock.learn(before, asked, answered, after)
        return f"commit {number}: {tempo_words(mpb)}"

    def play(self):
        return "commit {}: playing".format(*self.talk.ask("play", OK))

    def stop(self):
        return "commit {}: not playing".format(*self.talk.ask("stop", OK))

    def beat(self, words):
        if self.talk.is_server and not words:
            moment, beat = self.ask_now()
            return f"beat {beat_words(beat)} is at {clock(moment, 6)}, which is now"
        moment = moment_of(words[0]) if words else self.clock.now()
        if moment is None:
            raise Refused("which time it is isn't known: --began tells it, or a `tempo` that changes the tempo; `beat 90.25` needs neither")
        (beat,) = self.talk.ask(f"beat {moment}", f"beat {NUMBER}")
        return f"beat {beat_words(int(beat))} is at {clock(moment, 6)}" + ("" if words else f", which is now, {self.clock.words()}")

    def time(self, words):
        if not words:
            raise Refused("`time` takes a beat, as in `time 16` or `time 16.25`, found none")
        beat = beat_of(words[0])
        (moment,) = self.talk.ask(f"time {beat}", f"time {NUMBER}")
        return f"beat {beat_words(beat)} is at {clock(int(moment), 6)}"

    def watch(self, words):
        seconds = None
        if words:
            right = "`watch` takes a number of seconds above 0, as in `watch 10`"
            seconds = millionths(words[0], BEATS, right) / MILLION
            if seconds <= 0:
                raise Refused(f"{right}, found {quoted(words[0])}")
        return (Changes if self.talk.is_server else Watch)(self, seconds).run()

    def help(self):
        return COMMANDS.rstrip("\n")


class Watch:
    """A line that is kept up to date. A terminal has it drawn over itself; else each that tells something new is a line of its own."""

    def __init__(self, client, seconds):
        self.client, self.talk, self.every = client, client.talk, client.every
        self.end = math.inf if seconds is None else time.monotonic() + seconds
        self.half, self.status, self.told = self.talk.left() // 2, None, None
        self.is_drawn = sys.stdout.isatty()
        # Where somebody can press Enter.
        self.keys = [sys.stdin] if sys.stdin.isatty() else []

    def run(self):
        try:
            return self.rounds()
        except KeyboardInterrupt:
            return None
        finally:
            if self.is_drawn and self.told:
                print(flush=True)

    def rounds(self):
        """Asks where it is time to, and draws in between. Answers why it ended, where nobody wanted it to."""
        asks = 0
        while (now := time.monotonic()) < self.end:
            if now >= asks:
                if self.talk.left() <= KEPT_LINES:
                    return f"{self.talk.left()} lines are left of the {MOST_LINES:,} that a run answers: it is watched no more, and goes on"
                self.status, asks = self.client.ask_status(), now + self.every
                if self.talk.left() <= self.half:
                    self.every, self.half = 2 * self.every, self.half // 2
            self.talk.look()
            self.show()
            # A line of keys that were pressed ends it.
            if select.select(self.keys, [], [], max(0, min(DRAWS, asks - time.monotonic(), self.end - time.monotonic())))[0]:
                sys.stdin.readline()
                return None
        return None

    def show(self):
        if self.is_drawn:
            self.told = self.status
            print(f"\r{self.line()}\x1b[K", end="", flush=True)
        elif self.status != self.told:
            self.told = self.status
            print(self.line(), flush=True)

    def line(self):
        return watched_line(self.status, self.client.clock.now())


def watched_line(status, now):
    place = "bar -.-" if now is None else bar_words(status, now)
    return f"{tempo_words(status.mpb).split(' ')[0]} beats per minute  {place}  {playing_words(status)}  {peers_words(status.peers)}"


class Changes:
    """What is shown, and then a line for each change that `serve` tells."""

    def __init__(self, client, seconds):
        self.client, self.talk = client, client.talk
        self.end = math.inf if seconds is None else time.monotonic() + seconds
        self.keys = [sys.stdin] if sys.stdin.isatty() else []

    def run(self):
        try:
            self.talk.ask("watch", "ok")
            print(watched_line(self.client.ask_status(), self.client.clock.now()), flush=True)
            self.rounds()
        except KeyboardInterrupt:
            pass
        self.talk.ask("unwatch", "ok")
        self.talk.changes.clear()

    def rounds(self):
        while (now := time.monotonic()) < self.end:
            change = self.talk.next_change(min(FRESH / MILLION, self.end - now), self.keys)
            if change is not None:
                parts = re.fullmatch(CHANGED + VIEW, change)
                if not parts:
                    raise Lost(4, f"{quoted(change)} tells no change")
                print(watched_line(self.client.shown(parts.groups()), self.client.clock.now()), flush=True)
            elif select.select(self.keys, [], [], 0)[0]:
                sys.stdin.readline()
                return
            if own_time() > self.client.asked + FRESH:
                self.client.ask_now()


# The command.


def endpoint_of(word):
    numbers = re.fullmatch(r"(\d+)\.(\d+)\.(\d+)\.(\d+):(\d+)", word, re.ASCII)
    if not numbers or any(int(number) > 255 for number in numbers.groups()[:4]) or not 1 <= int(numbers[5]) <= 65535:
        raise Refused(f"an endpoint is an IPv4 address and a port, as in 127.0.0.1:20900, found {quoted(word)}")
    return word


def seconds_of(option, word, least):
    if not re.fullmatch(r"[0-9]{1,12}(\.[0-9]{1,9})?", word) or float(word) < least:
        raise Refused(f"{option} is a number of seconds, {least} at the least, found {quoted(word)}")
    return float(word)


def bar_of(word):
    right = "--bar is a number of beats from 0, which is none, to 1,099,511, with at most six digits behind the point"
    bar = millionths(word, BEATS, right)
    if not 0 <= bar <= 2**40:
        raise Refused(f"{right}, found {quoted(word)}")
    return bar


def first_line_of(path):
    try:
        with open(path, encoding="latin-1") as file:
            return file.readline().rstrip("\n")
    except OSError as error:
        raise Refused(f"--secret {path} could not be read: {error.strerror}") from None


def parser_of_words():
    usage = "jorazhil client [--watch] [--secret FILE] [--every SECONDS] [--bar BEATS] [--began SECONDS] ENDPOINT"
    parser = Words("jorazhil client", usage, __doc__, OPTIONS)
    parser.add_argument("endpoint", metavar="ENDPOINT", nargs="?", help="where the run listens, as in 127.0.0.1:20900")
    parser.add_argument("--watch", action="store_true", help="begins with the command `watch`")
    parser.add_argument("--secret", metavar="FILE", help="of `serve`: a file whose first line is the word that it wants first")
    parser.add_argument("--every", metavar="SECONDS", default="1", help="of `control`: how often `watch` asks at first: from 0.1, ten times a second (1)")
    parser.add_argument("--bar", metavar="BEATS", help="how long a bar is; 0 for none (4; of `serve` what it tells)")
    parser.add_argument("--began", metavar="SECONDS", help="of `control`: when the run was started, in seconds since 1970, as `date +%%s.%%N` tells them")
    parser.add_argument("--help", action="store_true", help="this text")
    return parser


def prompted():
    """The lines of a person."""
    try:
        # What `input` reads has a history then.
        import readline  # noqa: F401
    except ImportError:
        pass
    while True:
        try:
            yield input("control> ")
        except (EOFError, KeyboardInterrupt):
            print()
            return


def piped():
    try:
        for line in sys.stdin.buffer:
            yield line.decode("latin-1")
    except OSError as error:
        raise Refused(f"standard input could not be read: {error.strerror}") from None


def said(text):
    if sys.stdout is not None:
        sys.stdout.flush()
    print(f"control: {text}", file=sys.stderr, flush=True)


def carry_out(client, lines, is_person):
    """Carries out the commands, up to `quit`, and answers the exit status. What a person mistypes doesn't count for that."""
    status, talk = 0, client.talk
    for count, line in enumerate(lines, 1):
        if not line.strip() or line.startswith("#"):
            continue
        if line.split() == ["quit"]:
            break
        left = talk.left()
        try:
            told = client.carry_out(line)
            if told is not None:
                print(told, flush=True)
        except Refused as refusal:
            said(refusal if is_person else f"line {count}: {refusal}")
            status = status if is_person else 2
        except Lost as lost:
            # The node plays on as long as a person doesn't quit.
            if not is_person or left:
                raise
            said(lost)
        if is_person and left > FEW_LINES >= talk.left():
            said(f"{talk.left()} lines are left of the {MOST_LINES:,} that a run answers")
    return status


def serve(arguments):
    """Answers the exit status."""
    parser = parser_of_words()
    words = parser.parse_args(arguments)
    if words.help:
        print(parser.format_help(), end="", flush=True)
        return 0
    if words.endpoint is None:
        raise Refused("an endpoint is missing: the one at which `jorazhil serve` or `control` listens, as in 127.0.0.1:20900; --help tells all")
    began = None if words.began is None else seconds_of("--began", words.began, 0)
    if began is not None and began > time.time():
        raise Refused("--began is later than it is now")
    bar = None if words.bar is None else bar_of(words.bar)
    given = endpoint_of(words.endpoint), bar, seconds_of("--every", words.every, 0.1)
    secret = None if words.secret is None else first_line_of(words.secret)
    if sys.stdin is None:
        raise Refused("standard input could not be read: it is closed")
    talk = Talk(given[0])
    talk.greet(secret)
    client = Client(talk, *given[1:], began)
    is_person = sys.stdin.isatty() and sys.stdout.isatty()
    if is_person:
        length = "goes on" if talk.is_server else f"answers {MOST_LINES:,} lines, and ends"
        print(f"The run at {talk.endpoint} {length} when you quit. `help` tells the commands.", flush=True)
    if words.watch:
        carry_out(client, ["watch"], is_person)
    return carry_out(client, prompted() if is_person else piped(), is_person)


def main(arguments):
    try:
        if sys.stdout is None:
            raise Refused("standard output could not be written: it is closed")
        return serve(arguments)
    except Refused as refusal:
        said(refusal)
        return 2
    except Lost as lost:
        said(lost)
        return lost.status
    except KeyboardInterrupt:
        return 0
    except BrokenPipeError:
        # Nobody reads on. What is left goes nowhere, so that the end of the run says nothing either.
        os.dup2(os.open(os.devnull, os.O_WRONLY), sys.stdout.fileno())
        return 0
    except OSError as error:
        print(f"control: standard output could not be written: {error.strerror}", file=sys.stderr)
        os.dup2(os.open(os.devnull, os.O_WRONLY), sys.stdout.fileno())
        return 2


if __name__ == "__main__":
    sys.exit(main(sys.argv[1:]))
