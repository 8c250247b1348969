#!/usr/bin/env python3
"""Plays the built MIDI clock beside live runs, alone and beside others of its kind: checks/midi_clock.py PROGRAM CLOCK.

PROGRAM is jorazhil's own, and CLOCK that of crates/midi_clock, whose bytes a thread reads and stamps as they come. A live run moves its
beat, starts, changes its tempo, stops and goes on, and its record is replayed. By each timeline that it shows, each 24th of a beat has its
clock, and each clock its 24th. How far the clocks of the two programs are apart is told by the time of day to a millisecond, and exactly
by the message that came soonest. The start comes with beat 0, a continue with the sixteenth that it tells, also beside runs that play far
from beat 0. The live run shows no change but its own. Alone it sends exactly the clocks that its tempo has in its time, at the fastest
tempo and the slowest too. Three of them agree on a tempo and a beat. Then options anywhere, words at fault, an address that isn't this
machine's, an output that takes nothing, or breaks, a destination that the system refuses, and a journal that is full before the end, each
by its status and all that is told, word for word; `jorazhil midi-out`, and the commands of docs/MIDI-CLOCK.md that need no device.
The last line is 'N passed, N failed'.
"""
import os
import re
import subprocess
import sys
import tempfile
import threading
import time
from bisect import bisect_left
from concurrent.futures import ThreadPoolExecutor
from statistics import median

sys.dont_write_bytecode = True
import common  # noqa: E402
import drums  # noqa: E402
import live  # noqa: E402
import midi  # noqa: E402
import node  # noqa: E402
import readme  # noqa: E402
from common import HERE, Differs, come, free_ports, listener, want  # noqa: E402
from drums import at_port, once_each  # noqa: E402

SECOND = 1_000_000
MESSAGE = re.compile(rb"[\xf8\xfa-\xfc]|\xf2[\0-\x7f]{2}")
TOLD = "midi_clock: "
USAGE = common.page_of("midi-out").replace("jorazhil midi-out", "midi_clock")
# For how long it listens, and how much later it may begin; all times are in microseconds.
LISTENS, SLACK = 500_000, 100_000
# How late a message may be on a busy machine: in the median, at most, and the soonest of five. How long a change may take to be heard.
MEDIAN, MOST, SOON, MARGIN = 3_000, 100_000, 6_000, 150_000
# The live run: its beat is put at -2.2, and at -0.2 it plays, so beat 0 is the next sixteenth. At about 9.03 it goes on. Its bars are so
# long that a beat can be put anywhere. What both tell of it once they have met: tempos, and whether it plays.
ROOM, EVENTS = "room for 524288 events", 524_288
COMMANDS = ["at 300000 tempo 800000", "at 2000000 force -2200000", "at 3600000 play", "at 5000000 tempo 400000", "at 6200000 stop"]
COMMANDS += ["at 7200000 tempo 500000", "at 8190000 play", "at 10200000 look"]
OPENING, STOPPED, QUANTUM = 500_000, 6_200_000, 2**40
COURSE = [(800_000, 0), (800_000, 1), (400_000, 1), (400_000, 0), (500_000, 0), (500_000, 1)]
NETWORK = "the network failed: the address has to be this machine's and its port free; what was left was played without peers"
FULL = "the journal was full before the run ended, and what the network brought then was not taken; a run with fewer seconds has room"
UNWRITTEN = "standard output could not be written; the MIDI that was written ends there"
MISSING = "the seconds are missing: a whole number from 1 to 86400"


def now():
    return time.monotonic_ns() // 1000


def counted(number, word):
    return f"{number} {word}{'' if number == 1 else 's'}"


def head_told(seconds, port, more="bars of 4 beats"):
    return f"listens for half a second, then plays for {counted(seconds, 'second')}", f"session at {at_port(port)}; {ROOM}, {more}"


def state_told(mpb, peers=0, plays=False):
    return f"{60_000_000 / mpb:.2f} beats per minute, {counted(peers, 'peer')}, {'playing' if plays else 'stopped'}"


def sent_told(clocks, *others):
    counts = zip((clocks, *(others or (0, 0, 0))), ("clock", "start", "continue", "stop"))
    return f"sent {', '.join(counted(*count) for count in counts)}; the latest message was N microseconds late"


def lines_told(file):
    """What a run told in a file, with N for how late a message was and how many datagrams were refused."""
    with file:
        file.seek(0)
        text = re.sub(r"\d+ microseconds? late$", "N microseconds late", file.read().decode(), flags=re.M)
    return re.sub(r"(?<=refused )[1-9]\d*", "N", text).splitlines()


def messages_in(data):
    """The messages of a read, in hex. Each is written at once, so a read has all of it."""
    found = MESSAGE.findall(data)
    want(f"what {data.hex()} has of messages", b"".join(found), data)
    return [message.hex() for message in found]


class Run:
    """A run of the MIDI clock, from its beginning on."""

    def __init__(self, clock, *words):
        self.reads, self.told, self.begun = [], tempfile.TemporaryFile(), now()
        self.child = common.started([clock, *map(str, words)], stdin=subprocess.DEVNULL, stdout=subprocess.PIPE, stderr=self.told)
        self.reader = threading.Thread(target=self.read, daemon=True)
        self.reader.start()

    def read(self):
        while data := os.read(self.child.stdout.fileno(), 4096):
            self.reads.append((now(), data))

    def end(self, status=0):
        """The times of its clocks, and its other messages: how many clocks came before, the time, and the hex. Answers itself."""
        found = self.child.wait(timeout=common.LONGEST)
        self.reader.join(timeout=common.PATIENCE)
        self.child.stdout.close()
        self.lines, self.clocks, self.others = lines_told(self.told), [], []
        want(f"the status of a run that tells {self.lines}", found, status)
        for at, message in ((at, message) for at, data in self.reads for message in messages_in(data)):
            if message == "f8":
                self.clocks.append(at)
            else:
                self.others.append((len(self.clocks), at, message))
        return self

    def want_told(self, *lines):
        """Up to what is told at its end by the messages that came, and what is told then."""
        said = [message for _, _, message in self.others]
        sent = sent_told(len(self.clocks), *(said.count(message) for message in ("fa", "fb", "fc")))
        want("what is told", self.lines, [TOLD + (line or sent) for line in lines])


# Pulses, and the clocks that stand for them.


def pulses_in(line, since, until):
    """The pulses that a timeline passes behind one time and up to another, each with the microsecond at which it does."""
    for pulse in range(midi.pulse_at(line, since) + 1, midi.pulse_at(line, until) + 1):
        near = node.time_at(line, line.beat - -pulse * SECOND // 24)
        yield pulse, next(at for at in range(near - 3, near + 4) if midi.pulse_at(line, at) >= pulse)


def want_in_step(what, *spans):
    """Of spans of clocks, each less its pulse's time, the least: by so much clocks are apart that aren't late. One of the first five of a
    span is hardly late, and one of the last five: so none between them is lost, and none is too much."""
    least = min(map(min, spans))
    late = [each - least for span in spans for each in span]
    ends = [min(end) - least for span in spans for end in (span[:5], span[-5:])]
    figures = f"{len(late)} clocks, late by {median(late):.0f} microseconds in the median and {max(late)} at most"
    print(f"note: {what}: {figures}")
    want(f"whether they are in step: {figures}; at the ends {ends}", median(late) <= MEDIAN and max(late) <= MOST and max(ends) <= SOON, True)
    return least


class Beside:
    """A run of the MIDI clock that has joined the session of a live run, which is older by half a second; `pulses` has the pulse of each
    clock, and its time by the live run, but for those that come while a change may not have been heard yet."""

    def __init__(self, program, clock, seconds, commands):
        here, self.port = free_ports(2)
        with listener() as ear:
            self.live = live.Run(program, here, [self.port, ear.getsockname()[1]], commands, 0, QUANTUM)
            ear.recvfrom(513)
        time.sleep(0.7)
        self.run = Run(clock, seconds, 700_000, at_port(self.port), at_port(here)).end()
        self.live.end()
        want("the live run's status", self.live.status, 0)
        self.live.expect_replayed()
        # By the time of day, which is the live run's seed.
        self.apart = (int(self.live.id_and_seed()[1]) + time.monotonic_ns() - time.time_ns()) // 1000
        begun, ended = (self.run.clocks[end] - self.apart for end in (0, -1))
        shown = [(state["moment"], node.Timeline(state["mpb"], state["beat"], state["time"])) for state in self.live.states]
        changes = [pair for k, pair in enumerate(shown) if k == 0 or shown[k - 1][1] != pair[1]]
        times, self.pulses = [since for since, _ in changes[1:]] + [ended - SOON], {}
        spans = [self.match(line, max(since + MARGIN, begun - SOON), until) for (since, line), until in zip(changes, times) if until > begun + MARGIN]
        self.apart = want_in_step(f"beside a live run with {counted(len(spans), 'timeline')}", *spans)

    def match(self, line, since, until):
        """Which clocks one behind the other come nearest to the pulses of a timeline: how much they are later than these."""
        pulses, clocks = list(pulses_in(line, since, until)), self.run.clocks
        near = bisect_left(clocks, pulses[0][1] + self.apart)
        rows = {first: [clock - at for clock, (_, at) in zip(clocks[first:], pulses)] for first in range(max(0, near - 4), near + 5)}
        first = min(rows, key=lambda first: (len(pulses) - len(rows[first]), abs(median(rows[first] or [0]) - self.apart)))
        want("how many clocks there are for the pulses of a timeline", len(rows[first]), len(pulses))
        self.pulses.update({first + k: pair for k, pair in enumerate(pulses)})
        return rows[first]

    def want_at(self, what, came, time):
        later = came - self.apart - time
        want(f"whether {what} comes at its time, {later} microseconds later", -SOON <= later <= MOST, True)

    def want_begun(self, rows, since):
        """These messages begin it at the first sixteenth from a time on, right before its clock."""
        (count, came, _), messages = rows[0], [message for _, _, message in rows]
        pulse, at = self.pulses[count]
        place = pulse // 6 % 16_384
        wanted = ["fa"] if place == 0 else [f"f2{place % 128:02x}{place // 128:02x}", "fb"]
        want(f"what begins it at pulse {pulse}", (pulse % 6, messages, rows[-1][0]), (0, wanted, count))
        want("the sixteenths that it passes over", [pair for pair in self.pulses.values() if pair[0] % 6 == 0 and since <= pair[1] < at], [])
        self.want_at("what begins it", came, at)


# The checks.


def again(check, *given):
    """A thread that is held up for long plays by another state than the other program, so such a run is made again: one of three isn't."""
    for tries in range(3):
        try:
            return check(*given)
        except (Differs, LookupError, ValueError):
            if tries == 2:
                raise


def session(program, clock):
    both = Beside(program, clock, 8, COMMANDS)
    states, rows = both.live.states, both.run.others
    want("what comes besides clocks", [message[:2] for _, _, message in rows], ["fa", "fc", "f2", "fb"])
    starts = once_each([state["start"] for state in states if state["playing"]])
    both.want_begun(rows[:1], starts[0])
    both.want_at("the stop", rows[1][1], STOPPED)
    both.want_begun(rows[2:], starts[1])
    want("what the live run shows", once_each([(state["mpb"], state["playing"]) for state in states]), [(OPENING, 0), *COURSE])
    both.run.want_told(*head_told(8, both.port), *(state_told(mpb, 1, plays) for mpb, plays in COURSE), None)


def far_on(program, clock, beat):
    """It has played for a while, at such a beat, when the MIDI clock joins: that begins with the first sixteenth of its blocks."""
    both = Beside(program, clock, 2, [f"at 200000 force {beat}", "at 300000 play", "at 4000000 look"])
    both.want_begun(both.run.others, -midi.LIMIT)
    pulse, _ = both.pulses[0]
    want(f"whether its first clock is a few seconds behind beat {beat}, at pulse {pulse}", 0 < pulse * SECOND // 24 - beat < 10 * SECOND, True)
    both.run.want_told(*head_told(2, both.port), state_told(OPENING, 1, True), None)


def alone(clock, mpb, seconds):
    (port,) = free_ports(1)
    run = Run(clock, seconds, mpb, at_port(port)).end()
    pulses = [at for _, at in pulses_in(node.Timeline(mpb, 0, 0), LISTENS - 1, LISTENS + seconds * SECOND - 1)]
    want("how many clocks come, and what else", (len(run.clocks), run.others), (len(pulses), []))
    want_in_step(f"alone at {mpb}", [clock - at for clock, at in zip(run.clocks, pulses)])
    first = run.clocks[0] - run.begun - pulses[0]
    want(f"whether the first clock comes when it should, or {first} microseconds later", 0 <= first <= SLACK, True)
    run.want_told(*head_told(seconds, port), state_told(mpb), None)


def three(clock):
    """They begin at once, each with another tempo, and tell each other: at the end they have one tempo, and clock as one."""
    ports, tempos = free_ports(3), (1_000_000, 1_100_000, 1_200_000)
    runs = [Run(clock, 4, mpb, at_port(port), *(at_port(other) for other in ports if other != port)) for port, mpb in zip(ports, tempos)]
    runs = [run.end() for run in runs]
    told = {[line for line in run.lines if "2 peers" in line][-1] for run in runs}
    want(f"whether {told} is one of their tempos", len(told) == 1 and told < {TOLD + state_told(mpb, 2) for mpb in tempos}, True)
    end = min(run.clocks[-1] for run in runs)
    for one, other in zip(runs, [*runs[1:], runs[0]]):
        off = [min(abs(at - there) for there in other.clocks) for at in one.clocks if end - 2 * SECOND <= at <= end]
        want(f"whether two of them clock as one, {off} microseconds off", len(off) > 30 and median(off) <= MEDIAN, True)


def short(clock, words, *lines, status=0):
    """A second alone at 120 beats a minute, however it ends: its clocks, and all that it tells."""
    run = Run(clock, *words).end(status)
    want("how many clocks come, and what else", (len(run.clocks), run.others), (48, []))
    run.want_told(*lines)


def options(clock):
    """They may stand anywhere. Each datagram, up to the goodbye, is of the group."""
    (port,) = free_ports(1)
    for before, behind, more, group in (
        (["--group", "7", "1", "500000"], ["--quantum", "1500000"], "bars of 1.5 beats, group 7", 7),
        (["1", "--quantum", "0", "500000", "--group", "65535"], [], "no bars, group 65535", 65_535),
        (["1", "500000"], ["--group", "0"], "bars of 4 beats", 0),
    ):
        with listener() as ear:
            short(clock, [*before, at_port(port), *behind, at_port(ear.getsockname()[1])], *head_told(1, port, more), state_told(500_000), None)
            sent = [datagram for datagram, _ in come(ear)]
        want("the groups of its datagrams", {datagram[10:12] for datagram in sent}, {group.to_bytes(2, "big")})
        want("its last datagram", sent[-1], node.write_bye(group, sent[0][12:20]))


def unbound(clock):
    gate = "the gate 203.0.113.1:9 could not be bound: Cannot assign requested address (os error 99); the run goes on without the network"
    without = f"session without the network; {ROOM}, bars of 4 beats"
    short(clock, ["1", "500000", "203.0.113.1:9"], head_told(1, 9)[0], gate, without, state_told(500_000), None, NETWORK, status=3)


def refused(clock):
    """A broadcast, for which no option of the socket is set."""
    (port,) = free_ports(1)
    told = f"the system refused N datagrams to 255.255.255.255:20808, the last for: {common.reason_to_refuse()}"
    short(clock, ["1", "500000", at_port(port), "255.255.255.255:20808"], *head_told(1, port), state_told(500_000), None, told)


def faults(clock):
    seconds, tempo = "how many seconds it plays, a whole number from 1 to 86400", "the tempo in microseconds per beat, from 60060 to 3000000"
    local, peer = "where peers reach it, as 127.0.0.1:18001", "where a peer listens, as 127.0.0.1:20808"
    quantum = "--quantum has to have one number of microbeats behind it, from 0 to 1099511627776"
    group, good = "--group has to have one number behind it, from 0 to 65535", ["1", "500000", "127.0.0.1:1"]
    cases = [
        *((words, MISSING) for words in ([], ["--group", "x"])),
        *(([word, "1", "1"], f'"{word}" has to be {seconds}') for word in ("0", "86401", "-1", "1e3", "1.5", "")),
        (["1"], "the tempo is missing: microseconds per beat, from 60060 to 3000000"),
        *((["86400", word, "x"], f'"{word}" has to be {tempo}') for word in ("60059", "3000001", "120bpm")),
        (["1", "60060"], "its own address is missing: as 127.0.0.1:18001"),
        *((["1", "3000000", word, "x"], f'"{word}" has to be {local}') for word in ("127.0.0.1", "127.0.0.1:65536", "localhost:1", "127.0.0.1:")),
        *(([*good, "127.0.0.1:2", word, "--quantum"], f'"{word}" has to be {peer}') for word in ("x", "127.0.0.256:1", "--record")),
        ([*good, *(at_port(port) for port in range(2, 35))], "there are more than 32 peers"),
        *(([*good, "--quantum", *words, "--group"], quantum) for words in (["x"], ["1099511627777"], ["-1"], ["1", "--quantum", "1"])),
        (["--group", "1", *good, "--quantum"], quantum),
        *((["--group", *words, *good], group) for words in (["x"], ["65536"], ["-1"], ["1", "--group", "1"])),
        ([*good, "--quantum", "0", "--group"], group),
    ]
    for words, fault in cases:
        want(f"status, output and what is told of {words}", common.ended([clock, *words], ""), (2, "", f"{TOLD}{fault}\n\n{USAGE}"))


def unwritten(clock):
    """Ten seconds into a device that is full, or into a pipe that is closed after some clocks: it ends at once. No clock is of block 0."""
    (port,) = free_ports(1)
    for is_pipe in (False, True):
        told, since = tempfile.TemporaryFile(), now()
        with open("/dev/full", "wb") as full:
            stdout = subprocess.PIPE if is_pipe else full
            child = common.started([clock, "10", "700000", at_port(port)], stdin=subprocess.DEVNULL, stdout=stdout, stderr=told)
        if is_pipe:
            want("the bytes that come", child.stdout.read(20), 20 * b"\xf8")
            child.stdout.close()
            since = now() + LISTENS
        status, took = child.wait(timeout=common.LONGEST), now() - since - LISTENS
        want(f"the status, and whether it ends at once, after {took} microseconds", (status, took < SECOND), (7, True))
        lines, sent = lines_told(told), {TOLD + sent_told(count) for count in (range(20, 40) if is_pipe else [0])}
        wanted = [TOLD + line for line in (*head_told(10, port), state_told(700_000), UNWRITTEN)]
        want(f"what is told, but for {lines[3]}", (lines[:3] + lines[4:], lines[3] in sent), (wanted, True))


def full_journal(clock):
    """What comes then isn't taken, and the clocks go on: all of them come."""
    with listener() as asker:
        (port,) = free_ports(1)
        run, took = Run(clock, 20, 400_000, at_port(port), at_port(asker.getsockname()[1])), 0
        asker.recv(513)
        asker.connect(("127.0.0.1", port))
        asker.settimeout(0.5)
        while drums.is_answered(asker, run.child):
            took += drums.FLOOD
    if run.child.wait(timeout=common.LONGEST) == 0 and took < EVENTS - 1_000:
        print(f"note: {took} datagrams are too few here to fill a journal, so no full one is looked at")
        return
    run.end(6).want_told(*head_told(20, port), state_told(400_000), sent_told(1_200), FULL)
    want("how many clocks come", len(run.clocks), 1_200)


def built(*programs):
    """What `jorazhil` is run with, so that it builds nothing; nothing where it would have to."""
    if not all(os.path.exists(f"{program}.sources") for program in programs):
        print("note: of which sources a program was built isn't noted beside it, so `jorazhil` isn't looked at")
        return None
    folders = os.environ["PATH"].split(":")
    return {**os.environ, "PATH": ":".join(folder for folder in folders if not os.path.exists(os.path.join(folder, "rt")))}


def by_script(clock):
    """`jorazhil midi-out` runs the built program with its words. So do the page's commands without a device: a count, and a MIDI file."""
    if env := built(clock, os.path.join(HERE, "crates", "drum_machine", "out", "drum_machine")):
        found = common.ended([os.path.join(HERE, "jorazhil"), "midi-out"], "", env=env)
        want("status and text without words", found[::2], (2, f"{TOLD}{MISSING}\n\n{USAGE}"))
        (block,) = [block for _, block in readme.blocks("docs", "MIDI-CLOCK.md") if readme.is_commands(block)]
        with tempfile.TemporaryDirectory() as folder:
            for name in ("jorazhil", "examples"):
                os.symlink(os.path.join(HERE, name), os.path.join(folder, name))
            output, fault = readme.run(block, folder, env)
            want("what is wrong, and what is printed", (fault, output and output.strip()), (None, "96"))
            with open(os.path.join(folder, "clock.mid"), "rb") as file:
                data = file.read()
        want("whether a MIDI file has a continue", (data[:4], b"continue at sixteenth " in data), (b"MThd", True))


def main(program, clock):
    checks = [
        ("beside a live run", again, session, program, clock),
        ("beside a live run that is far on", again, far_on, program, clock, 20_000_100_000),
        ("beside a live run that is far before its beat 0", again, far_on, program, clock, -1_000_100_000),
        ("alone", again, alone, clock, 500_000, 2),
        ("alone at the fastest tempo", again, alone, clock, 60_060, 3),
        ("alone at the slowest tempo", again, alone, clock, 3_000_000, 3),
        ("three of them", again, three, clock),
        ("options anywhere", options, clock),
        ("an address of another machine", unbound, clock),
        ("what the system refuses", refused, clock),
        ("words at fault", faults, clock),
        ("an output that takes nothing, or breaks", unwritten, clock),
        ("the script and the page's commands", by_script, clock),
    ]
    # Few at once, and who reads waits for nobody who reckons.
    sys.setswitchinterval(0.0001)
    with ThreadPoolExecutor(5) as pool:
        tallies = list(pool.map(lambda row: common.carried_out([row]), checks))
    tallies.append(common.carried_out([("a full journal", full_journal, clock)]))
    whole = common.Tally()
    whole.passed, whole.failed = (sum(getattr(tally, count) for tally in tallies) for count in ("passed", "failed"))
    return whole.end()


if __name__ == "__main__":
    common.begin(main, __doc__, programs=2)
