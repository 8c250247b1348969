#!/usr/bin/env python3
"""Runs two of the built program's `live` beside each other over the loopback interface: checks/live.py PROGRAM.

Each lists the other as a destination; one changes the tempo and its quantum, and the audio thread of the other starts to play. Looked at
are, of each run, its status, its clicks, what else it tells on standard error, and what its summary counts; its record, whose head has the
group and the quantum of the words, and which the program and the plain reading of checks/node.py replay to what the summary tells; and of
both, that each has an id of its own, drawn from a seed of its own, that what one heard is what the other's replayed record sends, that
they end with one tempo, each with its own quantum, both playing, in the session that both told and showed before one said goodbye, and that
their last clicks come together, by what their datagrams tell of how far apart their clocks are.
Then three runs beside each other, two of one group and one of another: the two count each other as peers, and the third counts nobody,
though all of them hear what the others broadcast.
Further runs: one finds its gate's port taken, one has a destination that the system refuses, one a multicast group, one has no `at`
command, one counts its accents in four microbeats, one is given another quantum by its audio thread and by its application, which its
states show and its accents and a forced beat follow, one has a command for a block past its last one, one has all options at once and room
for two events, one is idle, by the time of the processor that it used, and one has four gates, each of which answers pings and tells of
itself from its own port.
The last line is 'N passed, N failed'.
"""
import resource
import socket
import struct
import subprocess
import sys
import time
from collections import Counter
from contextlib import ExitStack

sys.dont_write_bytecode = True
import common  # noqa: E402
import node  # noqa: E402
from common import Differs, come, free_ports, listener, reason_to_refuse, want, want_lines  # noqa: E402

BLOCK = 20_000
BLOCKS = 250
END = BLOCKS * BLOCK
# By then both are in one session: they tell of themselves four times a second, and a measurement is 51 pings.
TEMPO_AT, PLAY_IN = END // 2, 7 * BLOCKS // 10
NEW_TEMPO, NEW_QUANTUM = 400_000, 3_000_000
# How long an idle run is, one that is held against it, and one with four gates, in microseconds.
IDLE, SHORT, GATES_END = 2_000_000, 40_000, 3_000_000
# Of three runs, for as many blocks. The third one's group has the two bytes of the others' in another order.
GROUPS, GROUP_BLOCKS = (258, 258, 513), 200
TOLD = "jorazhil: "
ROOM = "room for 262144 events"
# The option of Linux by which a receiver is told how many more hops a datagram may make.
IP_RECVTTL = 12
COUNTS = "events states reads captures app audio plays clicks".split()
STATE = "number mpb beat time playing start stamp sync peers moment app audio session quantum".split()


def numbers(line, head, names):
    """The numbers of a line behind its first words, by name. A session stays in hex."""
    words, front = line.split(" "), head.split(" ")
    want(f"the front of {line!r}, and how many words follow", (words[: len(front)], len(words) - len(front)), (front, len(names)))
    return {name: word if name == "session" else int(word) for name, word in zip(names, words[len(front) :])}


def script(port, peers, commands):
    lines = ["link 1", "setup 500000 1", f"gate 127.0.0.1:{port}", *(f"to 127.0.0.1:{peer}" for peer in peers), *commands]
    return "".join(line + "\n" for line in lines)


class Run:
    """A live run, from its beginning on."""

    def __init__(self, program, port, peers, commands, blocks=BLOCKS, quantum=4_000_000, group=None, events=None):
        self.program, self.port, self.script, self.sent, self.states = program, port, script(port, peers, commands), [], []
        self.quantum, self.group = quantum, group or 0
        words, pipe = [program, "live", "--blocks", str(blocks), "--quantum", str(quantum), "--record"], subprocess.PIPE
        words += [] if group is None else ["--group", str(group)]
        words += [] if events is None else ["--events", str(events)]
        self.before = time.time_ns()
        self.child = common.started(words, self.script, stdout=pipe, stderr=pipe, text=True)

    def end(self):
        try:
            self.output, self.error = self.child.communicate(timeout=common.LONGEST)
            self.after = time.time_ns()
        finally:
            self.child.kill()
        self.status, self.lines = self.child.returncode, self.output.splitlines()

    def told(self, word, text):
        status, output, error = common.ended([self.program, word], text)
        want(f"status and standard error of {word}", (status, error), (0, ""))
        return output

    def spoken(self, datagrams):
        """The words that `decode` tells of each of some datagrams in hex."""
        told = self.told("decode", "".join(digits + "\n" for digits in datagrams)).splitlines()
        want("how many datagrams decode tells of", len(told), len(datagrams))
        return [line.split(" ") for line in told]

    def state(self):
        """The state that the summary tells."""
        return numbers(self.lines[1], "# state", STATE)

    def expect_counts(self, **wanted):
        found = numbers(self.lines[0], "# live", COUNTS)
        want("the summary", {name: found[name] for name in wanted}, wanted)

    def clicks(self):
        """The moment of each click that was told, and its kind: all lines on standard error but those of the program."""
        words = [line.split(" ") for line in self.error.splitlines() if not line.startswith(TOLD)]
        want("lines that tell no click", [line for line in words if line[0] != "click" or line[2:] not in (["accent"], ["plain"])], [])
        return [(int(moment), kind) for _, moment, kind in words]

    def expect_clicks(self):
        """The clicks are those that the summary counts, each at a later moment."""
        words = self.clicks()
        moments = [moment for moment, _ in words]
        want("the moments of the clicks", moments, sorted(set(moments)))
        self.expect_counts(clicks=len(words))
        if not words:
            raise Differs("no click was told")

    def expect_told(self, setup, before=(), behind=()):
        """What the program tells on standard error: how the run is set up, before any click; and at its end how full the journal is, and
        what stands before that and behind it."""
        lines = self.error.splitlines()
        told = [line[len(TOLD) :] for line in lines if line.startswith(TOLD)]
        events = numbers(self.lines[0], "# live", COUNTS)["events"]
        want("what is told", told, [*setup, *before, f"the journal took {events} of 262144 events", *behind])
        want("the first lines", [line[len(TOLD) :] for line in lines[: len(setup)]], setup)

    def expect_head(self):
        """The record is of version 2, and says the group and the quantum of the words."""
        [version, _, *profile] = [line for line in self.lines if not line.startswith("#")][:4]
        want("the front of the record", [version, *profile], ["replay 2", f"group {self.group}", f"quantum {self.quantum}"])

    def expect_replayed(self):
        """The record is a replay script of this run, for the program and for the plain reading. Keeps what it sends and shows."""
        self.expect_head()
        output = self.told("replay", self.output)
        want_lines("the replayed record", output, node.output_of(*node.read_script(self.output.encode()), Counter()))
        lines = output.splitlines()
        done = numbers(lines[-1], "done", ["events", "states", "sends"])
        self.expect_counts(events=done["events"], states=done["states"])
        states = [line for line in lines if line.startswith("state ")]
        want("the last state", self.lines[1], "# " + states[-1])
        self.states = [numbers(line, "state", STATE) for line in states]
        want_lines("the gates of the record", self.gates(self.output), self.gates(self.script))
        want("the last event", self.lines[-1].split(" ")[0], "end")
        self.sent = [line.split(" ") for line in lines if line.startswith("tx ")]

    def id_and_seed(self):
        """Those of the node, as the head of the record tells. The id is the first one that the seed gives, and that is the time of day."""
        [(name, seed)] = [line.split(" ")[1:3] for line in self.lines if line.startswith("node ")]
        want("the id", name, node.Ids(int(seed), 1).draw().decode())
        want(f"whether the seed {seed} is of the run, {self.before} to {self.after}", self.before <= int(seed) <= self.after, True)
        return name, seed

    def gates(self, text):
        return "".join(line + "\n" for line in text.splitlines() if line.startswith(("gate ", "to ")))

    def heard(self):
        """The moment and the digits of each datagram that came."""
        return [(int(words[1]), words[4]) for words in (line.split(" ") for line in self.lines) if words[0] == "rx"]

    def messages(self, datagrams):
        """The kinds, and the groups of those that have one, of some datagrams in hex."""
        words = self.spoken(datagrams)
        return {said[0] for said in words}, {int(said[3]) for said in words if said[0] in ("alive", "response", "bye")}

    def session(self):
        """The session of the last alive that went out before a goodbye was heard, which the last state before that shows too."""
        heard = self.heard()
        kinds = [words[0] for words in self.spoken([digits for _, digits in heard])]
        until = min((now for (now, _), kind in zip(heard, kinds) if kind == "bye"), default=END * 10)
        told = self.spoken([sent[4] for sent in self.sent if int(sent[1]) < until])
        session = [words[7] for words in told if words[0] == "alive"][-1]
        want("the session that is shown", [state["session"] for state in self.states if state["moment"] < until][-1], session)
        return session


def two_runs(program):
    first, second = free_ports(2)
    last = f"at {END} look"
    runs = [
        Run(program, first, [second], [f"at {TEMPO_AT} tempo {NEW_TEMPO}", f"at {TEMPO_AT} quantum {NEW_QUANTUM}", last]),
        Run(program, second, [first], [f"block {PLAY_IN} play", last]),
    ]
    for run in runs:
        run.end()
    return runs


def each_run(run, app, audio):
    want("the status and the end of standard error", (run.status, run.error[-400:] if run.status else ""), (0, ""))
    run.expect_counts(reads=BLOCKS, plays=BLOCKS, captures=app + 1, app=app, audio=audio)
    run.expect_clicks()
    run.expect_told(setup_told(run.port, "at most 250 blocks of 20 milliseconds (5 seconds)"))
    run.expect_replayed()


def kinds_heard(run, other):
    """What came to a run is, in order, of what the replayed record of the other sends there. Answers of which kinds it is."""
    heard = [digits for _, digits in run.heard()]
    sent = iter(words[4] for words in other.sent if words[3] == f"127.0.0.1:{run.port}")
    want("what came and was not sent", [digits for digits in heard if digits not in sent][:1], [])
    return {words[0] for words in run.spoken(heard)}


def two_ids(one, other):
    """Neither the ids nor the seeds are the same."""
    for what, first, second in zip(("id", "seed"), one.id_and_seed(), other.id_and_seed()):
        if first == second:
            raise Differs(f"both runs have the {what} {first}")


def both_runs(one, other):
    kinds = kinds_heard(one, other), kinds_heard(other, one)
    want("the kinds that one of them never heard", {"alive", "response"} - (kinds[0] & kinds[1]), set())
    want("the kinds that nobody heard", {"ping", "pong"} - (kinds[0] | kinds[1]), set())
    states = one.state(), other.state()
    want("the tempos at the end", [state["mpb"] for state in states], [NEW_TEMPO] * 2)
    want("the quanta at the end", [state["quantum"] for state in states], [NEW_QUANTUM, 4_000_000])
    want("whether they play at the end", [state["playing"] for state in states], [1] * 2)
    want("the session that the second tells last", other.session(), one.session())


def times_apart(sender, receiver):
    """How much later by the receiver's clock each datagram came than it was sent by the sender's, of those that are there once."""
    sent = [(words[4], int(words[1])) for words in sender.sent]
    came = [(digits, moment) for moment, digits in receiver.heard()]
    once = [{digits for digits, count in Counter(digits for digits, _ in told).items() if count == 1} for told in (sent, came)]
    sent, came = dict(sent), dict(came)
    return [came[digits] - sent[digits] for digits in once[0] & once[1]]


def same_clicks(one, other):
    """Between whose clocks lies what no datagram contradicts, since none comes before it was sent; so far apart are their clicks too."""
    most, least = min(times_apart(one, other)), -min(times_apart(other, one))
    want(f"whether the second clock is ahead by {least} to {most}", least <= most < least + 20_000, True)
    late = [moment for moment, _ in one.clicks() if END - 1_000_000 <= moment < END - 300_000]
    off = [min(abs(moment + (least + most) // 2 - there) for there, _ in other.clicks()) for moment in late]
    want(f"whether there are clicks, which are off by {off}", bool(off) and max(off) <= 5_000 + (most - least) // 2, True)


def three_runs(program):
    """Each lists both others as destinations."""
    ports, last = free_ports(3), [f"at {GROUP_BLOCKS * BLOCK} look"]
    runs = []
    for port, group in zip(ports, GROUPS):
        runs.append(Run(program, port, [other for other in ports if other != port], last, GROUP_BLOCKS, group=group))
    for run in runs:
        run.end()
    return runs


def groups_apart(*runs):
    for run in runs:
        want("the status and the end of standard error", (run.status, run.error[-400:] if run.status else ""), (0, ""))
        run.expect_replayed()
    want("the most peers that each counts", [max(state["peers"] for state in run.states) for run in runs], [1, 1, 0])
    heard = [run.messages([digits for _, digits in run.heard()]) for run in runs]
    sent = [run.messages([words[4] for words in run.sent]) for run in runs]
    own, another = GROUPS[0], GROUPS[2]
    told = [run.error.splitlines()[0].rsplit(", ", 1)[-1] for run in runs]
    want("the group that each tells as it begins", told, [f"group {group}" for group in GROUPS])
    want("the groups that each hears", [groups for _, groups in heard], [{own, another}, {own, another}, {own}])
    want("the groups that each sends with", [groups for _, groups in sent], [{own}, {own}, {another}])
    # Nobody has answered or measured the third one, nor it the others.
    want("the kinds that the third hears, and sends", (heard[2][0] - {"bye"}, sent[2][0]), ({"alive"}, {"alive", "bye"}))


def setup_told(port, blocks, bars="bars of 4 beats"):
    return [f"live at 127.0.0.1:{port}; {blocks}, {ROOM}, {bars}"]


def taken_port(program):
    """The gate's port is held by someone else: the run goes on without it."""
    with socket.socket(socket.AF_INET, socket.SOCK_DGRAM) as held:
        held.bind(("127.0.0.1", 0))
        run = Run(program, held.getsockname()[1], [], ["at 0 tempo 400000", "at 0 look"], 3)
        run.end()
    want("the status", run.status, 3)
    without = [
        f"the gate 127.0.0.1:{run.port} could not be bound: Address already in use (os error 98); the run goes on without the network",
        f"live without the network; at most 3 blocks of 20 milliseconds (0.06 seconds), {ROOM}, bars of 4 beats",
    ]
    told = [line for line in run.error.splitlines() if line.startswith(TOLD)]
    want("the last line", told[-1][:30], "jorazhil: the network failed: ")
    run.error = "".join(line + "\n" for line in told[:-1])
    run.expect_told(without)
    run.expect_counts(reads=3, plays=3, captures=2, app=1, audio=0, clicks=0)
    want("the tempo at the end", run.state()["mpb"], 400_000)
    run.expect_replayed()


def short_run(program, commands, blocks, quantum=4_000_000):
    run = Run(program, free_ports(1)[0], [], commands, blocks, quantum)
    run.end()
    want("the status", run.status, 0)
    return run


def refused(program):
    """The system refuses a broadcast, for which no option is set: how often is told at the end, and the run goes on."""
    run = short_run(program, ["to 255.255.255.255:20808", "at 0 tempo 400000", "at 300000 look"], 10)
    run.expect_replayed()
    sent = len([words for words in run.sent if words[3] == "255.255.255.255:20808"])
    refusal = f"the system refused {sent} datagrams to 255.255.255.255:20808, the last for: {reason_to_refuse()}"
    run.expect_told(setup_told(run.port, "at most 10 blocks of 20 milliseconds (0.2 seconds)"), before=[refusal])


def hop_of(receiver):
    """From where a datagram came, and how many more hops it may make."""
    _, ancillary, _, (host, port) = receiver.recvmsg(513, 64)
    return host, port, [struct.unpack("i", value)[0] for _, kind, value in ancillary if kind == socket.IP_TTL]


def multicast(program):
    """Alives go to a multicast group with one hop, and programs of this machine hear them: so Link programs do, by docs/BESIDE-LINK.md."""
    group = ("224.76.78.75", free_ports(1)[0])
    with socket.socket(socket.AF_INET, socket.SOCK_DGRAM) as heard, socket.socket(socket.AF_INET, socket.SOCK_DGRAM) as plain:
        heard.bind(group)
        heard.settimeout(5)
        plain.bind(("127.0.0.1", 0))
        try:
            heard.setsockopt(socket.IPPROTO_IP, socket.IP_ADD_MEMBERSHIP, socket.inet_aton(group[0]) + socket.inet_aton("127.0.0.1"))
            heard.setsockopt(socket.IPPROTO_IP, IP_RECVTTL, 1)
            plain.sendto(b"-", group)
            want("a datagram of our own", hop_of(heard), (*plain.getsockname(), [1]))
        except OSError as error:
            print(f"note: nothing can be heard in a multicast group here ({error}), so no alive is looked for there")
            return
        run = short_run(program, [f"to {group[0]}:{group[1]}", "at 300000 look"], 0)
        want("the first that comes", hop_of(heard), ("127.0.0.1", run.port, [1]))


def without_commands(program):
    """No `at` command: the node leaves at once, and its blocks go on."""
    run = short_run(program, [], 3)
    run.expect_counts(reads=3, plays=3, captures=0)
    told = "the script had no at command, so the node left its session at once, while its blocks went on"
    run.expect_told(setup_told(run.port, "at most 3 blocks of 20 milliseconds (0.06 seconds)"), behind=[told])


def short_quantum(program):
    """A quantum of four microbeats, as somebody writes who means four beats: each click is an accent, and it is told."""
    run = short_run(program, ["at 0 tempo 60060", "at 20000 play", "at 400000 look"], 25, 4)
    run.expect_head()
    run.expect_clicks()
    clicks = {line.split(" ")[2] for line in run.error.splitlines() if not line.startswith(TOLD)}
    want("the kinds of clicks", clicks, {"accent"})
    bars = "bars of 0.000004 beats, so every click is an accent"
    run.expect_told(setup_told(run.port, "at most 25 blocks of 20 milliseconds (0.5 seconds)", bars))


def accents(clicks, line, quantum):
    """The kinds that clicks have by a timeline and a quantum."""
    return ["accent" if (node.beat_at(line, moment) - line.beat) % quantum < 1_000_000 else "plain" for moment, _ in clicks]


def is_changed_once(clicks, line, quanta):
    """Whether the kinds of clicks go by the first quantum up to some click, and by the second behind it, with five of each."""
    kinds = [kind for _, kind in clicks]
    first, second = (accents(clicks, line, quantum) for quantum in quanta)
    return any(kinds == first[:count] + second[count:] for count in range(5, len(kinds) - 4))


def new_quanta(program):
    """Another quantum is set by the audio thread in its 15th block, and by the application after a second. The first is in force from the
    next block on, the second once the audio thread is shown it. The application then forces a beat, which is on the quantum that it set."""
    at_1 = ["at 0 tempo 60060", "at 20000 play", "block 15 quantum 2000000", "at 1000000 quantum 5000000"]
    run = short_run(program, [*at_1, "at 2200000 force 1000000"], 100, 3_000_000)
    run.expect_head()
    run.expect_counts(reads=100, plays=100, captures=4, app=4, audio=1)
    run.expect_clicks()
    run.expect_replayed()
    run.expect_told(setup_told(run.port, "at most 100 blocks of 20 milliseconds (2 seconds)", "bars of 3 beats"))
    shown = [state["quantum"] for state in run.states]
    want("the quanta that are shown", [quantum for k, quantum in enumerate(shown) if shown[:k][-1:] != [quantum]], [3_000_000, 2_000_000, 5_000_000])
    want("the sessions that are shown", {state["session"] for state in run.states}, {run.id_and_seed()[0].encode().hex()})
    before = [state for state in run.states if state["app"] == 3][-1]
    line, clicks = node.Timeline(before["mpb"], before["beat"], before["time"]), run.clicks()
    early = [click for click in clicks if click[0] < 300_000]
    want("the clicks up to the 15th block", [kind for _, kind in early], accents(early, line, 3_000_000))
    late = clicks[len(early) :]
    want(f"whether {late} go by 2 beats and then by 5", is_changed_once(late, line, (2_000_000, 5_000_000)), True)
    forced = [words for words in (line.split(" ") for line in run.lines) if words[0] == "app"][-1]
    want("the parts of the last commit", [word for word in forced if word in "tsq"], ["t"])
    line = node.Timeline(*map(int, forced[4:7]))
    off = (node.beat_at(line, int(forced[2])) - line.beat - 1_000_000 + 2_500_000) % 5_000_000 - 2_500_000
    want(f"whether the forced beat is on the quantum, off which it is by {off}", -17 <= off <= 17, True)


def late_block(program):
    """A command for a block past the last one never comes: no audio commit is counted, and nothing told (docs/BESIDE-LINK.md says so)."""
    run = short_run(program, ["at 0 look", "block 600 play"], 10)
    run.expect_counts(reads=10, plays=10, captures=1, audio=0)
    run.expect_told(setup_told(run.port, "at most 10 blocks of 20 milliseconds (0.2 seconds)"))


def all_options(program):
    """All options at once, of which the last gives room for two events. That is too little, by the status, and none was passed over."""
    run = Run(program, free_ports(1)[0], [], ["at 0 tempo 400000", "at 300000 look"], 5, 3_000_000, 7, 2)
    run.end()
    want("the status", run.status, 6)
    run.expect_counts(events=2, reads=5, plays=5, captures=2, app=1, audio=0, clicks=0)
    run.expect_head()
    about = "at most 5 blocks of 20 milliseconds (0.1 seconds), room for 2 events, bars of 3 beats, group 7"
    told = [line[len(TOLD) :] for line in run.error.splitlines()]
    full = "the journal was full before the run ended, and what came then was not taken; `--events` gives it more room, up to 524288"
    want("what is told", told, [f"live at 127.0.0.1:{run.port}; {about}", "the journal took 2 of 2 events", full])


def processor_time():
    """What all runs that have ended used of the processor, in microseconds."""
    used = resource.getrusage(resource.RUSAGE_CHILDREN)
    return round(1_000_000 * (used.ru_utime + used.ru_stime))


def time_used(program, length, status, is_taken, events):
    """What a run without peers and without anything to play used of the processor. Its port is taken by someone else, if so told."""
    before = processor_time()
    with socket.socket(socket.AF_INET, socket.SOCK_DGRAM) as held:
        held.bind(("127.0.0.1", 0))
        port = held.getsockname()[1] if is_taken else free_ports(1)[0]
        run = Run(program, port, [], [f"at {length} look"], length // BLOCK, events=events)
        run.end()
    want("the status", run.status, status)
    run.expect_counts(reads=length // BLOCK, plays=length // BLOCK, captures=1)
    return processor_time() - before


def idle(program, status, is_taken=False, events=None):
    """A node without peers whose blocks play nothing: its three threads wait for nearly all of the time. So they do where the port is taken
    by someone else, and where the journal is full. What a short run uses is taken off, for how long a start takes goes by the machine; and
    what others do to the processor makes a run dearer, so of five runs the cheapest counts, up to one that is cheap enough."""
    used = []
    for _ in range(5):
        whole, start = (time_used(program, length, status, is_taken, events) for length in (IDLE, SHORT))
        used.append(whole - start)
        if used[-1] < IDLE // 10:
            break
    want(f"whether one of {used} microseconds of the processor is less than a tenth of {IDLE}", min(used) < IDLE // 10, True)


def four_gates(program):
    """Each gate is heard by a listener of its own, and a further one asks all of them. What comes of a gate comes from its port."""
    with ExitStack() as held:
        *ears, asker = [held.enter_context(listener()) for _ in range(5)]
        gates = free_ports(4)
        names = [f"127.0.0.1:{gate}" for gate in gates]
        to = [ear.getsockname()[1] for ear in ears]
        more = [line for name, port in zip(names[1:], to[1:]) for line in (f"gate {name}", f"to 127.0.0.1:{port}")]
        run = Run(program, gates[0], to[:1], [*more, f"at {GATES_END} look"], 0)
        answers = []
        try:
            heard = [[ear.recvfrom(513)] for ear in ears]
            for k, gate in enumerate(gates, 1):
                asker.sendto(node.write_ping(k), ("127.0.0.1", gate))
                answers.append(asker.recvfrom(513))
        finally:
            run.end()
        for ear, datagrams in zip(ears, heard):
            datagrams += come(ear)
    want("the status", run.status, 0)
    run.expect_told([f"live at {', '.join(names[:3])} and {names[3]}; no blocks, {ROOM}, bars of 4 beats"])
    own = run.id_and_seed()[0].encode()
    for k, (gate, name, datagrams, (pong, source)) in enumerate(zip(gates, names, heard, answers), 1):
        want(f"where that comes from which {name} tells", {source for _, source in datagrams}, {("127.0.0.1", gate)})
        states = [node.read_state(datagram[20:]) for datagram, _ in datagrams[:-1]]
        want(f"where {name} tells that it answers", {state and state[3] for state in states}, {node.endpoint_of(name)})
        want(f"the last that {name} tells", datagrams[-1][0], node.write_bye(0, own))
        session, _, host, _ = node.read_pong(pong[9:]) or [None] * 4
        want(f"what answers a ping at {name}", (source, pong[:9], session, host), (("127.0.0.1", gate), b"_link_v\x01\x02", own, k))
    run.expect_replayed()


def main(program):
    one, other = two_runs(program)
    three = three_runs(program)
    checks = [
        ("the run that changes the tempo and its quantum", each_run, one, 2, 0),
        ("the run that starts to play", each_run, other, 0, 1),
        ("the ids of both runs", two_ids, one, other),
        ("both runs", both_runs, one, other),
        ("the clocks and the clicks of both runs", same_clicks, one, other),
        ("three runs of two groups", groups_apart, *three),
        ("a run whose port is taken", taken_port, program),
        ("a run with a destination that the system refuses", refused, program),
        ("a run with a destination that is a multicast group", multicast, program),
        ("a run without an at command", without_commands, program),
        ("a run with a quantum of four microbeats", short_quantum, program),
        ("a run that is given other quanta", new_quanta, program),
        ("a run with a block command past its last block", late_block, program),
        ("a run with all options", all_options, program),
        ("an idle run", idle, program, 0),
        ("an idle run whose port is taken", idle, program, 3, True),
        ("an idle run whose journal is full", idle, program, 6, False, 1),
        ("a run with four gates", four_gates, program),
    ]
    tally = common.carried_out(checks)
    for run in (one, other, *three):
        print("\n".join(run.lines[:2]))
    return tally.end()


if __name__ == "__main__":
    common.begin(main, __doc__)
