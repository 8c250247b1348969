#!/usr/bin/env python3
"""Runs sites with a way between them over the loopback interface, from scripts of tools/site.py: checks/sites.py PROGRAM [SEED].

Each of two sites has a gateway and a node beside it, all under control and in a group of their own. The way is a relay, at whose sockets
each gateway takes the other to be: the endpoint that a datagram tells is written anew there. It takes longer in one direction than in the
other, and loses, doubles and reorders by the seed (1 where not given). Looked at are: that all four get into one session, by the answers to
pings; that a tempo, a start and a stop of each reach all; that the ghost clocks of the sites differ by half of what the directions do; that
each site goes on while the way is cut for ten seconds, and that all are in one session again behind it, which is still theirs, with the
tempo that was set last; and that the runs end well.
Then three sites in a ring, with a gate to each other one: they get into one session, a tempo of each reaches all, and what each takes and
publishes stays little. Last, a run of `live` from the tool's script, the scripts of examples/live, and what the tool tells of words. All
addresses are of this machine's loopback interface.
The last line is 'N passed, N failed'.
"""
import heapq
import os
import random
import re
import select
import socket
import subprocess
import sys
import tempfile
import threading
import time
from contextlib import contextmanager

sys.dont_write_bytecode = True
import common  # noqa: E402
import node  # noqa: E402
from common import Differs, want  # noqa: E402

TOOL = os.path.join(common.HERE, "tools", "site.py")
# Link programs are in the group 0, so none of this machine is met. A second client's endpoint is one that the system picks.
GROUP, ANY = "27", "127.0.0.1:0"
# Seconds until which something has to happen, between two looks, and of the cut.
PATIENCE, LOOKS, CUT = 40, 0.05, 10
# Of the way, in seconds: how long it takes from the first site to the second and back at the least, how much longer at the most, and how
# much longer still where a datagram is to come behind the next ones. Of a hundred datagrams so many have each fate.
THERE, BACK, JITTER, LATE = 0.005, 0.025, 0.004, 0.03
LOST, DOUBLED, REORDERED = 3, 3, 3
# How far ghost clocks may be off beside what the way makes, in microseconds: the machine is busy with other things too.
SLACK = 5_000
LISTENS = re.compile(r"^jorazhil: listening for a client at 127\.0\.0\.1:([0-9]+)$", re.M)


def free_place(address):
    """A place at this address that nobody holds now."""
    with socket.socket(socket.AF_INET, socket.SOCK_DGRAM) as gate:
        gate.bind((address, 0))
        return gate.getsockname()


def text_of(place):
    return "{}:{}".format(*place)


def own_time():
    return time.monotonic_ns() // 1000


def until(what, look):
    """Looks until something is so; answers what it found then."""
    end = time.monotonic() + PATIENCE
    while not (found := look()):
        if time.monotonic() > end:
            raise Differs(f"within {PATIENCE} seconds it isn't so: {what}")
        time.sleep(LOOKS)
    return found


def script_of(words):
    """What the tool writes of some words."""
    status, output, error = common.of_tool(TOOL, words)
    want("the tool's status, and what it tells where that isn't 0", (status, error if status else ""), (0, ""))
    return output.decode()


# The way.


class Way(threading.Thread):
    """What stands between two gateways: a socket that is the second one for the first, and one that is the first one for the second."""

    def __init__(self, seed):
        super().__init__(daemon=True)
        self.draw, self.queue, self.is_cut, self.is_over = random.Random(seed), [], False, False
        self.sides = [socket.socket(socket.AF_INET, socket.SOCK_DGRAM) for _ in range(2)]
        for side, address in zip(self.sides, ("127.0.1.9", "127.0.2.9")):
            side.bind((address, 0))
        self.places = [side.getsockname() for side in self.sides]
        # The places of the gateways, how long each datagram was held in either direction, and how many had which fate.
        self.gates, self.held, self.fates = [None, None], ([], []), dict.fromkeys(("lost", "doubled", "reordered", "cut off"), 0)

    def run(self):
        while not self.is_over:
            span = max(0, min(0.1, self.queue[0][0] - time.monotonic())) if self.queue else 0.1
            for side in select.select(self.sides, [], [], span)[0]:
                data, source = side.recvfrom(513)
                way = self.sides.index(side)
                # Of anyone else nothing is handed on.
                if source == self.gates[way]:
                    self.take(way, data, time.monotonic())
            while self.queue and self.queue[0][0] <= time.monotonic():
                _, _, way, data, came = heapq.heappop(self.queue)
                if not self.is_cut:
                    self.sides[1 - way].sendto(data, self.gates[1 - way])
                    self.held[way].append(time.monotonic() - came)

    def take(self, way, data, came):
        """Draws what becomes of a datagram of one side, the first being that of the first site."""
        if self.is_cut:
            self.fates["cut off"] += 1
            return
        fate = self.draw.randrange(100)
        if fate < LOST:
            self.fates["lost"] += 1
            return
        is_late = LOST <= fate < LOST + REORDERED
        is_twice = LOST + REORDERED <= fate < LOST + REORDERED + DOUBLED
        self.fates["reordered"] += is_late
        self.fates["doubled"] += is_twice
        for _ in range(1 + is_twice):
            span = (THERE, BACK)[way] + self.draw.uniform(0, JITTER) + LATE * is_late
            heapq.heappush(self.queue, (came + span, self.draw.random(), way, self.told_anew(way, data), came))

    def told_anew(self, way, data):
        """The endpoint that a gateway tells is, for the other one, that of the socket which stands for it."""
        own, its = (node.entry(b"mep4", node.endpoint_of(text_of(place))) for place in (self.gates[way], self.places[1 - way]))
        return data.replace(own, its)

    def longer(self):
        """By how much the way back took longer than the way there, in microseconds: at the least, in the middle and at the most."""
        there, back = map(sorted, self.held)
        middle = back[len(back) // 2] - there[len(there) // 2]
        return [round(1_000_000 * span) for span in (back[0] - there[-1], middle, back[-1] - there[0])]

    def end(self):
        self.is_over = True
        self.join(PATIENCE)
        for side in self.sides:
            side.close()


# Nodes.


class Node:
    """A run under control, and its client. It answers pings at its gate."""

    def __init__(self, name, words, script, gate):
        self.name, self.gate, self.error = name, gate, tempfile.TemporaryFile()
        self.child = common.started(words, script, stdout=subprocess.PIPE, stderr=self.error)
        self.began, self.talk, self.asker = time.monotonic(), None, socket.socket(socket.AF_INET, socket.SOCK_DGRAM)
        self.asker.settimeout(0.5)

    def told(self):
        return os.pread(self.error.fileno(), 1 << 20, 0).decode()

    def connect(self):
        def listens():
            want(f"whether {self.name} has ended, and what it told", (self.child.poll(), self.told() if self.child.poll() else ""), (None, ""))
            return LISTENS.search(self.told())

        port = int(until(f"{self.name} listens", listens)[1])
        self.talk = socket.create_connection(("127.0.0.1", port), PATIENCE)
        self.lines = self.talk.makefile("rw", newline="\n")

    def ask(self, line):
        self.lines.write(line + "\n")
        self.lines.flush()
        return self.lines.readline().split()

    def status(self):
        """The tempo, whether it plays, and the peers."""
        mpb, _, _, playing, peers = map(int, self.ask("status")[1:])
        return mpb, playing, peers

    def pong(self):
        """The session, and how far its ghost time is ahead of this machine's, with how far off that may be, in microseconds. Of some pings
        the one that was answered soonest counts."""
        found = []
        while len(found) < 5:
            sent = own_time()
            self.asker.sendto(node.write_ping(sent), self.gate)
            try:
                pong = node.read_pong(self.asker.recv(513)[9:])
            except socket.timeout:
                want(f"the status of {self.name}, which doesn't answer a ping", self.child.poll(), None)
                continue
            came = own_time()
            if pong and pong[2] == sent:
                found.append((came - sent, pong[0], pong[1] - (sent + came) // 2))
        span, session, ahead = min(found)
        return session, ahead, (span + 1) // 2

    def end(self):
        """It ends well once its client does. Answers how many events it took and how many states it published, and for how long it ran."""
        self.asker.close()
        self.lines.close()
        self.talk.close()
        output, _ = self.child.communicate(timeout=PATIENCE)
        want(f"the status of {self.name}, and what it told", (self.child.returncode, self.told() if self.child.returncode else ""), (0, ""))
        events, states = map(int, output.decode().split()[2:4])
        return events, states, time.monotonic() - self.began


def gateway(program, name, gate, words):
    """One that the tool runs."""
    words = [sys.executable, TOOL, "--control", ANY, "--group", GROUP, "--program", program, "--run", *words]
    return Node(name, words, "", gate)


def beside(program, name, gate, other):
    """A node of a network, beside its gateway."""
    script = f"link 1\nsetup 500000 1\ngate {text_of(gate)}\nto {text_of(other)}\n"
    return Node(name, [program, "control", ANY, "--group", GROUP], script, gate)


def in_one_session(nodes):
    return len({one.pong()[0] for one in nodes}) == 1


def all_show(nodes, place, value):
    """Waits until each shows this at a place of its status."""
    until(f"all show {value} as number {place} of a status", lambda: all(one.status()[place] == value for one in nodes))


# Two sites.


class Sites:
    def __init__(self, program, seed):
        self.program, self.way, self.session = program, Way(seed), None

    def meet(self):
        nets, nodes, ways = zip(*[[free_place(f"127.0.{k}.{j}") for j in (1, 2, 3)] for k in (1, 2)])
        self.way.gates = list(ways)
        self.way.start()
        self.nodes = []
        for k in (0, 1):
            words = ["--here", text_of(nets[k]), "--way", text_of(ways[k]), "--there", text_of(self.way.places[k]), "--node", text_of(nodes[k])]
            self.nodes.append(gateway(self.program, f"gateway {k + 1}", nets[k], words))
            self.nodes.append(beside(self.program, f"node {k + 1}", nodes[k], nets[k]))
        for one in self.nodes:
            one.connect()
        until("all are in one session", lambda: in_one_session(self.nodes))
        self.want_whole()

    def want_whole(self):
        """Each gateway has its node and the other gateway for peers, each node its gateway."""
        until("each has its peers", lambda: [one.status()[2] for one in self.nodes] == [2, 1, 2, 1])
        until("all are in one session", lambda: in_one_session(self.nodes))

    def edits(self):
        for k, one in enumerate(self.nodes):
            for line, place, value in ((f"tempo {400_000 + 10_000 * k}", 0, 400_000 + 10_000 * k), ("play", 1, 1), ("stop", 1, 0)):
                want(f"the answer to {line!r}", one.ask(line)[0], "ok")
                all_show(self.nodes, place, value)

    def clocks(self):
        """Half of what the way back takes longer than the way there is what the clocks of the sites differ by: who measures over the way
        takes both to be as long."""
        least, middle, most = self.way.longer()
        pongs = [one.pong() for one in self.nodes]
        off = sum(error for _, _, error in pongs) + SLACK
        ahead = [ahead for _, ahead, _ in pongs]
        for k in (0, 2):
            want(f"whether the ghost clocks of a site are within {off} of each other: {ahead}", abs(ahead[k + 1] - ahead[k]) <= off, True)
        between = ahead[2] - ahead[0]
        want(f"whether {between} is within {off} of {least // 2} to {most // 2}", least // 2 - off <= between <= most // 2 + off, True)
        if most - least < 4 * JITTER * 1_000_000:
            want(f"whether {between} is within {off} of {middle // 2}", abs(between - middle // 2) <= off, True)
        self.between = between, middle // 2

    def cut(self):
        """Each site has a tempo of its own meanwhile, and the first one starts."""
        (session, _, _), before = self.nodes[0].pong(), [one.status()[:2] for one in self.nodes]
        want("how many tempos there are before", len(set(before)), 1)
        begun, self.way.is_cut = time.monotonic(), True
        first, second = self.nodes[:2], self.nodes[2:]
        for one, line in ((first[1], "tempo 350000"), (first[1], "play"), (second[1], "tempo 450000")):
            want(f"the answer to {line!r}", one.ask(line)[0], "ok")
        all_show(first, 0, 350_000)
        all_show(first, 1, 1)
        all_show(second, 0, 450_000)
        # Nobody hears an alive of the other site, whose time to live is 5 seconds.
        until("each gateway has lost the other", lambda: [one.status()[2] for one in self.nodes] == [1, 1, 1, 1])
        time.sleep(max(0, begun + CUT - time.monotonic()))
        want("what the second site shows", [one.status() for one in second], [(450_000, 0, 1)] * 2)
        want("whether all keep their session", {one.pong()[0] for one in self.nodes}, {session})
        self.way.is_cut = False
        back = time.monotonic()
        self.want_whole()
        all_show(self.nodes, 0, 450_000)
        all_show(self.nodes, 1, 1)
        self.back = time.monotonic() - back
        want("the session", {one.pong()[0] for one in self.nodes}, {session})

    def end(self):
        """Of a gateway it is told how many events came a second, its pings apart."""
        self.counts = [one.end() for one in (self.nodes[1], self.nodes[0], self.nodes[3], self.nodes[2])]
        self.way.end()
        want("the fates that no datagram had", [fate for fate, count in self.way.fates.items() if not count], [])

    def told(self):
        print(f"the way: {', '.join(f'{count} {fate}' for fate, count in self.way.fates.items())}, {sum(map(len, self.way.held))} handed on")
        print("the sites' ghost clocks are {} microseconds apart, half of what the directions differ by is {}".format(*self.between))
        print(f"all is as before {self.back:.1f} seconds behind the cut")
        rates = ", ".join(f"{events} events in {span:.0f} s" for events, _, span in self.counts)
        print(f"nodes and gateways: {rates}")


# A ring.


def ring(program):
    """Each of three has a gate of its own to each other one."""
    nets = [free_place(f"127.0.{k}.1") for k in (1, 2, 3)]
    ways = {(k, j): free_place(f"127.0.{k + 1}.{4 + j}") for k in range(3) for j in range(3) if k != j}
    nodes = []
    for k in range(3):
        words = ["--here", text_of(nets[k])]
        for j in range(3):
            words += [] if j == k else ["--way", text_of(ways[k, j]), "--there", text_of(ways[j, k])]
        nodes.append(gateway(program, f"gateway {k + 1} of the ring", nets[k], words))
    for one in nodes:
        one.connect()
    until("all of the ring are in one session", lambda: in_one_session(nodes))
    until("each has two peers", lambda: [one.status()[2] for one in nodes] == [2, 2, 2])
    for k, one in enumerate(nodes):
        want("the answer to a tempo", one.ask(f"tempo {350_000 + k}")[0], "ok")
        all_show(nodes, 0, 350_000 + k)
    time.sleep(2)
    want("how many sessions there are", len({one.pong()[0] for one in nodes}), 1)
    for one in nodes:
        events, states, span = one.end()
        # A second has four ticks or some more, and of each other one four alives and four responses. Each of two sessions may be measured,
        # by 51 pings, and so may this one's be from both sides; and the check has pinged too.
        want(f"whether {events} events in {span:.1f} seconds are few", events <= 40 * span + 1000, True)
        want(f"whether {states} states are few", states <= 60, True)


# The tool.


def live_run(program):
    """Nobody is at the other end. The run ends by its last line."""
    here, way = free_place("127.0.1.1"), free_place("127.0.1.3")
    words = ["--here", text_of(here), "--way", text_of(way), "--there", "127.0.2.3", "--hours", "0.0005", "--group", GROUP]
    script = script_of(words)
    want("the last line of the script", script.splitlines()[-1], "at 1800000 look")
    begun = time.monotonic()
    status, output, error = common.of_tool(TOOL, [*words, "--run", "--program", program])
    span, lines = time.monotonic() - begun, error.splitlines()
    want("the status", status, 0)
    want("what is told first", lines[0], f"site: {text_of(here)} is of lo, {text_of(way)} is of lo")
    gates = f"jorazhil: live at {text_of(way)} and {text_of(here)}; no blocks, room for 524288 events, bars of 4 beats, group {GROUP}"
    want("what is told then", lines[1], gates)
    want("the front of the output", output.decode().split(" ")[:2], ["#", "live"])
    want(f"whether {span} seconds are 1.8 or more", span >= 1.8, True)


def examples(_):
    for name, here, way, there in (
        ("site-a", "192.168.1.20", "10.8.0.1", "10.8.0.2"),
        ("site-b", "192.168.2.30", "10.8.0.2", "10.8.0.1"),
    ):
        text = common.read(common.EXAMPLES, "live", f"{name}.script")
        common.want_lines(f"{name}.script", script_of(["--here", here, "--way", way, "--there", there]), text)


@contextmanager
def taken(address):
    with socket.socket(socket.AF_INET, socket.SOCK_DGRAM) as held:
        held.bind((address, 0))
        yield held.getsockname()


RIGHT = ["--here", "127.0.1.1", "--way", "127.0.1.3", "--there", "127.0.2.3"]
PLACE = "takes an IPv4 address, as"
# Words, and the front of what they are answered.
AT_FAULT = [
    (["--here", "127.0.1.1"], "--way is missing; this machine has "),
    (["--way", "127.0.1.3", "--there", "127.0.2.3"], "--here is missing; this machine has "),
    (["--here", "127.0.1.1", "--way", "127.0.1.3"], "--there is missing; this machine has "),
    (["--here", "here", *RIGHT[2:]], f'--here {PLACE} 192.168.1.20, or one with a port, found "here"'),
    (["--here", "127.0.1.256", *RIGHT[2:]], f'--here {PLACE} 192.168.1.20, or one with a port, found "127.0.1.256"'),
    (["--here", "0.0.0.0", *RIGHT[2:]], f"--here {PLACE} 192.168.1.20, or one with a port: other nodes are told it as it stands"),
    (["--here", "224.76.78.75", *RIGHT[2:]], f"--here {PLACE} 192.168.1.20, or one with a port: other nodes are told it as it stands"),
    (["--here", "127.0.1.1:20808", *RIGHT[2:]], "--here: a port is from 1 to 65535, and not 20808, which Link programs listen on"),
    (["--here", "127.0.1.1:0", *RIGHT[2:]], "--here: a port is from 1 to 65535, and not 20808"),
    ([*RIGHT, "--there", "127.0.2.x"], f'--there {PLACE} 10.8.0.1, or one with a port, found "127.0.2.x"'),
    ([*RIGHT, "--way", "127.0.1.4"], "2 --way and 1 --there: either one way is for all sites, or each site has its own"),
    (["--here", "127.0.1.1", "--way", "127.0.1.3", "--there", "127.0.1.3"], "--there is the other site's --way, and 127.0.1.3:17001 is this"),
    (["--here", "127.0.1.1:17001", "--way", "127.0.1.1", "--there", "127.0.2.3"], "--here and --way are gates of their own"),
    ([*RIGHT, "--hours", "0"], '--hours is a number above 0, at most 1000, as in `--hours 5` or `--hours 0.5`, found "0"'),
    ([*RIGHT, "--hours", "all night"], "--hours is a number above 0"),
    ([*RIGHT, "--programs", "-1"], "--programs is how many Link programs this site has, from 0 to 999"),
    ([*RIGHT, "--there", "127.0.2.3"], "each site is one --there, each node of this network one --node, found 127.0.2.3:17001 twice"),
    ([*RIGHT, "--node", "127.0.2.3:17001"], "each site is one --there, each node of this network one --node, found 127.0.2.3:17001 twice"),
    ([*RIGHT, "--node", "127.0.1.1"], "--node is another node's gate, and 127.0.1.1:17000 is this one's own"),
    ([*RIGHT, "--control", "127.0.0.1"], "--control takes an IPv4 address of this machine and a port, as 127.0.0.1:20900, found"),
    ([*RIGHT, "--control", "127.0.0.1:65536"], "--control takes an IPv4 address of this machine and a port"),
    ([*RIGHT, "--control", ANY, "--hours", "3"], "--hours is of `live`, and --control of `control`, which its client ends"),
    ([*RIGHT, "--group", "65536"], "--group is a number from 0, that of Link programs, to 65535, found"),
    ([*RIGHT, "--bogus"], "unrecognized arguments: --bogus; --help tells all"),
    (["--here", "198.51.100.1", *RIGHT[2:], "--run"], "--here: 198.51.100.1 isn't an address of this machine, which has 127.0.0.1 (lo)"),
]


def told_by_the_tool(_):
    free = [word for option, k in (("--here", 1), ("--way", 3)) for word in (option, text_of(free_place(f"127.0.1.{k}")))]
    nowhere = [*free, *RIGHT[4:], "--run", "--program", "/nowhere"], "/nowhere could not be run: No such file or directory"
    for words, front in [*AT_FAULT, nowhere]:
        status, output, error = common.of_tool(TOOL, words)
        wanted = "site: " + front
        found = [line for line in error.splitlines() if line.startswith("site: ")][-1:]
        want(f"{words}", (status, output, [line[: len(wanted)] for line in found]), (2, b"", [wanted]))
    # What is told of this machine, beside a script.
    with taken("127.0.1.1") as held:
        for words, front in (
            (["--here", "198.51.100.1", *RIGHT[2:]], "--here: 198.51.100.1 isn't an address of this machine, which has "),
            (["--here", "127.255.255.255", *RIGHT[2:]], "--here: 127.255.255.255 isn't an address of this machine, which has "),
            (["--here", text_of(held), *RIGHT[2:]], f"--here: another program has the port {held[1]} of 127.0.1.1"),
            ([*RIGHT, "--hours", "6"], "--hours: a journal of 524,288 events lasts 5 hours 49 minutes at 25 a second"),
            ([*RIGHT, "--hours", "5", "--programs", "4"], "--hours: a journal of 524,288 events lasts 3 hours 23 minutes at 43 a second"),
            ([*RIGHT, "--programs", "4"], "the run ends after 3 hours 23 minutes, since a journal of 524,288 events lasts 3 hours 23 minutes at 43"),
            ([*RIGHT, "--control", ANY], "a journal of 524,288 events lasts 5 hours 49 minutes at 25 a second; end the client before that"),
        ):
            status, output, error = common.of_tool(TOOL, words)
            want(f"whether {front!r} is told of {words}: {error!r}", f"site: {front}" in error, True)
            want(f"the status and the script of {words}", (status, output[:20]), (0, b"# The node of a site"))
    for words, first, last in (
        ([], "live --blocks 0 --events 524288", "at 18000000000 look"),
        (["--programs", "4", "--group", "7"], "live --blocks 0 --events 524288 --group 7", "at 12180000000 look"),
        (["--control", ANY], f"control {ANY} --events 524288", "to 224.76.78.75:20808"),
    ):
        lines = script_of([*RIGHT, *words]).splitlines()
        want(f"the command and the last line of the script of {words}", (lines[0].split(": jorazhil ")[-1], lines[-1]), (first, last))
    status, output, error = common.of_tool(TOOL, [])
    want("this machine's addresses", (status, re.search(r"^127\.0\.0\.1 +lo +in 127\.0\.0\.0/8$", output.decode(), re.M) is None, error), (0, False, ""))
    status, output, error = common.of_tool(TOOL, ["--help"])
    want("--help", (status, error, [word for word in ("--here", "--there", "Exit status:") if word not in output.decode()]), (0, "", []))


def main(program, seed):
    sites = Sites(program, seed)
    checks = [
        ("two sites that meet", sites.meet),
        ("edits of each", sites.edits),
        ("the clocks of both sites", sites.clocks),
        ("a way that is cut", sites.cut),
        ("the end of both sites", sites.end),
        ("three sites in a ring", ring, program),
        ("a live run of a site", live_run, program),
        ("the scripts of examples/live", examples, program),
        ("what tools/site.py tells", told_by_the_tool, program),
    ]
    tally = common.carried_out(checks)
    if not tally.failed:
        sites.told()
    return tally.end()


if __name__ == "__main__":
    common.begin(main, __doc__, has_seed=True)
