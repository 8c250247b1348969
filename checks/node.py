#!/usr/bin/env python3
"""A plain reading of the rules of a node and of its scripts: checks/node.py < SCRIPT writes what `replay` has to answer.

It keeps lists and dictionaries, numbers without bounds and one branch for each rule, and nothing that is there for speed. Where the script
is outside the grammar it writes the first line at fault on standard error and ends with 8.
"""
import re
import sys
from collections import Counter, namedtuple

LIMIT = 2**60
Timeline = namedtuple("Timeline", "mpb beat time")
# A start of a session has its moment in beats, one of a client in host time.
Start = namedtuple("Start", "playing at stamp")
Config = namedtuple("Config", "id seed mpb sync now group quantum gates")
Gate = namedtuple("Gate", "local peers")
Row = namedtuple("Row", "session endpoint limit")
State = namedtuple("State", "timeline start sync peers app audio session quantum")
STOPPED = Start(0, 0, 0)


# Numbers and timelines.


def clip(n):
    return max(-LIMIT, min(LIMIT, n))


def near(n, d):
    magnitude = (2 * abs(n) + d) // (2 * d)
    return magnitude if n >= 0 else -magnitude


def tidy(timeline):
    return Timeline(max(60_060, min(3_000_000, timeline.mpb)), clip(timeline.beat), clip(timeline.time))


def beat_at(timeline, time):
    return clip(timeline.beat + near((time - timeline.time) * 1_000_000, timeline.mpb))


def time_at(timeline, beat):
    return clip(timeline.time + near((beat - timeline.beat) * timeline.mpb, 1_000_000))


def client_from_session(client, session, now, offset):
    line = Timeline(session.mpb, beat_at(client, now), now)
    zero = clip(time_at(session, 0) - offset)
    return Timeline(session.mpb, beat_at(line, zero), zero)


def session_from_client(session, client, at, offset):
    """None where the session's beat origin is spent."""
    ghost = clip(client.time + offset)
    if beat_at(session, ghost) == 0 and session.mpb == client.mpb:
        return session
    if session.beat == LIMIT:
        return None
    origin = max(beat_at(session, clip(at + offset)), session.beat + 1)
    return Timeline(client.mpb, origin, time_at(Timeline(client.mpb, 0, ghost), origin))


def offset_of(points):
    ordered = sorted(points)
    return clip(near(ordered[(len(points) - 1) // 2] + ordered[len(points) // 2], 4))


class Ids:
    """PCG with 64 bits of state, XSH RR."""

    def __init__(self, seed, stream=0):
        self.state, self.increment = 0, 2 * stream + 1
        self.advance()
        self.state = (self.state + seed) % 2**64
        self.advance()

    def advance(self):
        self.state = (self.state * 6364136223846793005 + self.increment) % 2**64

    def word(self):
        old = self.state
        self.advance()
        mixed, turn = (((old >> 18) ^ old) >> 27) % 2**32, old >> 59
        return (mixed >> turn | mixed << (32 - turn)) % 2**32

    def draw(self):
        return bytes(33 + self.word() % 94 for _ in range(8))


# Datagrams.


def signed(value):
    return int.from_bytes(value, "big", signed=True)


def eight(n):
    return n.to_bytes(8, "big", signed=True)


def entry(key, value):
    return key + len(value).to_bytes(4, "big") + value


def values_of(payload, known):
    """The last value of each known key; None where an entry is cut or has a wrong size."""
    values = {}
    while payload:
        key, size, payload = payload[:4], payload[4:8], payload[8:]
        if len(size) < 4 or int.from_bytes(size, "big") > len(payload):
            return None
        value, payload = payload[: int.from_bytes(size, "big")], payload[int.from_bytes(size, "big") :]
        if key in known:
            if len(value) != known[key]:
                return None
            values[key] = value
    return values


def read_state(payload):
    values = values_of(payload, {b"tmln": 24, b"sess": 8, b"stst": 17, b"mep4": 6})
    if values is None or b"tmln" not in values or b"sess" not in values:
        return None
    line, start = values[b"tmln"], values.get(b"stst", bytes(17))
    timeline = Timeline(signed(line[:8]), signed(line[8:16]), signed(line[16:]))
    start = Start(int(start[0] != 0), signed(start[1:9]), signed(start[9:]))
    if not 1 <= timeline.mpb <= 2**31 or any(abs(n) > LIMIT for n in (*timeline[1:], *start[1:])):
        return None
    return timeline, values[b"sess"], start, values.get(b"mep4")


def read_pong(payload):
    values = values_of(payload, {b"sess": 8, b"__gt": 8, b"__ht": 8, b"_pgt": 8})
    if values is None or b"sess" not in values or b"__gt" not in values:
        return None
    ghost, host, previous = (signed(values.get(key, bytes(8))) for key in (b"__gt", b"__ht", b"_pgt"))
    if any(abs(n) > LIMIT for n in (ghost, host, previous)):
        return None
    return values[b"sess"], ghost, host, previous


def write_state(kind, group, sender, session, timeline, start, endpoint):
    line = eight(timeline.mpb) + eight(timeline.beat) + eight(timeline.time)
    begun = bytes([start.playing]) + eight(start.at) + eight(start.stamp)
    payload = entry(b"tmln", line) + entry(b"sess", session) + entry(b"stst", begun) + entry(b"mep4", endpoint)
    return b"_asdp_v\x01" + bytes([kind, 5]) + group.to_bytes(2, "big") + sender + payload


def write_bye(group, sender):
    return b"_asdp_v\x01\x03\0" + group.to_bytes(2, "big") + sender


def write_ping(host, previous=None):
    return b"_link_v\x01\x01" + entry(b"__ht", eight(host)) + (b"" if previous is None else entry(b"_pgt", eight(previous)))


# A node.


class Measurement:
    def __init__(self, session, target, now):
        self.session, self.target, self.deadline = session, target, now + 50_000
        self.points, self.silences = [], 0


class Node:
    def __init__(self, config):
        self.config, self.ids, self.reached = config, Ids(config.seed), Counter()
        self.moment, self.id, self.session, self.offset = config.now, config.id, config.id, -config.now
        self.timeline, self.start = Timeline(config.mpb, 0, 0), STOPPED
        self.client, self.client_start = Timeline(config.mpb, 0, config.now), STOPPED
        self.rows, self.others, self.waiting, self.measurement, self.remeasuring = {}, {}, [], None, None
        self.broadcast, self.changed, self.peers, self.app, self.audio, self.quantum = None, False, 0, 0, 0, config.quantum
        self.sends, self.published = [], self.state()

    def state(self):
        return State(self.client, self.client_start, self.config.sync, self.peers, self.app, self.audio, self.session, self.quantum)

    def to_ghost(self, host):
        return clip(host + self.offset)

    def shared(self):
        return self.id, self.session, self.timeline, self.start

    def step(self, kind, now, *rest):
        """The datagrams sent, as (gate, endpoint, bytes), and the state, or None where none is published."""
        self.moment, self.sends, before = max(self.moment, now), [], self.shared()
        getattr(self, kind)(*rest)
        self.settle()
        self.changed = self.changed or self.shared() != before
        if kind == "tick":
            self.tell()
        state = self.state()
        if state == self.published:
            return self.sends, None
        if state._replace(session=self.published.session) == self.published:
            self.reached["another session alone shown"] += 1
        self.published = state
        return self.sends, state

    def send(self, gate, endpoint, datagram):
        self.sends.append((gate, endpoint, datagram))

    def send_message(self, name, gate, endpoint, datagram):
        """A message that carries the group; those of a group that isn't 0 are counted."""
        self.send(gate, endpoint, datagram)
        if self.config.group != 0:
            self.reached[f"{name} in another group than 0"] += 1

    def spread(self, name, datagram_of):
        for gate, setup in enumerate(self.config.gates):
            for endpoint in setup.peers:
                self.send_message(name, gate, endpoint, datagram_of(setup))

    def rx(self, gate, endpoint, datagram):
        if len(datagram) > 512 or len(datagram) < 9:
            return
        kind, payload = datagram[8], datagram[9:]
        if datagram[:8] == b"_link_v\x01" and kind == 1 and len(payload) <= 32:
            head = b"_link_v\x01\x02" + entry(b"sess", self.session) + entry(b"__gt", eight(self.to_ghost(self.moment)))
            self.send(gate, endpoint, head + payload)
            self.reached["ping answered"] += 1
        if datagram[:8] == b"_link_v\x01" and kind == 2:
            self.pong(gate, endpoint, read_pong(payload))
        if datagram[:8] == b"_asdp_v\x01" and len(datagram) >= 20:
            group = int.from_bytes(datagram[10:12], "big")
            self.discovery(gate, endpoint, kind, datagram[9], group, datagram[12:20], datagram[20:])

    def discovery(self, gate, endpoint, kind, ttl, group, sender, payload):
        state = read_state(payload) if kind in (1, 2) else None
        if sender == self.id or kind != 3 and state is None:
            return
        if group != self.config.group:
            self.pass_over(kind, group, (gate, sender))
        elif kind == 3:
            if self.rows.pop((gate, sender), None):
                self.reached["row ended by a bye"] += 1
        else:
            if kind == 1:
                local = self.config.gates[gate].local
                self.send_message("response", gate, endpoint, write_state(2, self.config.group, *self.shared(), local))
            self.take(gate, sender, ttl, *state)

    def pass_over(self, kind, group, key):
        """Nothing comes of a message of another group. Which ones there were is counted."""
        if kind != 3:
            self.reached["state of another group passed over"] += 1
        elif key in self.rows:
            self.reached["bye of another group passed over"] += 1
        if group == 0:
            self.reached["group 0 passed over"] += 1

    def take(self, gate, sender, ttl, timeline, session, start, endpoint):
        if (gate, sender) not in self.rows and sum(key[0] == gate for key in self.rows) == 128:
            self.reached["gate full"] += 1
            return
        self.rows[gate, sender] = Row(session, endpoint, self.moment + (ttl + 1) * 1_000_000)
        timeline = tidy(timeline)
        if session == self.session:
            if timeline.beat > self.timeline.beat:
                self.timeline = timeline
                self.renew()
                self.reached["timeline taken"] += 1
            if start.stamp > self.start.stamp:
                self.start = start
                self.reached["start taken"] += 1
                if self.config.sync:
                    self.client_start = self.start_to_client()
        elif session in self.others:
            if timeline.beat > self.others[session].beat:
                self.others[session] = timeline
        elif len(self.others) == 64:
            self.reached["sessions full"] += 1
        else:
            self.others[session] = timeline
            self.waiting.append(session)

    def start_to_client(self):
        time = clip(time_at(self.timeline, self.start.at) - self.offset)
        return Start(self.start.playing, time, clip(self.start.stamp - self.offset))

    def renew(self):
        self.client = client_from_session(self.client, self.timeline, self.moment, self.offset)

    def pong(self, gate, endpoint, pong):
        running = self.measurement
        if running is None or pong is None or (gate, endpoint) != running.target:
            self.reached["pong passed over"] += 1
            return
        session, ghost, host, previous = pong
        if session != running.session:
            self.reached["failed by another session"] += 1
            self.fail()
        elif ghost != 0 and host != 0:
            running.points.append(2 * ghost - (self.moment + host))
            if previous != 0:
                running.points.append(ghost + previous - 2 * host)
            if len(running.points) > 100:
                self.measurement = None
                self.measured(running.session, offset_of(running.points))
            else:
                running.deadline = self.moment + 50_000
                self.send(*running.target, write_ping(self.moment, ghost))

    def measured(self, session, offset):
        lead = clip(self.moment + offset) - self.to_ghost(self.moment)
        if session == self.session:
            self.reached["measured anew"] += 1
            self.offset = offset
        elif lead > 500_000 or -500_000 < lead < 500_000 and session < self.session:
            self.reached["joined"] += 1
            self.others[self.session] = self.timeline
            self.session, self.timeline, self.offset, self.start = session, self.others.pop(session), offset, STOPPED
        else:
            self.reached["stayed"] += 1
            return
        self.renew()
        self.remeasuring = self.moment + 30_000_000

    def fail(self):
        session, self.measurement = self.measurement.session, None
        self.give_up(session)

    def give_up(self, session):
        if session == self.session:
            self.remeasuring = self.moment + 30_000_000
            self.reached["current one not measured"] += 1
        else:
            del self.others[session]
            self.reached["other one not measured"] += 1

    def commit(self, at, timeline, start, quantum):
        if timeline is not None:
            session = session_from_client(self.timeline, timeline, at, self.offset)
            if session is None:
                self.reached["origin spent"] += 1
                self.reached["quantum lost to a spent origin"] += quantum is not None
                return
            self.reached["timeline kept" if session == self.timeline else "timeline committed"] += 1
            self.client, self.timeline = timeline, session
            self.renew()
        if start is not None and start.stamp <= self.client_start.stamp:
            self.reached["quantum beside a start that is too old"] += quantum is not None
        elif start is not None:
            self.client_start = start
            stamp = self.to_ghost(start.stamp)
            if self.config.sync and stamp > self.start.stamp:
                self.start = Start(start.playing, beat_at(self.timeline, self.to_ghost(start.at)), stamp)
                self.reached["start committed"] += 1
        if quantum is not None:
            self.reached["quantum kept" if quantum == self.quantum else "quantum committed"] += 1
            self.quantum = quantum

    def app_commit(self, *commit):
        self.app += 1
        self.commit(*commit)

    def audio_commit(self, number, *commit):
        self.audio = number
        self.commit(*commit)

    def tick(self):
        self.rows = {key: row for key, row in self.rows.items() if row.limit > self.moment}
        held = {row.session for row in self.rows.values()} | set(self.waiting)
        if self.measurement:
            held.add(self.measurement.session)
        self.reached["other one forgotten"] += sum(session not in held for session in self.others)
        self.others = {session: timeline for session, timeline in self.others.items() if session in held}
        self.tick_measurement()
        if self.remeasuring is not None and self.remeasuring <= self.moment:
            self.remeasuring = None
            if self.session not in self.waiting:
                self.waiting.append(self.session)
        while self.measurement is None and self.waiting:
            session = self.waiting.pop(0)
            target = self.target(session)
            if target is None:
                self.give_up(session)
            else:
                self.measurement = Measurement(session, target, self.moment)
                self.send(*target, write_ping(self.moment))

    def tick_measurement(self):
        running = self.measurement
        if running is None or self.moment < running.deadline:
            return
        running.silences += 1
        if running.silences == 6:
            self.reached["failed by silence"] += 1
            self.fail()
        else:
            running.deadline = self.moment + 50_000
            self.send(*running.target, write_ping(self.moment))

    def target(self, session):
        """The founder's row at the least gate, or else the row of least id and gate."""
        told = [key for key, row in self.rows.items() if row.session == session and row.endpoint is not None]
        rows = [(sender != session, sender, gate) for gate, sender in told]
        if not rows:
            return None
        _, sender, gate = min(rows)
        return gate, self.rows[gate, sender].endpoint

    def end(self):
        self.spread("bye", lambda _: write_bye(self.config.group, self.id))

    def settle(self):
        peers = len({sender for (_, sender), row in self.rows.items() if row.session == self.session})
        if self.peers > 0 and peers == 0:
            self.reached["founded"] += 1
            self.timeline = Timeline(self.timeline.mpb, beat_at(self.timeline, self.to_ghost(self.moment)), 0)
            self.id = self.session = self.ids.draw()
            self.offset, self.start = -self.moment, STOPPED
            self.rows, self.others, self.waiting, self.measurement, self.remeasuring = {}, {}, [], None, None
            self.renew()
        self.peers = peers

    def tell(self):
        if self.broadcast is None or self.moment >= self.broadcast + (50_000 if self.changed else 250_000):
            self.reached["told early" if self.broadcast is not None and self.moment < self.broadcast + 250_000 else "told"] += 1
            self.spread("alive", lambda setup: write_state(1, self.config.group, *self.shared(), setup.local))
            self.broadcast, self.changed = self.moment, False


# Scripts.


class Fault(Exception):
    """The first line at fault."""


def number(word, least, greatest):
    if not re.fullmatch("0|-?[1-9][0-9]*", word) or not least <= int(word) <= greatest:
        raise ValueError
    return int(word)


def number_behind(kind, words, greatest):
    """What a line of two words says, of which the first is given and the second a number from 0."""
    word, said = words
    if word != kind:
        raise ValueError
    return number(said, 0, greatest)


def moment(word):
    return number(word, 0, 2**55)


def limited(word):
    return number(word, -LIMIT, LIMIT)


def endpoint_of(word):
    address, port = word.split(":")
    parts = address.split(".")
    if len(parts) != 4:
        raise ValueError
    return bytes(number(part, 0, 255) for part in parts) + number(port, 0, 65535).to_bytes(2, "big")


def endpoint_text(endpoint):
    return ".".join(map(str, endpoint[:4])) + f":{int.from_bytes(endpoint[4:], 'big')}"


def commit_of(version, words):
    """Version 1 has no quantum in a commit."""
    at, rest, timeline, start, quantum = limited(words[0]), list(words[1:]), None, None, None
    if rest[:1] == ["t"]:
        mpb, beat, time = rest[1:4]
        timeline, rest = Timeline(number(mpb, 60_060, 3_000_000), limited(beat), limited(time)), rest[4:]
    if rest[:1] == ["s"]:
        playing, time, stamp = rest[1:4]
        start, rest = Start(number(playing, 0, 1), limited(time), limited(stamp)), rest[4:]
    if rest and version == 2:
        quantum, rest = number_behind("q", rest, 2**40), []
    if rest:
        raise ValueError
    return at, timeline, start, quantum


def hex_of(word):
    if not re.fullmatch("-|([0-9A-Fa-f]{2}){1,513}", word):
        raise ValueError
    return b"" if word == "-" else bytes.fromhex(word)


class Script:
    """Takes the lines in order; a ValueError says that with this one they begin no script."""

    def __init__(self):
        self.version, self.setup, self.group, self.quantum = None, None, None, None
        self.gates, self.events, self.number = [], [], 0

    def config(self):
        return Config(*self.setup, self.group, self.quantum, self.gates)

    def line(self, line):
        words = line.split(" ")
        if self.version is None:
            self.begin(line)
        elif self.setup is None:
            self.node(words)
        elif self.group is None:
            self.group = number_behind("group", words, 65_535)
        elif self.quantum is None:
            self.quantum = number_behind("quantum", words, 2**40)
        elif words[0] == "gate" and not self.events and len(self.gates) < 4:
            (_, local) = words
            self.gates.append(Gate(endpoint_of(local), []))
        elif not self.gates:
            raise ValueError
        elif words[0] == "to" and not self.events and len(self.gates[-1].peers) < 32:
            (_, peer) = words
            self.gates[-1].peers.append(endpoint_of(peer))
        else:
            self.events.append(self.event(*words))

    def begin(self, line):
        if line not in ("replay 1", "replay 2"):
            raise ValueError
        self.version = int(line[-1])
        if self.version == 1:
            self.group, self.quantum = 0, 4_000_000

    def node(self, words):
        word, name, seed, mpb, sync, now = words
        if word != "node" or not re.fullmatch("[!-~]{8}", name):
            raise ValueError
        self.setup = name.encode(), number(seed, 0, 2**64 - 1), number(mpb, 60_060, 3_000_000), number(sync, 0, 1), moment(now)

    def event(self, word, *words):
        if word in ("tick", "end"):
            (now,) = words
            return word, moment(now)
        if word == "rx":
            now, gate, endpoint, datagram = words
            return "rx", moment(now), number(gate, 0, len(self.gates) - 1), endpoint_of(endpoint), hex_of(datagram)
        if word == "app" and len(words) > 1:
            return "app_commit", moment(words[0]), *commit_of(self.version, words[1:])
        if word == "audio" and len(words) > 2:
            now, self.number = moment(words[0]), number(words[1], self.number + 1, LIMIT - 1)
            return "audio_commit", now, self.number, *commit_of(self.version, words[2:])
        raise ValueError


def read_script(text):
    """The version, the config and the events of a text of bytes. A Fault has the first line at fault."""
    lines = text.split(b"\n")
    if lines[-1] == b"":
        lines.pop()
    script = Script()
    for k, line in enumerate(lines, 1):
        if line and not line.startswith(b"#"):
            try:
                script.line(line.decode("latin-1"))
            except ValueError:
                raise Fault(k) from None
    if not script.gates:
        raise Fault(len(lines) + 1)
    return script.version, script.config(), script.events


def state_line(version, count, node, state):
    """Version 1 has neither the session nor the quantum."""
    words = [*state.timeline, *state.start, state.sync, state.peers, node.moment, state.app, state.audio]
    if version == 2:
        words += [state.session.hex(), state.quantum]
    return f"state {count} " + " ".join(map(str, words)) + "\n"


def output_of(version, config, events, reached):
    """What `replay` writes; what was reached is counted."""
    node = Node(config)
    lines, states, sends = [state_line(version, 0, node, node.published)], 1, 0
    for event in events:
        sent, state = node.step(*event)
        for gate, endpoint, datagram in sent:
            lines.append(f"tx {event[1]} {gate} {endpoint_text(endpoint)} {datagram.hex()}\n")
        sends += len(sent)
        if state:
            lines.append(state_line(version, states, node, state))
            states += 1
    reached.update(node.reached)
    return "".join(lines) + f"done {len(events)} {states} {sends}\n"


def main():
    try:
        sys.stdout.write(output_of(*read_script(sys.stdin.buffer.read()), Counter()))
    except Fault as fault:
        print(f"line {fault} of the script is at fault", file=sys.stderr)
        return 8
    return 0


if __name__ == "__main__":
    if len(sys.argv) != 1:
        print(__doc__, file=sys.stderr)
        sys.exit(2)
    sys.exit(main())
