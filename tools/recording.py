"""Reading a recording, and what `replay` and `decode` write for it.

Which event a line of the output follows from, the output of a recording doesn't tell where several events have one moment. So it is read of
the recording with marks: behind each event a ping with nothing in it, of the same moment and from an endpoint that the recording doesn't
have. The node answers it with a pong to there and does nothing else (docs/FORMULAS.md, *Arrival*), so that the pong ends what the event
brought. It tells the session that the node is in then.
"""
import re
from collections import namedtuple

from shared import fault, lines_of, quoted

# A pong that is sent ends in the ping's payload, whatever that was: what the node says stands in the digits before.
PING, PONG, PONG_DIGITS = "5f6c696e6b5f760101", "5f6c696e6b5f760102", 82

NUMBER, ENDPOINT = "(0|-?[1-9][0-9]{0,19})", r"([0-9.]{7,15}:[0-9]{1,5})"
NODE = re.compile(f"node ([!-~]{{8}}) {NUMBER} {NUMBER} ([01]) {NUMBER}")
VERSIONS = "`replay 1` or `replay 2`"
EVENT = "an event: `rx`, `tick`, `app`, `audio` or `end`"
EVENTS = {
    "rx": (re.compile(f"rx {NUMBER} ([0-3]) {ENDPOINT} (-|[0-9A-Fa-f]+)"), "`rx`, a moment, a gate, an endpoint and a datagram in hex"),
    "tick": (re.compile(f"tick {NUMBER}"), "`tick` and a moment"),
    "app": (re.compile(f"app {NUMBER} .+"), "`app`, a moment and a commit"),
    "audio": (re.compile(f"audio {NUMBER} {NUMBER} .+"), "`audio`, a moment, a number and a commit"),
    "end": (re.compile(f"end {NUMBER}"), "`end` and a moment"),
}
ID = "[0-9a-f]{16}"
# In version 2 a state has its session and its quantum too.
STATE = "state" + f" {NUMBER}" * 12
STATES = {1: re.compile(STATE), 2: re.compile(f"{STATE} ({ID}) {NUMBER}")}
STATE_FORMS = {1: "a state without a session, as version 1 has it", 2: "a state with a session and a quantum, as version 2 has it"}
SENT = re.compile(f"tx {NUMBER} ([0-3]) {ENDPOINT} ([0-9a-f]+)")
DONE = re.compile("done" + f" {NUMBER}" * 3)
DECODED = re.compile(
    f"(alive|response) {ID} [0-9]+ [0-9]+( -?[0-9]+){{3}} {ID} [01]( -?[0-9]+){{2}} [0-9.:-]+|bye {ID} [0-9]+ [0-9]+|ping [0-9a-f-]+"
    f"|pong {ID}( -?[0-9]+){{3}}|(other|fault) .+"
)

# The moment is the node's, the greatest so far.
Event = namedtuple("Event", "line kind now moment gate endpoint digits")
# Of gates there is the endpoint of each, of places the gate by its number and the endpoint.
Script = namedtuple("Script", "version name opened mpb sync group quantum gates places events")
# The session is in hex, or None in version 1.
State = namedtuple("State", "line number mpb beat time playing start stamp sync peers moment apps audio session quantum")
Sent = namedtuple("Sent", "line now gate endpoint digits")
# The opening state; what follows from each event, each a State or a Sent; the pong to each mark; and how many states there are, and
# datagrams but these pongs.
Output = namedtuple("Output", "opening behind pongs states sent")


def read_script(text):
    lines = lines_of(text, "")
    said = [(count, line) for count, line in enumerate(lines, 1) if line and not line.startswith("#")]
    said.append((len(lines) + 1, None))
    version = read_version(*said[0])
    number, second = said[1]
    node = NODE.fullmatch(second or "")
    if not node:
        raise fault("", number, "`node` and a node's id, seed, tempo, sync and opening moment", quoted(second))
    group, quantum, head = 0, 4_000_000, 2
    if version == 2:
        group, quantum, head = read_number(*said[2], "group", 65_535), read_number(*said[3], "quantum", 2**40), 4
    opened, (gates, places) = int(node[5]), read_gates(said[head:])
    events = read_events(said[head + len(gates) + len(places) : -1], opened, len(gates))
    return Script(version, node[1], opened, int(node[3]), int(node[4]), group, quantum, gates, places, events)


def read_version(number, first):
    if first == "link 1":
        raise fault("", number, VERSIONS, "`link 1`, a live script; what `live --record` writes of its run can be told")
    if first not in ("replay 1", "replay 2"):
        raise fault("", number, VERSIONS, quoted(first))
    return int(first[-1])


def read_number(number, line, word, most):
    """What stands behind the word of a line of the head."""
    found = re.fullmatch(f"{word} (0|[1-9][0-9]{{0,12}})", line or "")
    if not found or int(found[1]) > most:
        raise fault("", number, f"`{word}` and a number from 0 to {most}", quoted(line))
    return int(found[1])


def read_gates(said):
    """The gates, and where each of their destinations is."""
    gates, places = [], []
    for number, line in said:
        words = (line or "").split(" ")
        if words[0] == "gate" and re.fullmatch(ENDPOINT, " ".join(words[1:])):
            gates.append(words[1])
        elif words[0] == "to" and gates and re.fullmatch(ENDPOINT, " ".join(words[1:])):
            places.append((len(gates) - 1, words[1]))
        else:
            break
    if not gates:
        raise fault("", number, "`gate` and an endpoint", quoted(line))
    return gates, places


def read_events(said, opened, gates):
    events, moment = [], opened
    for number, line in said:
        kind = line.split(" ", 1)[0]
        form, expected = EVENTS.get(kind, (None, EVENT))
        found = form and form.fullmatch(line)
        if not found:
            raise fault("", number, expected, quoted(line))
        now, gate, endpoint, digits = int(found[1]), None, None, None
        moment = max(moment, now)
        if kind == "rx":
            gate, endpoint, digits = int(found[2]), found[3], "" if found[4] == "-" else found[4].lower()
            if gate >= gates:
                raise fault("", number, f"a gate below {gates}", quoted(found[2]))
            if len(digits) % 2 or len(digits) > 1026:
                raise fault("", number, "two hex digits for each byte, of 513 bytes at most", f"{len(digits)} digits")
        events.append(Event(number, kind, now, moment, gate, endpoint, digits))
    return events


def mark_of(script):
    """An endpoint that nobody in the recording has, so that only the pongs to its marks go there."""
    taken = {event.endpoint for event in script.events} | {endpoint for _, endpoint in script.places}
    return next(endpoint for endpoint in (f"127.0.0.1:{port}" for port in range(1, 65_536)) if endpoint not in taken)


def marked(script, text):
    """The recording with its marks."""
    lines, mark, done = text.split(b"\n"), mark_of(script), 0
    parts = []
    for event in script.events:
        parts += [*lines[done : event.line], f"rx {event.now} 0 {mark} {PING}".encode()]
        done = event.line
    return b"\n".join([*parts, *lines[done:]])


def read_output(text, where, script):
    """What `replay` writes of the recording with its marks."""
    mark, events, lines = mark_of(script), script.events, lines_of(text, where)
    opening, behind, pongs, states, sent, done = None, [[] for _ in events], [], 1, 0, False
    for number, line in enumerate(lines, 1):
        if done:
            raise fault(where, number, "nothing behind the line `done`", quoted(line))
        at, one = len(pongs), read_line(number, line, where, script)
        if number == 1:
            opening = check_opening(where, line, one, script)
        elif at == len(events):
            wanted, done = f"done {2 * at} {states} {sent + at}", True
            if line != wanted:
                raise fault(where, number, f"`{wanted}` behind these lines", quoted(line))
        elif one is None or isinstance(one, Sent) and one.endpoint == mark:
            if one is None or (one.now, one.gate, one.digits[: len(PONG)]) != (events[at].now, 0, PONG):
                raise fault(where, number, f"the pong to the mark behind line {events[at].line} of the recording", quoted(line))
            pongs.append(one)
        elif isinstance(one, State):
            if one.number != states:
                raise fault(where, number, f"state {states}", f"state {one.number}")
            behind[at].append(one)
            states += 1
        else:
            behind[at].append(one)
            sent += 1
    if not done:
        raise fault(where, len(lines) + 1, "`done` and three counts" if opening else "the opening state", "the end of the text")
    return Output(opening, behind, pongs, states, sent)


def read_line(number, line, where, script):
    """A State or a Sent; None for a line `done`."""
    if found := STATES[script.version].fullmatch(line):
        return read_state(number, found.groups(), script)
    if (found := SENT.fullmatch(line)) and len(found[4]) % 2 == 0:
        return Sent(number, int(found[1]), int(found[2]), found[3], found[4])
    if DONE.fullmatch(line):
        return None
    if STATES[3 - script.version].fullmatch(line):
        raise fault(where, number, STATE_FORMS[script.version], quoted(line))
    raise fault(where, number, "a line that `replay` writes: `state`, `tx` or `done`", quoted(line))


def read_state(number, words, script):
    session, quantum = (words[12], int(words[13])) if script.version == 2 else (None, script.quantum)
    return State(number, *map(int, words[:12]), session, quantum)


def check_opening(where, line, one, script):
    """The opening state, where that is what the line has."""
    session = script.name.encode().hex() if script.version == 2 else None
    wanted = (0, script.mpb, script.sync, script.opened, 0, 0, 0, session, script.quantum)
    found = isinstance(one, State) and (one.number, one.mpb, one.sync, one.moment, one.peers, one.apps, one.audio, one.session, one.quantum)
    if found != wanted:
        raise fault(where, 1, "the opening state of this recording's node", quoted(line))
    return one


def said_in(digits):
    """Of a datagram that was sent, the digits of what the node says."""
    return digits[:PONG_DIGITS] if digits.startswith(PONG) else digits


def datagrams(script, output):
    """Those that came, those that were sent, and where states have no session the pongs to marks that tell it; each once."""
    came = (event.digits for event in script.events if event.kind == "rx")
    sent = (one.digits for lines in output.behind for one in lines if isinstance(one, Sent))
    pongs = (output.pongs[k].digits for k in range(len(script.events)) if script.version == 1 and shows(output.behind[k]))
    return list(dict.fromkeys([*came, *map(said_in, sent), *map(said_in, pongs)]))


def shows(lines):
    return any(isinstance(one, State) for one in lines)


def read_decoded(text, where, digits):
    """The words that `decode` tells, by the digits of the datagram."""
    lines = lines_of(text, where)
    for number, line in enumerate(lines, 1):
        if not DECODED.fullmatch(line):
            raise fault(where, number, "what `decode` tells of a datagram", quoted(line))
    if len(lines) != len(digits):
        expected = f"a line for each of the {len(digits)} datagrams of this recording"
        raise fault(where, min(len(lines), len(digits)) + 1, expected, f"{len(lines)}")
    return {one: line.split(" ") for one, line in zip(digits, lines)}
