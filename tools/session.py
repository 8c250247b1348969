#!/usr/bin/env python3
"""Tells a recorded session as a person would: who came and went, which session was joined or founded, and how tempo, beat, bars and start
changed.

A recording is a replay script (docs/FORMATS.md), by hand or of `jorazhil live --record`. What its node sent and showed isn't worked out
here: the states and datagrams are those that `jorazhil replay` writes for it, and what a datagram says is what `jorazhil decode` tells,
which is asked once for all that came and all that were sent (and again where they are more than it takes at once). From the script are
taken the node's id, its group, the moment of its opening, and its events. Times are since the opening, m:ss.mmm in minutes and seconds;
those of beats have microseconds. In brackets behind a change stands whose it was.

A line of the output is told of the event that it follows from. So that the output tells which one that is, `replay` is given the recording
with a mark behind each event: an empty ping of the same moment, from an endpoint that the recording doesn't have. The node answers it with
a pong and does nothing else, so the pong ends what the event brought. A peer that is heard no more is told by the number of peers alone.
Of a node of several gates it is told which one a peer's datagram came to.
Which session the node is in, and how long its bars are, each state of a script of version 2 has. One of version 1 has bars of four beats,
and the pong to the mark tells the session.
"""
import sys
from collections import namedtuple

sys.dont_write_bytecode = True
from recording import State, datagrams, marked, read_decoded, read_output, read_script, said_in  # noqa: E402
from shared import Drawing, Lane, Words, clock, decimals, end_of, read_file, round_step, run  # noqa: E402
from shared import LEFT_X, RIGHT_X, SECOND, write_picture  # noqa: E402

OPTIONS = """\
Without the program: `--output` has what `replay` writes for the recording with its marks, which `--marked` writes, and `--decoded` what
`decode` tells of those of `--datagrams`:

  jorazhil session --marked run.script | (elsewhere) jorazhil replay > run.output
  jorazhil session --datagrams --output run.output run.script | (elsewhere) jorazhil decode > run.decoded
  jorazhil session --output run.output --decoded run.decoded --svg run.svg run.script

The picture has the tempo and the number of peers as stepped lines, the sessions, when it plays, when the beat moves, a mark for each change
by whose it was; where bars change, their length as a stepped line; and, where pongs were sent, the ghost time that they tell, less the time
since the opening. Where many things stand at one place, one of each kind is drawn.

A program that isn't built yet is proved first, which takes its time; with JORAZHIL_TRY=1 in the environment it is run unproved
(jorazhil --help).

Exit status: 0 where all was told, or where nobody reads on; 2 with a sentence on standard error for anything else.
"""

# Running the program.

# What `decode` takes at once, in bytes.
DECODED_AT_ONCE = 16_777_216


def run_decode(program, digits):
    """One run, but for a recording of more datagrams than `decode` takes at once."""
    told, part, size = [], [], 0
    for one in digits:
        if size + len(one) + 1 > DECODED_AT_ONCE:
            told.append(run(program, "decode", "".join(part).encode()))
            part, size = [], 0
        part.append(one + "\n")
        size += len(one) + 1
    if part:
        told.append(run(program, "decode", "".join(part).encode()))
    return b"".join(told)


def run_replay(program, script, text):
    """Of the recording with its marks. First of the recording alone, so that a fault is told by its own lines."""
    run(program, "replay", text)
    return run(program, "replay", marked(script, text))


def is_heard(words, group):
    """Whether a datagram, as it is told, can be heard in a group. Pings and pongs have none, and are heard in all."""
    return words[0] not in ("alive", "response", "bye") or int(words[3]) == group


def is_left(before, state):
    """All others are gone from the session, so the node has founded one."""
    return before.peers > 0 and state.peers == 0


# Words.


def tempo_words(mpb):
    hundredths = (6_000_000_000 + mpb // 2) // mpb
    return f"{hundredths // 100}.{hundredths % 100:02d} beats per minute, {mpb} microseconds per beat"


def beat_words(beat, digits=6):
    """Microbeats as beats."""
    size = (abs(beat) + 10 ** (6 - digits) // 2) // 10 ** (6 - digits)
    return f"{'-' if beat < 0 and size else ''}{size // 10**digits}.{size % 10**digits:0{digits}d}"


def beat_at(state, moment):
    """The nearest whole microbeat, halves away from the origin."""
    passed = (moment - state.time) * 1_000_000
    size = (2 * abs(passed) + state.mpb) // (2 * state.mpb)
    return state.beat + (size if passed >= 0 else -size)


def id_words(digits):
    """An id as its eight characters where all are visible, else in hex."""
    signs = bytes.fromhex(digits)
    return signs.decode("ascii") if all(33 <= sign <= 126 for sign in signs) else f"0x{digits}"


def bar_words(quantum):
    """How long a bar is."""
    return "none" if quantum == 0 else f"{decimals(quantum, 1_000_000)} beat" + ("" if quantum == 1_000_000 else "s")


def peers_words(count):
    return "no peer" if count == 0 else f"{count} peer" + ("s" if count > 1 else "")


# The story.

# Whose a change is, in the order of the legend.
APPLICATION, AUDIO, PEER, SESSION, LEFT = "application", "audio thread", "peer", "measured session", "nobody else is left"
# What follows from one event is told in this order.
OPENING, PEERS, JOINING, TEMPO, BEAT, BARS, START, ENDING = range(8)

Fact = namedtuple("Fact", "event order moment text")
# A change for the picture: when, to what, whose it is, and how it is told.
Change = namedtuple("Change", "moment value whose text")


class Story:
    """What there is to tell, and what there is to draw."""

    def __init__(self, script, output, told):
        self.script, self.told, self.facts = script, told, []
        self.last = script.events[-1].moment if script.events else script.opened
        self.tempo, self.peers, self.beats, self.bars, self.starts, self.offsets = [], [], [], [], [], []
        self.states = [output.opening._replace(session=script.name.encode().hex())]
        self.sessions = [Change(script.opened, script.name, "", f"{script.name} opens in a session of its own")]
        # Which peers are told already.
        self.heard = set()
        self.opening(output.opening)
        for event, lines in enumerate(output.behind):
            self.follow(event, lines, output.pongs[event])
        self.ending(output)
        self.facts.sort(key=lambda fact: fact[:2])

    def tell(self, event, order, text):
        moment = self.script.opened if event < 0 else self.last if event == len(self.script.events) else self.script.events[event].moment
        self.facts.append(Fact(event, order, moment, text))
        return moment

    def opening(self, state):
        shared = "starts are shared" if state.sync else "starts aren't shared"
        beat = f"beat {beat_words(state.beat)} is at {self.time(state.time, 6)}"
        opens = f"{self.script.name} opens alone" + (f" in the group {self.script.group}" if self.script.group else "")
        if len(self.script.gates) > 1:
            opens += f" at the gates {', '.join(self.script.gates[:-1])} and {self.script.gates[-1]}"
        self.tell(-1, OPENING, f"{opens}: {tempo_words(state.mpb)}, {beat}, {self.playing_words(state)}, {shared}")
        self.tempo.append(Change(state.moment, state.mpb, "", ""))
        self.peers.append(Change(state.moment, state.peers, "", ""))
        self.bars.append(Change(state.moment, state.quantum, "", ""))

    def ending(self, output):
        counts = (len(self.script.events), "event"), (output.states, "state"), (output.sent, "datagram")
        events, states, sent = (f"{count} {word}{'' if count == 1 else 's'}" for count, word in counts)
        self.tell(len(self.script.events), ENDING, f"the recording ends: {events}, {states} shown, {sent} sent")

    def follow(self, event, lines, pong):
        """Takes what follows from an event, and the event."""
        for line in lines:
            if isinstance(line, State):
                self.show(event, line if line.session else line._replace(session=self.told[said_in(pong.digits)][1]))
            else:
                self.send(event, line)
        kind, words = self.script.events[event].kind, self.words(event)
        if words[0] == "bye" and is_heard(words, self.script.group):
            self.heard.discard(words[1])
        if kind == "end":
            places = [endpoint for _, endpoint in self.script.places]
            listed = ", ".join(places) if len(places) < 4 else f"{len(places)} places"
            self.tell(event, ENDING, f"the node says goodbye to {listed}" if places else "the node ends")

    def words(self, event):
        """What the datagram of an event says; of another event its kind."""
        came = self.script.events[event]
        return [came.kind] if came.digits is None else self.told[came.digits]

    def time(self, host, digits=3):
        return clock(host - self.script.opened, digits)

    def peer(self, event):
        """Where there are several gates, with the one that it came to."""
        came = self.script.events[event]
        gate = f" on the gate {self.script.gates[came.gate]}" if len(self.script.gates) > 1 else ""
        return f"{id_words(self.told[came.digits][1])} at {came.endpoint}{gate}"

    # A datagram that is sent.

    def send(self, event, sent):
        words = self.told[said_in(sent.digits)]
        if words[0] == "pong":
            moment = self.script.events[event].moment
            self.offsets.append((moment, int(words[2]) - moment + self.script.opened))
        elif words[0] == "response":
            self.answer(event)

    def answer(self, event):
        """An alive that is answered was heard."""
        words = self.words(event)
        if words[1] not in self.heard:
            self.heard.add(words[1])
            self.tell(event, PEERS, f"{self.peer(event)} is heard, in the session of {id_words(words[7])}")

    # A state that is shown.

    def show(self, event, state):
        before = self.states[-1]
        self.states.append(state)
        left = is_left(before, state)
        whose, words = self.whose(event, left)
        if state.peers != before.peers:
            text = self.peers_told(event, before.peers, state.peers)
            self.peers.append(Change(self.tell(event, PEERS, text), state.peers, whose, text))
        if state.session != before.session:
            self.begin(event, state.session, left)
        if state.mpb != before.mpb:
            text = f"the tempo is now {tempo_words(state.mpb)}{words}"
            self.tempo.append(Change(self.tell(event, TEMPO, text), state.mpb, whose, text))
        if (state.beat, state.time) != (before.beat, before.time):
            text = self.beat_told(before, state) + words
            self.beats.append(Change(self.tell(event, BEAT, text), None, whose, text))
        if state.quantum != before.quantum:
            text = f"the bars change from {bar_words(before.quantum)} to {bar_words(state.quantum)}{words}"
            self.bars.append(Change(self.tell(event, BARS, text), state.quantum, whose, text))
        if (state.playing, state.start) != (before.playing, before.start):
            text = self.start_told(before, state) + words
            self.starts.append(Change(self.tell(event, START, text), state.playing, whose, text))

    def begin(self, event, session, is_founded):
        name = id_words(session)
        text = f"a session of the new id {name} is founded" if is_founded else f"the session of {name} is joined"
        self.sessions.append(Change(self.tell(event, JOINING, text), name, "", text))

    def whose(self, event, left):
        """Whose the changes of a state are. Who is left by all peers goes on in a session of its own, and a tick changes nothing else."""
        words = self.words(event)
        if words[0] == "app":
            return APPLICATION, f" ({APPLICATION})"
        if words[0] == "audio":
            return AUDIO, f" ({AUDIO})"
        if not left and words[0] in ("alive", "response"):
            return PEER, f" (peer {self.peer(event)})"
        if not left and words[0] == "pong":
            return SESSION, f" (the session of {id_words(words[1])} was measured)"
        return LEFT, f" ({LEFT})"

    def peers_told(self, event, before, peers):
        words = self.words(event)
        left = f"{peers_words(peers)} {'are' if peers > 1 else 'is'} left"
        if words[0] in ("alive", "response"):
            if peers > before:
                self.heard.add(words[1])
                if self.facts[-1][:2] == (event, PEERS):
                    # That it is heard is told with this.
                    self.facts.pop()
                return f"{self.peer(event)} comes: {peers_words(peers)}"
            return f"{self.peer(event)} goes over to the session of {id_words(words[7])}: {left}"
        if words[0] == "bye":
            return f"{self.peer(event)} says goodbye: {left}"
        if words[0] == "pong":
            now = f"{peers_words(peers)} {'are' if peers > 1 else 'is'} in the session now"
            return f"{now} (the session of {id_words(words[1])} was measured)"
        return f"{peers_words(before - peers)} {'are' if before - peers > 1 else 'is'} heard no more: {left}"

    def beat_told(self, before, state):
        """Where the origin is, and which beat it is at this moment, by the timeline of before and by the new one."""
        old, new = beat_at(before, state.moment), beat_at(state, state.moment)
        moved = f"the beat moves: beat {beat_words(state.beat)} is now at {self.time(state.time, 6)}"
        than = "as before" if abs(new - old) < 500 else f"not {beat_words(old, 3)}"
        return f"{moved}, and this moment is beat {beat_words(new, 3)}, {than}"

    def playing_words(self, state):
        return f"playing as of {self.time(state.start)}" if state.playing else "not playing"

    def start_told(self, before, state):
        since = self.time(state.start)
        if state.playing != before.playing:
            return f"starts to play as of {since}" if state.playing else f"stops as of {since}"
        return f"plays on, now as of {since}" if state.playing else f"stays stopped, now as of {since}"

    def lines(self):
        times = [self.time(fact.moment) for fact in self.facts]
        width = max(map(len, times))
        return [f"{time:>{width}}  {fact.text}\n" for time, fact in zip(times, self.facts)]


# The picture.

COLOURS = {APPLICATION: "#1f5fa8", AUDIO: "#c25700", PEER: "#2b7a2b", SESSION: "#7a3fa0", LEFT: "#7a3fa0"}


class Picture(Drawing):
    def __init__(self, story):
        super().__init__(story.script.opened, max(story.last - story.script.opened, 1000))
        self.story = story

    def steps(self, lane, changes, name, colour):
        """A stepped line. Of several steps at one place of the picture the first, the least, the greatest and the last are drawn."""
        path, columns = [], {}
        for change in changes[1:]:
            columns.setdefault(f"{self.x(change.moment):.1f}", []).append(change.value)
        path.append(f"M{LEFT_X} {lane.y(changes[0].value):.1f}")
        for x, values in columns.items():
            path.append(f"H{x}")
            values = values if len(values) < 5 else [values[0], min(values), max(values), values[-1]]
            path += [f"V{lane.y(value):.1f}" for value in values]
        path.append(f"H{RIGHT_X}")
        self.put(f'<path class="{name}" d="{" ".join(path)}" fill="none" stroke="{colour}" stroke-width="2"/>')

    def mark(self, x, y, whose, text):
        """Each kind has a form of its own, so that none hangs on its colour."""
        colour = COLOURS[whose]
        if whose == APPLICATION:
            shape = f'<circle class="mark" cx="{x:.1f}" cy="{y:.1f}" r="5" fill="{colour}"'
        elif whose == AUDIO:
            shape = f'<rect class="mark" x="{x - 4.5:.1f}" y="{y - 4.5:.1f}" width="9" height="9" fill="{colour}"'
        elif whose == PEER:
            shape = f'<path class="mark" d="M{x:.1f} {y - 6:.1f} l5.5 10 h-11 z" fill="{colour}"'
        elif whose == SESSION:
            shape = f'<path class="mark" d="M{x:.1f} {y - 6:.1f} l6 6 l-6 6 l-6 -6 z" fill="{colour}"'
        else:
            shape = f'<path class="mark" d="M{x:.1f} {y - 6:.1f} l6 6 l-6 6 l-6 -6 z" fill="#fff" stroke="{colour}" stroke-width="1.5"'
        self.titled(shape, text)

    def marks(self, changes, y_of):
        """A mark for each change, but one alone for all of a kind at one place."""
        for change in changes:
            x, y = self.x(change.moment), y_of(change)
            if self.is_free(x, y, change.whose):
                self.mark(x, y, change.whose, f"{clock(change.moment - self.opened)} {change.text}")

    def dot(self, kind, x, y, colour, text):
        if self.is_free(x, y, kind):
            self.titled(f'<circle class="{kind}" cx="{x:.1f}" cy="{y:.1f}" r="3" fill="{colour}"', text)

    def band(self, top, name):
        self.label(LEFT_X - 8, top + 16, name, ' text-anchor="end"')
        self.put(f'<rect x="{LEFT_X}" y="{top}" width="{RIGHT_X - LEFT_X}" height="22" fill="#f2f2f2"/>')

    def tempo(self, top):
        """The axis is in hundredths of a beat per minute."""
        story = self.story
        changes = [change._replace(value=(6_000_000_000 + change.value // 2) // change.value) for change in story.tempo]
        least, most = min(change.value for change in changes), max(change.value for change in changes)
        step = max(500, round_step(most - least, 4))
        lane = Lane(top, 120, least // step * step - (step if least % step == 0 else 0), (most // step + 1) * step)
        ticks = range(lane.least, lane.most + 1, step)
        self.axis(lane, "tempo, in beats per minute", [(value, decimals(value, 100)) for value in ticks])
        self.steps(lane, changes, "tempo", "#333")
        self.marks(changes[1:], lambda change: lane.y(change.value))
        # The tempo is written where it has the room, up to the next change.
        ends = [self.x(change.moment) for change in changes[1:]] + [RIGHT_X]
        for change, end in zip(changes, ends):
            text = decimals(change.value, 100)
            if end - self.x(change.moment) > 14 + 7 * len(text):
                self.label(self.x(change.moment) + 8, lane.y(change.value) - 7, text, ' font-size="11"')

    def peers(self, top):
        changes = self.story.peers
        most = max(1, *(change.value for change in changes))
        lane, step = Lane(top, 54, 0, most), round_step(most, 4)
        self.axis(lane, "peers in the session", [(value, str(value)) for value in range(0, most + 1, step)])
        self.steps(lane, changes, "peers", "#333")
        for change in changes[1:]:
            self.dot("peer", self.x(change.moment), lane.y(change.value), "#333", f"{clock(change.moment - self.opened)} {change.text}")

    def sessions(self, top):
        self.band(top, "session of")
        story = self.story
        ends = [change.moment for change in story.sessions[1:]] + [story.last]
        for k, (change, end) in enumerate(zip(story.sessions, ends)):
            x, width = self.x(change.moment), self.x(end) - self.x(change.moment)
            if width >= 0.1 or k == 0:
                fill = ("#dce9f7", "#fbe9cf")[k % 2]
                shape = f'<rect class="session" x="{x:.1f}" y="{top}" width="{width:.1f}" height="22" fill="{fill}" stroke="#999"'
                self.titled(shape, f"{clock(change.moment - self.opened)} {change.text}")
            if width > 9 * len(change.value):
                self.label(x + 6, top + 16, change.value)

    def playing(self, top):
        """Clicks are those at or after the start, and none while it doesn't play."""
        self.band(top, "playing")
        states = self.story.states
        ends = [state.moment for state in states[1:]] + [self.story.last]
        spans = []
        for state, end in zip(states, ends):
            begin = max(state.moment, state.start)
            if state.playing and begin < end:
                if spans and spans[-1][1] == begin:
                    spans[-1][1] = end
                else:
                    spans.append([begin, end])
        drawn = 0.0
        for begin, end in spans:
            x, width = self.x(begin), self.x(end) - self.x(begin)
            if x + width >= drawn + 0.1:
                self.put(f'<rect class="playing" x="{x:.1f}" y="{top}" width="{max(width, 0.1):.1f}" height="22" fill="#a9d5a9"/>')
                drawn = x + width
        self.marks(self.story.starts, lambda _: top + 11)

    def beats(self, top):
        self.band(top, "beat moves")
        self.marks(self.story.beats, lambda _: top + 11)

    def bars(self, top):
        changes = self.story.bars
        least, most = min(change.value for change in changes), max(change.value for change in changes)
        step = round_step(most - least, 3)
        lane = Lane(top, 54, least // step * step, -(-most // step) * step)
        ticks = range(lane.least, lane.most + 1, step)
        self.axis(lane, "length of a bar, in beats; 0 is none", [(value, decimals(value, 1_000_000)) for value in ticks])
        self.steps(lane, changes, "bars", "#333")
        self.marks(changes[1:], lambda change: lane.y(change.value))

    def offsets(self, top):
        values = [offset for _, offset in self.story.offsets]
        step = round_step(max(values) - min(values), 3)
        least, most = min(values) // step * step, -(-max(values) // step) * step
        lane = Lane(top, 54, least - step * (least == most), most + step * (least == most))
        size = max(abs(lane.least), abs(lane.most))
        unit, scale = ("s", SECOND) if size >= SECOND else ("ms", 1000) if size >= 1000 else ("µs", 1)
        ticks = range(lane.least, lane.most + 1, step)
        caption = f"ghost time of the session less the time since the opening, in {unit}, as pongs that were sent tell it"
        self.axis(lane, caption, [(value, decimals(value, scale)) for value in ticks])
        for moment, offset in self.story.offsets:
            self.dot("offset", self.x(moment), lane.y(offset), "#7a3fa0", f"{clock(moment - self.opened)} {decimals(offset, SECOND)} s")

    def legend(self, y):
        story = self.story
        used = {change.whose for change in [*story.tempo, *story.beats, *story.bars, *story.starts]} - {""}
        x = LEFT_X
        self.label(x, y + 4, "whose a change was:")
        x += 152
        for whose in COLOURS:
            if whose in used:
                self.mark(x, y, whose, "")
                self.label(x + 12, y + 4, whose)
                x += 36 + 7.6 * len(whose)
        if not used:
            self.label(x, y + 4, "nothing changed")

    def text(self):
        story, title = self.story, f"A session as {self.story.script.name} is shown it, {clock(self.story.last - self.opened)} long"
        lanes = [draw for draw, is_drawn in ((self.bars, len(story.bars) > 1), (self.offsets, story.offsets)) if is_drawn]
        bottom = 364 + 82 * len(lanes)
        self.below(62, bottom, "time since the opening, in minutes and seconds")
        self.tempo(66)
        self.peers(222)
        self.sessions(288)
        self.playing(314)
        self.beats(340)
        for k, draw in enumerate(lanes):
            draw(390 + 82 * k)
        self.legend(bottom + 60)
        return self.whole(title, bottom + 80)


# The command.


def parser_of_words():
    usage = "jorazhil session [--svg FILE] [--program PROGRAM | --output FILE --decoded FILE] [RECORDING]"
    parser = Words("jorazhil session", usage, __doc__, OPTIONS)
    parser.add_argument("recording", metavar="RECORDING", nargs="?", default="-", help="a replay script; `-`, or none: standard input")
    parser.add_argument("--svg", metavar="FILE", help="also draws it all over time, as a picture that any browser opens")
    parser.add_program()
    parser.add_argument("--output", metavar="FILE", help="what `replay` wrote for --marked; it isn't run then")
    parser.add_argument("--decoded", metavar="FILE", help="what `decode` wrote for --datagrams; it isn't run then")
    datagrams_help = "writes all datagrams in hex, one a line, each once, and ends (`decode` takes 16,777,216 bytes of them at once)"
    parser.add_argument("--datagrams", action="store_true", help=datagrams_help)
    parser.add_argument("--marked", action="store_true", help="writes the recording with its marks, and ends")
    parser.add_argument("--help", action="store_true", help="this text")
    return parser


def tell(arguments):
    """The lines to write."""
    parser = parser_of_words()
    words = parser.parse_args(arguments)
    if words.help:
        return [parser.format_help()]
    text = read_file(words.recording)
    script = read_script(text)
    if words.marked:
        return marked(script, text)
    where = f"{words.output}: " if words.output else "the output of `replay`: "
    output = read_output(read_file(words.output) if words.output else run_replay(words.program, script, text), where, script)
    digits = datagrams(script, output)
    if words.datagrams:
        return [one + "\n" for one in digits]
    decoded = read_file(words.decoded) if words.decoded else run_decode(words.program, digits)
    told = read_decoded(decoded, f"{words.decoded}: " if words.decoded else "the output of `decode`: ", digits)
    story = Story(script, output, told)
    if words.svg:
        write_picture(words.svg, Picture(story).text(), (words.recording, words.output, words.decoded))
    return story.lines()


if __name__ == "__main__":
    sys.exit(end_of("session", tell, sys.argv[1:]))
