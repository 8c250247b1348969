#!/usr/bin/env python3
"""Makes a MIDI file of what `jorazhil midi` writes, or of raw MIDI as it comes, so that a sequencer shows and plays it.

The text is the output of `midi` (docs/FORMATS.md): MIDI events with their times, and how many there were. With --raw MIDI bytes come on
standard input, and count as of when they come. The file is written to standard output. It has one track of 480 ticks to a quarter note, so
20 to a clock. Its tempo is that of the clocks: a steady one is told once, and each clock of the file comes within a tick of its own time.
While the clock runs, a note is played at each quarter note of the song, a higher one at a start. Markers tell starts, continues with their
song position in sixteenths, and stops.
"""
import os
import re
import select
import signal
import sys
from bisect import bisect_right
from collections import namedtuple
from itertools import islice
from time import monotonic_ns

sys.dont_write_bytecode = True
from shared import Refused, Words, end_of, fault, lines_of, put, quoted, read_file, standard_input  # noqa: E402

OPTIONS = """\
The first minute of a script, in blocks of 10 milliseconds:

  jorazhil midi 10000 6000 < run.script | jorazhil midi-file > run.mid

What a MIDI device sends, until Ctrl-C; `amidi -l` names the devices:

  jorazhil midi-file --raw < /dev/snd/midiC1D0 > run.mid

The file begins with the first event. Where clocks are farther apart than the slowest tempo of a file, which has 16.8 seconds to a quarter
note, whole quarter notes without clocks stand between them.

Raw MIDI may have clocks, starts, continues, stops and song positions. Any other byte ends it, as the end of the input and Ctrl-C do, and what
came before that byte is written. The tempo is 120 beats a minute where no clock came.

Exit status: 0 where the file was written, or where nobody reads on; 2 with a sentence on standard error for anything else.
"""

NUMBER = "(0|-?[1-9][0-9]{0,19})"
EVENT = re.compile(f"midi {NUMBER} (f8|fa|fb|fc|f2[0-7][0-9a-f][0-7][0-9a-f])")
DONE = re.compile(f"done {NUMBER} {NUMBER}")
CLOCK, START, CONTINUE, STOP, POSITION = 0xF8, 0xFA, 0xFB, 0xFC, 0xF2
# How much is read at once, in bytes: all that a pipe holds.
PIECE = 65_536
# How long the blocks of one run may take, in microseconds.
LONGEST = 524_288 * 1_000_000
# In ticks.
QUARTER, CLOCK_TICKS, NOTE_TICKS = 480, 20, 60
# In microseconds per quarter note; SLOWEST is the slowest tempo that a file can tell, and UNKNOWN is that of a clock alone.
SLOWEST, UNKNOWN = 2**24 - 1, 500_000
# Of a steady tempo two clocks may be 4 microseconds nearer or farther than they should be. No clock of the file is farther off than this,
# but behind a long pause.
SLACK = 10
# Wood blocks of the drum kit: a status byte, a key and a velocity.
ACCENT, PLAIN = bytes([0x99, 76, 120]), bytes([0x99, 77, 80])

# `line` is where a text has it.
Event = namedtuple("Event", "line time data")
# A tick of the file whose time is known.
Place = namedtuple("Place", "tick time")


# Reading.


def read_events(text, where):
    lines, events, done = lines_of(text, where), [], None
    for number, line in enumerate(lines, 1):
        if done:
            raise fault(where, number, "nothing behind the line `done`", quoted(line))
        if found := EVENT.fullmatch(line):
            events.append(Event(number, int(found[1]), bytes.fromhex(found[2])))
            check_order(where, events, line)
        elif found := DONE.fullmatch(line):
            done = number
            if int(found[2]) != len(events):
                raise fault(where, number, f"`done`, a number of blocks and {len(events)}, the number of events", quoted(line))
        else:
            raise fault(where, number, "a line that `midi` writes, as in `midi 20834 f8`, or `done` and two counts", quoted(line))
    if not done:
        raise fault(where, len(lines) + 1, "`done` and two counts behind the MIDI events", quoted(None))
    if all(event.data[0] != CLOCK for event in events):
        raise fault(where, done, "a clock, as in `midi 20834 f8`, since a file's time is counted in clocks", quoted(lines[-1]))
    return events


def check_order(where, events, line):
    """Whether the last one may stand behind those before it."""
    new, old, first = events[-1], events[-2] if len(events) > 1 else None, events[0].time
    if old and new.time < old.time:
        raise fault(where, new.line, f"a time from {old.time} on, that of the line above", quoted(line))
    if new.time - first >= LONGEST:
        raise fault(where, new.line, f"a time before {first + LONGEST}, where the longest run of `midi` ends", quoted(line))
    if new.data[0] == CLOCK:
        clock = next((event.time for event in islice(reversed(events), 1, None) if event.data[0] == CLOCK), None)
        if clock == new.time:
            raise fault(where, new.line, f"a clock behind {clock}, the time of the one before", quoted(line))
    if old and old.data[0] == POSITION and (new.time, new.data[0]) != (old.time, CONTINUE):
        raise fault(where, new.line, f"`midi {old.time} fb` behind a song position", quoted(line))
    if new.data[0] == CONTINUE and not (old and old.data[0] == POSITION):
        raise fault(where, new.line, "a song position before a continue", quoted(line))


# Recording.


def arrivals():
    """Bytes of standard input and the microsecond at which they came, until it ends or Ctrl-C ends it."""
    source, (woken, wake) = standard_input().fileno(), os.pipe()
    # Ctrl-C ends the wait, and raises nothing: what has just been read would be lost.
    signal.signal(signal.SIGINT, lambda *_: os.write(wake, b"-"))
    try:
        while source in select.select([source, woken], [], [])[0] and (piece := os.read(source, PIECE)):
            yield monotonic_ns() // 1000, piece
    except OSError as error:
        raise Refused(f"standard input could not be read: {error.strerror}") from None


def record(events):
    """Appends each message that comes, by the time of its last byte."""
    count, position = 0, b""
    for now, piece in arrivals():
        for byte in piece:
            count += 1
            if byte in (CLOCK, START, CONTINUE, STOP):
                # These may come between the bytes of a song position too.
                events.append(Event(None, now, bytes([byte])))
            elif byte < 0x80 if position else byte == POSITION:
                position += bytes([byte])
            else:
                raise byte_fault(count, position, f"{byte:02x}")
            if len(position) == 3:
                events.append(Event(None, now, position))
                position = b""
    if position or not events:
        raise byte_fault(count + 1, position, "the end of the input")


def byte_fault(place, position, found):
    inside, between = "a byte from 00 to 7f of the song position", "f8 (clock), fa (start), fb (continue), fc (stop) or f2 (song position)"
    return Refused(f"byte {place}: expected {inside if position else between}, found {found}")


def recorded():
    """The file of what comes. Before anything is refused, that of what came till then is written."""
    events = []
    try:
        record(events)
    except Refused as refusal:
        if not events:
            raise
        put(file_of(events))
        raise Refused(f"{refusal}; the file has what came before") from None
    return file_of(events)


# Ticks and tempos.


def nearest(number, divisor):
    return (2 * number + divisor) // (2 * divisor)


def within(number, least, most):
    return max(least, min(most, number))


def ticks_for(span, least):
    """The least number of ticks, and as many quarter notes more as it takes till a tempo is slow enough for so many microseconds."""
    needed = -(-QUARTER * span // SLOWEST)
    return least + max(0, -(-(needed - least) // QUARTER)) * QUARTER


def places_of(events):
    """One for each clock; before them the first event and behind them the last one, where these are far from any clock."""
    times = [event.time for event in events if event.data[0] == CLOCK]
    first, last = events[0].time, events[-1].time
    if not times:
        return [Place(0, first)]
    places, apart = [Place(0, times[0])], times[1] - times[0] if len(times) > 1 else UNKNOWN // 24
    # What comes less than a tick before the first clock stands with it, as raw MIDI has a start right before its clock.
    if CLOCK_TICKS * (times[0] - first) > apart:
        places = [Place(0, first), Place(ticks_for(times[0] - first, QUARTER), times[0])]
    if QUARTER * (last - times[-1]) > SLOWEST * CLOCK_TICKS:
        times.append(last)
    for before, time in zip(times, times[1:]):
        places.append(Place(places[-1].tick + ticks_for(time - before, CLOCK_TICKS), time))
    return places


def tempos_of(places):
    """Ticks, and the tempo from each of them on: the longest runs of places that one tempo comes near enough to."""
    # What the file's time is at a place, from the first one on, in parts of a microsecond of which there are QUARTER.
    tempos, at, shown = [], 0, 0
    while at + 1 < len(places):
        low, high, end, tempo = 1, SLOWEST, at + 1, None
        for k in range(at + 1, len(places)):
            ticks = places[k].tick - places[at].tick
            span = QUARTER * (places[k].time - places[0].time) - shown
            low, high = max(low, -((QUARTER * SLACK - span) // ticks)), min(high, (span + QUARTER * SLACK) // ticks)
            if low > high:
                break
            end, tempo = k, within(nearest(span, ticks), low, high)
        if tempo is None:
            # Behind a pause of so many ticks that no tempo comes near: the nearest.
            tempo = within(nearest(span, ticks), 1, SLOWEST)
        tempos.append((places[at].tick, tempo))
        shown += tempo * (places[end].tick - places[at].tick)
        at = end
    return tempos or [(0, UNKNOWN)]


class Ticks:
    """Which tick is the nearest to a time."""

    def __init__(self, places, tempos):
        self.places, self.times, self.last_tempo = places, [place.time for place in places], tempos[-1][1]

    def of(self, time):
        time = max(time, self.times[0])
        at = bisect_right(self.times, time) - 1
        before, gone = self.places[at], time - self.times[at]
        if at + 1 == len(self.places):
            return before.tick + nearest(QUARTER * gone, self.last_tempo)
        after = self.places[at + 1]
        return before.tick + nearest((after.tick - before.tick) * gone, after.time - before.time)


# The file.


def meta(kind, data):
    return bytes([0xFF, kind]) + length_of(len(data)) + data


def length_of(number):
    """In groups of seven bits, of which all but the last are marked."""
    groups = [number % 128]
    while number := number // 128:
        groups.insert(0, 128 + number % 128)
    return bytes(groups)


def marker(text):
    return meta(6, text.encode())


def played(events):
    """Times, and what is put there: markers, and the notes of quarter notes."""
    is_running, clocks = False, 0
    for event in events:
        kind = event.data[0]
        if kind == CLOCK and is_running:
            if clocks % 24 == 0:
                yield event.time, ACCENT if clocks == 0 else PLAIN
            clocks += 1
        elif kind == START:
            is_running, clocks = True, 0
            yield event.time, marker("start")
        elif kind == POSITION:
            clocks = 6 * (event.data[1] + 128 * event.data[2])
        elif kind == CONTINUE:
            is_running = True
            yield event.time, marker(f"continue at sixteenth {clocks // 6}")
        elif kind == STOP:
            is_running = False
            yield event.time, marker("stop")


def file_of(events):
    places = places_of(events)
    tempos = tempos_of(places)
    ticks = Ticks(places, tempos)
    # What stands at one tick is put in this order: notes that end, a tempo, markers and notes as they come.
    parts = [(0, 0, meta(3, b"MIDI clock"))] + [(tick, 1, meta(0x51, tempo.to_bytes(3, "big"))) for tick, tempo in tempos]
    for time, data in played(events):
        tick = ticks.of(time)
        parts.append((tick, 2, data))
        if data in (ACCENT, PLAIN):
            parts.append((tick + NOTE_TICKS, 0, data[:2] + b"\0"))
    parts.append((max(ticks.of(events[-1].time), *(tick for tick, _, _ in parts)), 3, meta(0x2F, b"")))
    track, last = [], 0
    for tick, _, data in sorted(parts, key=lambda part: part[:2]):
        track += [length_of(tick - last), data]
        last = tick
    track = b"".join(track)
    # Format 0, one track.
    head = b"".join(number.to_bytes(2, "big") for number in (0, 1, QUARTER))
    return b"".join(name + len(data).to_bytes(4, "big") + data for name, data in ((b"MThd", head), (b"MTrk", track)))


# The command.


def parser_of_words():
    parser = Words("jorazhil midi-file", "jorazhil midi-file [OUTPUT | --raw] > FILE", __doc__, OPTIONS)
    source = parser.add_mutually_exclusive_group()
    source.add_argument("output", metavar="OUTPUT", nargs="?", default="-", help="what `midi` wrote; `-`, or none: standard input")
    source.add_argument("--raw", action="store_true", help="takes MIDI bytes from standard input, each at the time at which it comes")
    parser.add_argument("--help", action="store_true", help="this text")
    return parser


def tell(arguments):
    """The bytes to write, or the lines of the help."""
    parser = parser_of_words()
    words = parser.parse_args(arguments)
    if words.help:
        return [parser.format_help()]
    if sys.stdout is not None and sys.stdout.isatty():
        raise Refused("standard output is a terminal, which shows no MIDI file; `> FILE` keeps it")
    if words.raw:
        return recorded()
    return file_of(read_events(read_file(words.output), "" if words.output == "-" else f"{words.output}: "))


if __name__ == "__main__":
    sys.exit(end_of("midi_file", tell, sys.argv[1:]))
