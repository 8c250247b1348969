#!/usr/bin/env python3
"""Reads back what tools/midi_file.py makes of the output of `midi`, and compares it with that output: checks/midi_file.py PROGRAM.

The reader here knows no more of MIDI files than what the tool writes, and refuses the rest. Compared are the tempos, the markers and the
notes, in their order, each with its own time to a tick, and in a steady tempo the ticks too: of examples/midi.script, by the program's own
run and as examples/midi.clock has it, and of outputs made here: steady tempos, tempos that change, beats that jump, a stop before the first
clock and behind the last one, pauses, numbers at the ends of the range. Input that is no output of `midi` has to end with status 2 and one
sentence on standard error. Of raw MIDI the events have to stand at the times at which the tool took them, and nothing may be lost where
something is refused or Ctrl-C ends the input. The last line is 'N passed, N failed'.
"""
import os
import pty
import select
import signal
import subprocess
import sys
import time
from fractions import Fraction

sys.dont_write_bytecode = True
import common  # noqa: E402
from common import EXAMPLES, HERE, read, write  # noqa: E402
from midi import steady  # noqa: E402

TOOL = os.path.join(HERE, "tools", "midi_file.py")
SCRIPT, EXPECTED = (os.path.join(EXAMPLES, "midi" + ending) for ending in (".script", ".clock"))
HOUR = 3_600_000_000
# How far an event of raw MIDI may stand from where it is wanted, in microseconds.
FAR = 50_000


# Reading a file.


class File:
    """The tempos by their ticks, and what else is in the track."""

    def __init__(self, data):
        if data[:14] != b"MThd\0\0\0\6\0\0\0\1\1\xe0" or data[14:18] != b"MTrk" or int.from_bytes(data[18:22], "big") != len(data) - 22:
            raise ValueError(f"no head of a file of one track with 480 ticks to a quarter note: {data[:22]!r}")
        self.data, self.at, self.tempos, self.parts, self.length = data, 22, [], [], None
        tick = 0
        while self.at < len(data):
            tick += self.number()
            self.part(tick)
        if self.length is None:
            raise ValueError("no end of the track")

    def take(self, count):
        if self.length is not None or self.at + count > len(self.data):
            raise ValueError("something behind the end of the track, or cut off")
        self.at += count
        return self.data[self.at - count : self.at]

    def number(self):
        number = 0
        for _ in range(4):
            (group,) = self.take(1)
            number = number * 128 + group % 128
            if group < 128:
                return number
        raise ValueError("a number of more than four bytes")

    def part(self, tick):
        (status,) = self.take(1)
        if status == 0xFF:
            (kind,) = self.take(1)
            text = self.take(self.number())
            if kind == 0x51 and len(text) == 3:
                self.tempos.append((tick, int.from_bytes(text, "big")))
            elif kind == 0x2F and text == b"":
                self.length = tick
            elif kind in (3, 6):
                self.parts.append((tick, ("name " if kind == 3 else "") + text.decode()))
            else:
                raise ValueError(f"a meta event of kind {kind}: {text!r}")
        elif status == 0x99:
            key, velocity = self.take(2)
            self.parts.append((tick, f"note {key}" if velocity else f"end {key}"))
        else:
            raise ValueError(f"a status byte {status:x}")

    def time(self, tick):
        """In microseconds from the file's beginning."""
        time, spans = Fraction(0), zip(self.tempos, [*self.tempos[1:], (max(tick, self.tempos[-1][0]), 0)])
        return time + sum(Fraction(max(0, min(tick, end) - begin) * tempo, 480) for (begin, tempo), (end, _) in spans)

    def tempo(self, tick):
        return [tempo for begin, tempo in self.tempos if begin <= tick][-1]

    def told(self):
        """Markers and notes that begin."""
        return [(tick, what) for tick, what in self.parts if not what.startswith(("name ", "end "))]


def wanted_of(text):
    """What a file of this output has to tell, with times from its beginning."""
    found, clocks = [], None
    lines = [line.split(" ") for line in text.splitlines()[:-1]]
    first = int(lines[0][1])
    for _, at, data in lines:
        time = int(at) - first
        if data == "fa":
            clocks = 0
            found.append((time, "start"))
        elif data == "fb":
            clocks = 6 * position
            found.append((time, f"continue at sixteenth {position}"))
        elif data == "fc":
            clocks = None
            found.append((time, "stop"))
        elif data != "f8":
            position = int(data[2:4], 16) + 128 * int(data[4:], 16)
        elif clocks is not None:
            if clocks % 24 == 0:
                found.append((time, "note 76" if clocks == 0 else "note 77"))
            clocks += 1
    return found


def differences(file, text):
    """What is not as wanted, or farther than a tick from its time."""
    told, wanted = file.told(), wanted_of(text)
    if [what for _, what in told] != [what for _, what in wanted]:
        return f"{[what for _, what in told][:20]} in place of {[what for _, what in wanted][:20]}"
    far = []
    for (tick, what), (time, _) in zip(told, wanted):
        if 480 * abs(file.time(tick) - time) > file.tempo(max(0, tick - 1)):
            far.append(f"{what} at {float(file.time(tick)):.1f} in place of {time}")
    ended = {(tick + 60, what.replace("note", "end")) for tick, what in told if what.startswith("note")}
    if ended != {part for part in file.parts if part[1].startswith("end ")}:
        far.append("notes that don't end after 60 ticks")
    last = int(text.splitlines()[-2].split(" ")[1]) - int(text.split(" ", 2)[1])
    if 480 * (last - file.time(file.length)) > file.tempo(file.length):
        far.append(f"the end at {float(file.time(file.length)):.1f} in place of {last}")
    return far


# Outputs made here.


def output(events):
    """The output that has these times and bytes, in the order of time."""
    events = sorted(events, key=lambda event: event[0])
    return "".join(f"midi {time} {data}\n" for time, data in events) + f"done 1 {len(events)}\n"


def clocks(mpb, count, at=0, first=0):
    """Clocks of a steady tempo, by their number from the first on."""
    return [(at + steady(mpb, pulse), "f8") for pulse in range(first, first + count)]


def made():
    """A name, an output, and the tempos, where they are told."""
    for mpb in (60_060, 60_061, 99_999, 500_000, 666_667, 1_234_567, 2_000_000, 2_999_999, 3_000_000):
        yield f"a steady {mpb}", output([(0, "fa"), *clocks(mpb, 2000)]), [(0, mpb)]
    for at in (-(2**60), -1_000_000, 2**55, 10**18):
        yield f"from {at} on", output([(at, "fa"), *clocks(500_000, 100, at)]), [(0, 500_000)]
    faster = [(0, "fa"), *clocks(500_000, 96), *clocks(400_000, 96, 2_000_000)]
    yield "a faster tempo", output(faster), [(0, 500_000), (96 * 20, 400_000)]
    # The file's clock 95 is at 1979166 2/3, and so 10833 1/3 before the next one.
    jump = [(0, "fa"), *clocks(500_000, 96), *clocks(500_000, 96, 1_990_000)]
    yield "a beat that jumps", output(jump), [(0, 500_000), (95 * 20, 260_000), (96 * 20, 500_000)]
    yield "a clock a microsecond behind another", output([(0, "fa"), *clocks(500_000, 49), (1_000_001, "f8"), (1_020_000, "f8")]), None
    slower = [(0, "fa")] + [(k * (k + 400) * 50, "f8") for k in range(1000)]
    yield "slower and slower", output(slower), None
    # Positions: a quarter note comes with each fourth sixteenth.
    for position in (1, 2, 3, 4, 127, 128, 16_383):
        data = f"f2{position % 128:02x}{position // 128:02x}"
        yield f"a continue at {position}", output([(7, data), (7, "fb"), *clocks(500_000, 100, 7)]), [(0, 500_000)]
    stops = [(0, "fa"), *clocks(500_000, 60), (1_234_567, "fc"), (1_250_001, "f20a00"), (1_250_001, "fb"), *clocks(500_000, 60, 1, 60)]
    yield "a stop and a continue", output(stops), None
    yield "a stop before the first clock", output([(-700_000, "fc"), (0, "fa"), *clocks(500_000, 60)]), [(0, 700_000), (480, 500_000)]
    # A tick has 1041 2/3 microseconds here.
    for gap, tempos in ((1, [(0, 500_000)]), (1041, [(0, 500_000)]), (1042, [(0, 1042), (480, 500_000)])):
        yield f"one {gap} microseconds before it", output([(-gap, "fc"), (0, "fa"), *clocks(500_000, 60)]), tempos
    yield "one an hour before it", output([(-HOUR, "fc"), (0, "fa"), *clocks(500_000, 60)]), None
    yield "a stop behind the last clock", output([(0, "fa"), *clocks(500_000, 60), (1_240_000, "fc")]), [(0, 500_000)]
    yield "one an hour behind it", output([(0, "fa"), *clocks(500_000, 60), (HOUR, "fc")]), None
    # A day has the greatest number of ticks that a span of them needs here.
    for span in (699_000, 700_000, 20 * 60_000_000, HOUR, 24 * HOUR):
        pause = [(0, "fa"), *clocks(500_000, 60), (700_000 + span // 2, "fc"), *clocks(500_000, 60, 1_300_000 + span)]
        yield f"a pause of {span}", output([*pause, (1_300_000 + span, "fa")]), None
    yield "one clock", output([(7, "fa"), (7, "f8")]), [(0, 500_000)]
    yield "one clock and nothing else", output([(7, "f8")]), [(0, 500_000)]


def make(words, text=b""):
    """Status, standard output and standard error of the tool."""
    return common.of_tool(TOOL, words, text)


def example(program, folder):
    _, told, _ = common.ended([program, "midi", "10000", "1000"], read(SCRIPT).encode())
    yield "examples/midi.clock", told.decode() == read(EXPECTED), True
    status, data, error = make([], told)
    yield "a file of the program's output", (status, error), (0, "")
    yield "the same of stored output", make([EXPECTED]), (0, data, "")
    yield "what is in it", differences(File(data), read(EXPECTED)), []
    markers = [what for _, what in File(data).told() if not what.startswith("note")]
    yield "its markers", markers, ["start", "stop", "continue at sixteenth 61"]
    yield "--help", make(["--help"])[::2], (0, "")


def made_here(program, folder):
    for name, text, tempos in made():
        status, data, error = make([], text.encode())
        yield name, (status, error), (0, "")
        file = File(data)
        yield f"{name}: what is in it", differences(file, text), []
        if tempos:
            yield f"{name}: its tempos", file.tempos, tempos
            notes = [tick for tick, what in file.told() if what.startswith("note")]
            yield f"{name}: its quarter notes", {after - before for before, after in zip(notes, notes[1:])} <= {480}, True


def refused(program, folder):
    """The input, and what has to stand on standard error."""
    none, line = os.path.join(folder, "none"), "a line that `midi` writes, as in `midi 20834 f8`, or `done` and two counts, found"
    clock = "a clock, as in `midi 20834 f8`, since a file's time is counted in clocks, found"
    cases = [
        ([], b"", "line 1: expected `done` and two counts behind the MIDI events, found the end of the text"),
        ([], b"midi 0 f8\n", "line 2: expected `done` and two counts behind the MIDI events, found the end of the text"),
        ([], b"done 0 0\n", f'line 1: expected {clock} "done 0 0"'),
        ([], b"midi 5 fc\ndone 1 1\n", f'line 2: expected {clock} "done 1 1"'),
        ([], b"midi 0 f8\ndone 1 2\n", 'line 2: expected `done`, a number of blocks and 1, the number of events, found "done 1 2"'),
        ([], b"midi 0 f8\ndone 1 1\nmidi 5 f8\n", 'line 3: expected nothing behind the line `done`, found "midi 5 f8"'),
        ([], b"replay 2\n", f'line 1: expected {line} "replay 2"'),
        ([], b"midi 0 f8\n\ndone 1 1\n", f'line 2: expected {line} ""'),
        ([], b"midi 0 f9\ndone 1 1\n", f'line 1: expected {line} "midi 0 f9"'),
        ([], b"midi 0 F8\ndone 1 1\n", f'line 1: expected {line} "midi 0 F8"'),
        ([], b"midi 0 f28000\ndone 1 1\n", f'line 1: expected {line} "midi 0 f28000"'),
        ([], b"midi 0.5 f8\ndone 1 1\n", f'line 1: expected {line} "midi 0.5 f8"'),
        ([], b"midi 0 f8\r\n", "line 1: expected a line feed alone at the end of the line, found a carriage return before it"),
        ([], b"MThd\0\0\0\6", f'line 1: expected {line} "MThd\\x00\\x00\\x00\\x06"'),
        ([], b"midi 5 f8\nmidi 4 f8\n", 'line 2: expected a time from 5 on, that of the line above, found "midi 4 f8"'),
        ([], b"midi 5 f8\nmidi 5 f8\n", 'line 2: expected a clock behind 5, the time of the one before, found "midi 5 f8"'),
        ([], b"midi 5 f8\nmidi 5 fc\nmidi 5 f8\n", 'line 3: expected a clock behind 5, the time of the one before, found "midi 5 f8"'),
        ([], b"midi 0 f20100\nmidi 0 f8\n", 'line 2: expected `midi 0 fb` behind a song position, found "midi 0 f8"'),
        ([], b"midi 0 f20100\nmidi 1 fb\n", 'line 2: expected `midi 0 fb` behind a song position, found "midi 1 fb"'),
        ([], b"midi 0 f8\nmidi 0 fb\n", 'line 2: expected a song position before a continue, found "midi 0 fb"'),
        (
            [],
            b"midi 0 f8\nmidi 524288000000 f8\n",
            'line 2: expected a time before 524288000000, where the longest run of `midi` ends, found "midi 524288000000 f8"',
        ),
        ([write(folder, "some", "midi 0 f8\n1\n")], b"", f'{folder}/some: line 2: expected {line} "1"'),
        ([folder], b"", f"{folder} could not be read: Is a directory"),
        ([none], b"", f"{none} could not be read: No such file or directory"),
        (["--svg", "x"], b"", "unrecognized arguments: --svg; --help tells all"),
    ]
    for words, text, sentence in cases:
        yield f"{words} on {text[-40:]!r}", make(words, text), (2, b"", f"midi_file: {sentence}\n")


def streams(program, folder):
    """A full device, a reader that leaves, and a terminal."""
    words = [sys.executable, TOOL, EXPECTED]
    if os.path.exists("/dev/full"):
        with open("/dev/full", "wb") as full:
            found = common.ended(words, stdout=full)[::2]
        yield "a full device", found, (2, b"midi_file: standard output could not be written: No space left on device\n")
    ours, theirs = os.pipe()
    os.close(ours)
    found = common.ended(words, stdout=theirs)[::2]
    os.close(theirs)
    yield "a reader that has left", found, (0, b"")
    try:
        ours, theirs = pty.openpty()
    except OSError:
        print("skipped: no terminal can be had")
        return
    found = common.ended(words, stdout=theirs)[::2]
    os.close(ours)
    os.close(theirs)
    yield "a terminal", found, (2, b"midi_file: standard output is a terminal, which shows no MIDI file; `> FILE` keeps it\n")


# Raw MIDI.


def begun():
    """The tool with --raw, and both ends of its input."""
    ours, theirs = os.pipe()
    streams = {"stdin": ours, "stdout": subprocess.PIPE, "stderr": subprocess.PIPE}
    return common.started([sys.executable, TOOL, "--raw"], **streams), ours, theirs


def hand(pieces, child, ours, theirs):
    """Writes pieces, each so many seconds after the one before was taken; answers when that was, in microseconds from the first one on."""
    taken = []
    for wait, piece in pieces:
        time.sleep(wait)
        os.write(theirs, piece)
        while select.select([ours], [], [], 0)[0] and child.poll() is None:
            time.sleep(0.001)
        taken.append(time.monotonic_ns() // 1000)
    return [at - taken[0] for at in taken]


def after(child, ours, theirs):
    """Status, file and standard error of the tool, whose input is left open till it has ended."""
    data, error = child.communicate(timeout=common.LONGEST)
    os.close(ours)
    os.close(theirs)
    return child.returncode, data, error.decode()


def raw_times(program, folder):
    """Clocks stand at the times at which they come, and so do markers."""
    run = begun()
    pieces = [(0, b"\xf8"), (0.2, b"\xf8"), (0.1, b"\xfa"), (0.3, b"\xf8"), (0.4, b"\xf8"), (0.1, b"\xfc")]
    pieces += [(0.1, b"\xf2"), (0.05, b"\1\0"), (0.1, b"\xfb"), (0.1, b"\xf8")]
    taken = hand(pieces, *run)
    run[0].send_signal(signal.SIGINT)
    status, data, error = after(*run)
    yield "raw MIDI", (status, error), (0, "")
    file = File(data)
    told = {what: tick for tick, what in file.told()}
    yield "what is in it", list(told), ["start", "note 76", "stop", "continue at sixteenth 1"]
    ticks = [0, 20, told["start"], 40, 60, told["stop"], told["continue at sixteenth 1"], 80]
    wanted = [at for at, (_, piece) in zip(taken, pieces) if piece[0] not in (0xF2, 1)]
    far = [f"tick {tick} at {float(file.time(tick)):.1f} in place of {at}" for tick, at in zip(ticks, wanted) if abs(file.time(tick) - at) > FAR]
    yield "what is far from its time", far, []
    yield "the note of the first clock from the start on", told["note 76"], 40


def raw_messages(program, folder):
    """What has to be told of bytes that come at once."""
    cases = [
        (b"\xf8" * 50, []),
        (b"\xfa", ["start"]),
        (b"\xfa\xf8\xfa\xf8", ["start", "note 76"] * 2),
        (b"\xfa" + b"\xf8" * 24, ["start", "note 76"]),
        (b"\xfa" + b"\xf8" * 25 + b"\xfc" + b"\xf8" * 50, ["start", "note 76", "note 77", "stop"]),
        # The quarter behind sixteenth 61 is three sixteenths away, so 18 clocks.
        (b"\xf2\x3d\0\xfb" + b"\xf8" * 18, ["continue at sixteenth 61"]),
        (b"\xf2\x3d\0\xfb" + b"\xf8" * 19, ["continue at sixteenth 61", "note 77"]),
        (b"\xf2\x7f\x7f\xfb", ["continue at sixteenth 16383"]),
        (b"\xf2\xf8\1\xfc\2\xfb", ["stop", "continue at sixteenth 257"]),
        (b"\xf2\1\0\xf2\2\0\xfc", ["stop"]),
        # Without a position it goes on where it was, at clock 30 of the song.
        (b"\xfa" + b"\xf8" * 30 + b"\xfc\xfb" + b"\xf8" * 18, ["start", "note 76", "note 77", "stop", "continue at sixteenth 5"]),
        (b"\xfa" + b"\xf8" * 30 + b"\xfc\xfb" + b"\xf8" * 19, ["start", "note 76", "note 77", "stop", "continue at sixteenth 5", "note 77"]),
    ]
    for text, wanted in cases:
        status, data, error = make(["--raw"], text)
        yield f"{text!r}", (status, error, [what for _, what in File(data).told()]), (0, "", wanted)
    yield "the tempo without a clock", File(make(["--raw"], b"\xfa\xfc")[1]).tempos, [(0, 500_000)]


def raw_refused(program, folder):
    """The sentence, and what stands in the file: nothing of the byte at fault, or behind it."""
    between = "f8 (clock), fa (start), fb (continue), fc (stop) or f2 (song position)"
    inside, end = "a byte from 00 to 7f of the song position", "the end of the input"
    cases = [(b"", 1, between, end), (b"\xf2", 2, inside, end), (b"\xf2\1", 3, inside, end), (b"\xfa\xf8\xf2\1", 5, inside, end)]
    cases += [(b"\xfa\xf2\1\xf8", 5, inside, end), (b"\xfe\xfa", 1, between, "fe"), (b"\xf2\x80", 2, inside, "80")]
    for byte in (0x00, 0x7F, 0x80, 0x90, 0xEF, 0xF0, 0xF1, 0xF3, 0xF6, 0xF7, 0xF9, 0xFD, 0xFE, 0xFF):
        cases.append((b"\xfa\xf8" + bytes([byte]) + b"\xfc", 3, between, f"{byte:02x}"))
    for byte in (0x80, 0x90, 0xF0, 0xF2, 0xF7, 0xF9, 0xFE, 0xFF):
        cases += [(b"\xfa\xf8\xf2" + known + bytes([byte]) + b"\xfc", 4 + len(known), inside, f"{byte:02x}") for known in (b"", b"\1")]
    for text, place, expected, found in cases:
        status, data, error = make(["--raw"], text)
        told = ["start", "note 76"] if b"\xf8" in text else []
        behind = "; the file has what came before" if told else ""
        wanted = (2, f"midi_file: byte {place}: expected {expected}, found {found}{behind}\n", told)
        yield f"{text!r}", (status, error, [what for _, what in File(data).told()] if data else []), wanted
    run = begun()
    hand([(0, b"\xfa\x90")], *run)
    sentence = f"midi_file: byte 2: expected {between}, found 90; the file has what came before\n"
    yield "a byte at fault, while more may come", after(*run)[::2], (2, sentence)
    yield "a text of `midi` beside it", make(["--raw", EXPECTED]), (2, b"", "midi_file: argument OUTPUT: not allowed with argument --raw; --help tells all\n")
    with open(os.path.join(folder, "written"), "wb") as written:
        found = common.ended([sys.executable, TOOL, "--raw"], stdin=written)
    yield "an input for writing alone", found, (2, b"", b"midi_file: standard input could not be read: Bad file descriptor\n")
    found = common.ended(["/bin/sh", "-c", 'exec "$0" "$1" --raw <&-', sys.executable, TOOL])
    yield "a closed input", found, (2, b"", b"midi_file: standard input could not be read: it is closed\n")


def raw_interrupted(program, folder):
    """Ctrl-C ends the input, and what came right before it is there."""
    ended = "byte 4: expected a byte from 00 to 7f of the song position, found the end of the input; the file has what came before"
    cases = [(b"\xf8", 0, "", ["start", "note 76"]), (b"\xfc", 0, "", ["start", "stop"]), (b"\xf2\1", 2, f"midi_file: {ended}\n", ["start"])]
    for last, *wanted in cases * 5:
        run = begun()
        hand([(0, b"\xfa")], *run)
        os.write(run[2], last)
        run[0].send_signal(signal.SIGINT)
        status, data, error = after(*run)
        yield f"Ctrl-C behind {last!r}", [status, error, [what for _, what in File(data).told()]], wanted


def main(program):
    return common.compared((example, made_here, refused, streams, raw_times, raw_messages, raw_refused, raw_interrupted), program)


if __name__ == "__main__":
    common.begin(main, __doc__)
