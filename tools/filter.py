#!/usr/bin/env python3
"""Tells how much smoother the host times of `jorazhil filter` are than those that it was given, and draws both.

The pairs are an input of `filter` (docs/FORMATS.md): a sample count and a host time a line, as an audio callback has them. What the filter
makes of them isn't worked out here: it is what `jorazhil filter` writes. Both are held against one straight line, the least squares line
through all pairs given that the filter took. Told are how far the host times are from that line, and how much farther from one pair to the
next, which is what a musician hears of it: the median of each, and the greatest. The first pairs of a filter are nearly as they were given,
as there is little to smooth them by, so what comes behind the first 512 is told apart.
"""
import re
import sys
from collections import namedtuple
from fractions import Fraction

sys.dont_write_bytecode = True
from shared import Drawing, Lane, Words, decimals, end_of, fault, lines_of, quoted, read_file, round_step, run  # noqa: E402
from shared import LEFT_X, RIGHT_X, write_picture  # noqa: E402

OPTIONS = """\
Without the program: `--output` has what `filter` writes for the pairs:

  (elsewhere) jorazhil filter < run.pairs > run.output
  jorazhil filter-plot --output run.output --svg run.svg run.pairs

The picture has each pair's host time, less that of the line at its sample: those given as dots, and those of the filter as a line through
them; below the latter alone, on an axis of their own, and marks for the pairs that were refused. What is above or below an axis is drawn
at its end, and where many things stand at one place, one of each kind is drawn.

A program that isn't built yet is proved first, which takes its time; with JORAZHIL_TRY=1 in the environment it is run unproved
(jorazhil --help).

Exit status: 0 where all was told, or where nobody reads on; 2 with a sentence on standard error for anything else.
"""

LIMIT, KEPT = 2**60, 512
NUMBER = "(0|-?[1-9][0-9]{0,19})"
PAIR = re.compile(f"{NUMBER} {NUMBER}")
HOST, FAR, DONE = re.compile(f"host {NUMBER}"), re.compile(f"far {NUMBER} {NUMBER}"), re.compile(f"done {NUMBER} {NUMBER}")

# A pair that the filter took, with its own host time behind the given one; and one that it refused, with the line that it wrote.
Taken = namedtuple("Taken", "sample given filtered")
Refusal = namedtuple("Refusal", "sample given text")


# Reading.


def read_pairs(text, where):
    lines, pairs = lines_of(text, where), []
    for number, line in enumerate(lines, 1):
        found = PAIR.fullmatch(line)
        if not found or any(abs(int(word)) > LIMIT for word in found.groups()):
            raise fault(where, number, "a sample count and a host time, each within 2^60 of 0, as in `256 5333`", quoted(line))
        pairs.append((int(found[1]), int(found[2])))
    if not pairs:
        raise fault(where, 1, "a sample count and a host time, as in `256 5333`", quoted(None))
    return pairs


def read_output(text, where, pairs):
    """What `filter` writes, where it can be that of these pairs: those that were taken, and those that were refused."""
    lines, taken, refused, held = lines_of(text, where), [], [], set()
    for number, (sample, given) in enumerate(pairs, 1):
        line = lines[number - 1] if number <= len(lines) else None
        pair, newest = f"the pair {sample} {given}", taken[-1].sample if taken else None
        is_late = taken and sample <= newest
        if line is None or DONE.fullmatch(line):
            raise fault(where, number, f"a line for each of the {len(pairs)} pairs", quoted(line))
        if is_late and line != f"late {newest}":
            raise fault(where, number, f"`late {newest}` for {pair}", quoted(line))
        if found := HOST.fullmatch(line):
            taken.append(Taken(sample, given, int(found[1])))
            held.add((sample, given))
        elif is_late or (found := FAR.fullmatch(line)) and (int(found[1]), int(found[2])) in held:
            refused.append(Refusal(sample, given, line))
        else:
            raise fault(where, number, f"`host` and a time, or `far` and a pair before it, for {pair}", quoted(line))
    ends = lines[len(pairs) :]
    wanted = f"done {len(pairs)} {len(refused)}"
    if ends[:1] != [wanted]:
        raise fault(where, len(pairs) + 1, f"`{wanted}` behind these lines", quoted(ends[0] if ends else None))
    if len(ends) > 1:
        raise fault(where, len(pairs) + 2, "nothing behind the line `done`", quoted(ends[1]))
    return taken, refused


# The straight line, and what is off it. All are in tenths of a microsecond.


class Line:
    """The least squares line through the pairs given that were taken, in exact numbers."""

    def __init__(self, taken):
        first, count = taken[0], len(taken)
        samples, hosts = [one.sample - first.sample for one in taken], [one.given - first.given for one in taken]
        middle, height = sum(samples), sum(hosts)
        across = count * sum(sample * host for sample, host in zip(samples, hosts)) - middle * height
        # Of one pair the line is flat.
        along = count * sum(sample * sample for sample in samples) - middle * middle or 1
        self.slope = Fraction(across, along)
        self.sample, self.host = first.sample, first.given
        # Over one denominator, since there may be many pairs.
        self.rise, self.below = count * self.slope.numerator, count * self.slope.denominator
        self.start = height * self.slope.denominator - middle * self.slope.numerator

    def off(self, sample, host):
        size = 10 * ((host - self.host) * self.below - self.start - self.rise * (sample - self.sample))
        return (2 * abs(size) + self.below) // (2 * self.below) * (1 if size >= 0 else -1)


def median_of(sizes):
    return sorted(sizes)[len(sizes) // 2]


def spread(name, offs):
    """The sizes of what is off the line, and of how it changes."""
    sizes = [abs(off) for off in offs]
    changes = [abs(after - before) for before, after in zip(offs, offs[1:])] or [0]
    numbers = (median_of(sizes), max(sizes), median_of(changes), max(changes))
    return f"{name:<40}" + "".join(f"{f'{one // 10:,}.{one % 10}':>13}" for one in numbers) + "\n"


def pairs_words(count):
    return f"{count:,} pair{'' if count == 1 else 's'}"


class Told:
    """What there is to tell, and what there is to draw."""

    def __init__(self, pairs, taken, refused):
        self.pairs, self.taken, self.refused = pairs, taken, refused
        self.line = Line(taken)
        self.given = [self.line.off(one.sample, one.given) for one in taken]
        self.filtered = [self.line.off(one.sample, one.filtered) for one in taken]
        # The first pair that stands behind as many as a filter keeps; 0 where there is none.
        self.behind = KEPT if len(taken) > KEPT else 0

    def lines(self):
        late = sum(one.text.startswith("late ") for one in self.refused)
        kinds = f": {late} late and {len(self.refused) - late} far" if self.refused else ""
        yield f"{pairs_words(len(self.pairs))}, {len(self.refused) or 'none'} refused{kinds}\n"
        yield self.rate()
        yield f"{'in microseconds':<40}{'off the line:':>13}{'':13}{'change of it:':>13}\n"
        yield f"{'':<40}" + "".join(f"{word:>13}" for word in ("median", "greatest") * 2) + "\n"
        parts = [("", 0)] + [(f", behind the first {KEPT}", self.behind)] * (self.behind > 0)
        for where, first in parts:
            yield spread(f"given{where}", self.given[first:])
            yield spread(f"filtered{where}", self.filtered[first:])

    def rate(self):
        slope = self.line.slope
        thousandths = round(slope * 1_000_000)
        text = f"the line: {decimals(thousandths, 1_000_000)} microseconds a sample"
        return text + (f", which is {decimals(round(10_000_000 / slope), 10)} samples a second\n" if thousandths > 0 else "\n")


# The picture.

GIVEN, FILTERED, REFUSED = "#7d9cc0", "#c25700", "#7a3fa0"


class Picture(Drawing):
    """Over samples, from the first pair on."""

    def __init__(self, told):
        first, last = told.taken[0].sample, told.taken[-1].sample
        super().__init__(first, max(last - first, 1))
        self.all = told

    def tick_step(self, most):
        return round_step(self.span, most)

    def tick_text(self, place):
        return f"{place:,}"

    def lane(self, top, height, offs, what):
        """A lane that has room for these, with its axis."""
        step = round_step(max(max(offs) - min(offs), 10), 5)
        least, most = min(offs) // step * step, -(-max(offs) // step) * step
        lane = Lane(top, height, least - step * (least == most), most + step * (least == most))
        size = max(abs(lane.least), abs(lane.most))
        unit, scale = ("s", 10_000_000) if size >= 10_000_000 else ("ms", 10_000) if size >= 10_000 else ("µs", 10)
        ticks = range(lane.least, lane.most + 1, step)
        self.axis(lane, f"{what}, in {unit}", [(value, decimals(value, scale)) for value in ticks])
        if lane.least < 0 < lane.most:
            self.put(f'<path d="M{LEFT_X} {lane.y(0):.1f} H{RIGHT_X}" stroke="#999"/>')
        return lane

    def y(self, lane, off):
        return lane.y(min(max(off, lane.least), lane.most))

    def dots(self, lane):
        """One path, whose pieces have no length and round ends."""
        path = []
        for one, off in zip(self.all.taken, self.all.given):
            x, y = self.x(one.sample), self.y(lane, off)
            if self.is_free(x, y, "given"):
                path.append(f"M{x:.1f} {y:.1f}h0")
        width = 2.6 if len(self.all.taken) > 100 else 6
        self.put(f'<path class="given" d="{"".join(path)}" fill="none" stroke="{GIVEN}" stroke-width="{width}" stroke-linecap="round"/>')

    def curve(self, lane, name):
        """Of several places within half a pixel the first, the least, the greatest and the last are drawn."""
        columns = {}
        for one, off in zip(self.all.taken, self.all.filtered):
            columns.setdefault(f"{round(2 * self.x(one.sample)) / 2:.1f}", []).append(self.y(lane, off))
        path = []
        for x, values in columns.items():
            values = values if len(values) < 5 else [values[0], min(values), max(values), values[-1]]
            path += [f"{x} {value:.1f}" for value in values]
        path = "M" + " L".join(path if len(path) > 1 else 2 * path)
        self.put(f'<path class="{name}" d="{path}" fill="none" stroke="{FILTERED}" stroke-width="1.8" stroke-linejoin="round"/>')

    def cross(self, x, y, text):
        shape = f'<path class="refused" d="M{x - 4:.1f} {y - 4:.1f} l8 8 m0 -8 l-8 8" fill="none" stroke="{REFUSED}" stroke-width="2"'
        self.titled(shape, text)

    def crosses(self, lane):
        for one in self.all.refused:
            x, y = self.x(one.sample), self.y(lane, self.all.line.off(one.sample, one.given))
            if self.is_free(x, y, "refused"):
                self.cross(x, y, f"{one.sample} {one.given}: {one.text}")

    def filled(self, top, bottom):
        """From where as many pairs are kept as a filter keeps."""
        x = self.x(self.all.taken[self.all.behind].sample)
        self.put(f'<path d="M{x:.1f} {top} V{bottom}" stroke="#777" stroke-dasharray="4 4"/>')
        is_last = x + 150 > RIGHT_X
        self.label(x + (-6 if is_last else 6), top + 12, f"{KEPT} pairs are kept", f' font-size="11" text-anchor="{"end" if is_last else "start"}"')

    def legend(self, y):
        told, x = self.all, LEFT_X
        self.put(f'<path d="M{x + 4} {y}h0" stroke="{GIVEN}" stroke-width="6" stroke-linecap="round"/>')
        self.label(x + 14, y + 4, "host times given")
        self.put(f'<path d="M{x + 140} {y}h20" stroke="{FILTERED}" stroke-width="2"/>')
        self.label(x + 168, y + 4, "filtered")
        if told.refused:
            self.cross(x + 250, y, "")
            self.label(x + 262, y + 4, f"refused: {len(told.refused)}")

    def text(self):
        told = self.all
        self.below(66, 434, "samples since the first pair")
        lane = self.lane(66, 220, told.given + told.filtered, "host time less that of the straight line through the pairs given")
        self.dots(lane)
        self.curve(lane, "filtered")
        self.crosses(lane)
        alone = self.lane(334, 100, told.filtered[told.behind :], "the filtered ones alone")
        self.curve(alone, "alone")
        if told.behind:
            self.filled(66, 434)
        self.legend(494)
        return self.whole(f"Host times of an audio callback, given and filtered, of {pairs_words(len(told.pairs))}", 514)


# The command.


def parser_of_words():
    parser = Words("jorazhil filter-plot", "jorazhil filter-plot [--svg FILE] [--program PROGRAM | --output FILE] [PAIRS]", __doc__, OPTIONS)
    parser.add_argument("pairs", metavar="PAIRS", nargs="?", default="-", help="what `filter` reads; `-`, or none: standard input")
    parser.add_argument("--svg", metavar="FILE", help="also draws the host times over the samples, as a picture that any browser opens")
    parser.add_program()
    parser.add_argument("--output", metavar="FILE", help="what `filter` wrote for the pairs; it isn't run then")
    parser.add_argument("--help", action="store_true", help="this text")
    return parser


def tell(arguments):
    """The lines to write."""
    parser = parser_of_words()
    words = parser.parse_args(arguments)
    if words.help:
        return [parser.format_help()]
    text = read_file(words.pairs)
    pairs = read_pairs(text, "" if words.pairs == "-" else f"{words.pairs}: ")
    where = f"{words.output}: " if words.output else "the output of `filter`: "
    output = read_file(words.output) if words.output else run(words.program, "filter", text)
    told = Told(pairs, *read_output(output, where, pairs))
    if words.svg:
        write_picture(words.svg, Picture(told).text(), (words.pairs, words.output))
    return list(told.lines())


if __name__ == "__main__":
    sys.exit(end_of("filter", tell, sys.argv[1:]))
