"""What the tools here share: reading a text and running the program over it, drawing over time, and being a command."""
import argparse
import os
import subprocess
import sys

# Picture: the axes' ends, and its width.
LEFT_X, RIGHT_X, WIDTH = 96, 876, 900
# Steps of an axis of time, in microseconds: up to ten seconds by 1, 2 and 5, then by what a clock has.
SECOND = 1_000_000
CLOCK_STEPS = [k * SECOND for k in (15, 30, 60, 120, 300, 600, 900, 1800, 3600, 7200, 21_600, 43_200, 86_400)]


class Refused(Exception):
    """A sentence for standard error."""


def fault(where, line, expected, found):
    return Refused(f"{where}line {line}: expected {expected}, found {found}")


def quoted(text):
    """A line that was found, as far as a person has to see it."""
    if text is None:
        return "the end of the text"
    shown = "".join(sign if " " <= sign <= "~" else f"\\x{ord(sign):02x}" for sign in text[:40])
    return f'"{shown}"' + (" and more" if len(text) > 40 else "")


# Reading, and running the program.


def standard_input():
    if sys.stdin is None:
        raise Refused("standard input could not be read: it is closed")
    return sys.stdin.buffer


def read_file(name):
    """The bytes of a file, or of standard input for `-`."""
    try:
        if name == "-":
            return standard_input().read()
        with open(name, "rb") as file:
            return file.read()
    except OSError as error:
        raise Refused(f"{'standard input' if name == '-' else name} could not be read: {error.strerror}") from None


def lines_of(text, where):
    """The lines of a text of bytes, which the last may end without a line feed."""
    lines = text.decode("latin-1").split("\n")
    if lines[-1] == "":
        lines.pop()
    for count, line in enumerate(lines, 1):
        if line.endswith("\r") and not line.startswith("#"):
            raise fault(where, count, "a line feed alone at the end of the line", "a carriage return before it")
    return lines


def run(program, word, text):
    """What the program writes. What it has to say of a fault goes to standard error as it is."""
    try:
        done = subprocess.run([program, word], input=text, stdout=subprocess.PIPE, check=False)
    except OSError as error:
        raise Refused(f"{program} could not be run: {error.strerror}") from None
    if done.returncode:
        raise Refused(f"`{word}` of {program} ended with status {done.returncode}" + (", as it says above" if done.returncode > 0 else ""))
    return done.stdout


# Drawing.


def clock(micros, digits=3):
    """A time as m:ss.mmm, cut to its digits."""
    size = abs(micros) // 10 ** (6 - digits)
    seconds, part = divmod(size, 10**digits)
    return f"{'-' if micros < 0 and size else ''}{seconds // 60}:{seconds % 60:02d}.{part:0{digits}d}"


def short_clock(micros):
    return clock(micros, 6).rstrip("0").rstrip(".")


def decimals(value, scale):
    """A whole number of parts, of which the scale makes one, without needless digits."""
    sign, (whole, part) = "-" if value < 0 else "", divmod(abs(value), scale)
    digits = str(scale + part)[1:].rstrip("0")
    return f"{sign}{whole}" + (f".{digits}" if digits else "")


def round_step(span, most):
    """The least of 1, 2 and 5 times a power of ten of which there are at most so many in the span."""
    power = 1
    while True:
        for step in (power, 2 * power, 5 * power):
            if span <= step * most:
                return step
        power *= 10


def time_step(span, most):
    step = round_step(span, most)
    if step <= 10 * SECOND:
        return step
    day = CLOCK_STEPS[-1]
    return next((step for step in CLOCK_STEPS if span <= step * most), None) or day * round_step(-(-span // day), most)


def escaped(text):
    for sign, name in (("&", "&amp;"), ("<", "&lt;"), (">", "&gt;"), ('"', "&quot;"), ("'", "&#39;")):
        text = text.replace(sign, name)
    return text


class Lane:
    """A part of the picture with an axis of its own, for whole numbers from least to most."""

    def __init__(self, top, height, least, most):
        self.top, self.height, self.least, self.most = top, height, least, most

    def y(self, value):
        return self.top + self.height - self.height * (value - self.least) / (self.most - self.least)


class Drawing:
    """A picture over time, from a first moment on, or over something else of which the axis tells whole numbers."""

    def __init__(self, opened, span):
        self.parts, self.drawn = [], set()
        self.opened, self.span = opened, span

    def x(self, moment):
        return LEFT_X + (RIGHT_X - LEFT_X) * min(max(moment - self.opened, 0), self.span) / self.span

    def put(self, text):
        self.parts.append(text)

    def label(self, x, y, text, more=""):
        self.put(f'<text x="{x:.1f}" y="{y:.1f}"{more}>{escaped(text)}</text>')

    def titled(self, shape, text):
        """A shape that tells its text where a browser's pointer rests on it."""
        name = shape[1:].split(" ", 1)[0]
        self.put(f"{shape}><title>{escaped(text)}</title></{name}>" if text else f"{shape}/>")

    def is_free(self, x, y, kind):
        """Whether nothing of this kind stands within about two pixels of there."""
        place = round(x / 2), round(y / 2), kind
        if place in self.drawn:
            return False
        self.drawn.add(place)
        return True

    def axis(self, lane, caption, values):
        self.label(LEFT_X, lane.top - 8, caption)
        for value, text in values:
            y = lane.y(value)
            self.put(f'<path d="M{LEFT_X} {y:.1f} H{RIGHT_X}" stroke="#ddd"/>')
            self.label(LEFT_X - 8, y + 4, text, ' text-anchor="end"' + (' font-size="9"' if len(text) > 10 else ""))

    def below(self, top, bottom, caption):
        """The axis of time, below all lanes, with a line up through them."""
        most = next(most for most in (10, 5, 2, 1) if 9 * self.longest(self.tick_step(most)) * most < RIGHT_X - LEFT_X or most == 1)
        for place in range(0, self.span + 1, self.tick_step(most)):
            x, text = self.x(self.opened + place), self.tick_text(place)
            self.put(f'<path d="M{x:.1f} {top} V{bottom + 5}" stroke="#ddd"/>')
            is_last = x + 4 * len(text) > WIDTH
            self.label(WIDTH - 4 if is_last else x, bottom + 19, text, f' text-anchor="{"end" if is_last else "middle"}"')
        self.put(f'<path d="M{LEFT_X} {bottom} H{RIGHT_X}" stroke="#333"/>')
        self.label((LEFT_X + RIGHT_X) / 2, bottom + 37, caption, ' text-anchor="middle"')

    def tick_step(self, most):
        return time_step(self.span, most)

    def tick_text(self, place):
        return short_clock(place)

    def longest(self, step):
        """How many signs the longest text of the axis has."""
        return max(len(self.tick_text(place)) for place in range(0, self.span + 1, step))

    def whole(self, title, height):
        """The file."""
        size = f'width="{WIDTH}" height="{height}"'
        head = f'<svg xmlns="http://www.w3.org/2000/svg" viewBox="0 0 {WIDTH} {height}" {size} font-family="sans-serif" font-size="13">'
        ground = f'<rect {size} fill="#fff"/>'
        first = f'<text x="20" y="28" font-size="16" font-weight="bold">{escaped(title)}</text>'
        return "\n".join([head, f"<title>{escaped(title)}</title>", ground, first, *self.parts, "</svg>", ""])


def write_picture(path, text, read):
    """Not over what was read."""
    for name in read:
        if name not in (None, "-") and os.path.exists(path) and os.path.samefile(name, path):
            raise Refused(f"--svg {path} is a file that is read from")
    try:
        with open(path, "w", encoding="utf-8", newline="\n") as file:
            file.write(text)
    except OSError as error:
        raise Refused(f"{path} could not be written: {error.strerror}") from None


# The command.


class Words(argparse.ArgumentParser):
    """A parser whose options are told in the tool's own order."""

    def __init__(self, name, usage, about, behind):
        form = argparse.RawDescriptionHelpFormatter
        super().__init__(
            prog=name, usage=usage, description=about, epilog=behind, add_help=False, allow_abbrev=False, formatter_class=form
        )

    def error(self, message):
        raise Refused(f"{message}; --help tells all")

    def add_program(self):
        program = os.path.normpath(os.path.join(os.path.dirname(os.path.realpath(__file__)), "..", "jorazhil"))
        self.add_argument("--program", metavar="PROGRAM", default=program, help="the program (../jorazhil beside this tool)")


def put(told):
    """Writes lines, or the bytes of a file, to standard output."""
    if sys.stdout is None:
        raise Refused("standard output could not be written: it is closed")
    if isinstance(told, bytes):
        sys.stdout.buffer.write(told)
    else:
        sys.stdout.writelines(told)
    sys.stdout.flush()


def end_of(name, to_tell, arguments):
    """Writes the lines that a tool has to tell, or the bytes of a file, and answers its exit status."""
    try:
        put(to_tell(arguments))
    except Refused as refusal:
        print(f"{name}: {refusal}", file=sys.stderr)
        return 2
    except BrokenPipeError:
        # Nobody reads on. What is left goes nowhere, so that the end of the run says nothing either.
        os.dup2(os.open(os.devnull, os.O_WRONLY), sys.stdout.fileno())
    except OSError as error:
        print(f"{name}: standard output could not be written: {error.strerror}", file=sys.stderr)
        os.dup2(os.open(os.devnull, os.O_WRONLY), sys.stdout.fileno())
        return 2
    return 0
