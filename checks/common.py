"""What the checks here share: how they start programs, wait, compare, count and end."""
import os
import re
import socket
import subprocess
import sys
import tempfile

sys.dont_write_bytecode = True
HERE = os.path.dirname(os.path.dirname(os.path.abspath(__file__)))
EXAMPLES = os.path.join(HERE, "examples")
# Seconds until which a run has to end, and a datagram has to come, wherever one is waited for.
LONGEST, PATIENCE = 60, 10


def read(*names):
    with open(os.path.join(*names), encoding="utf-8") as file:
        return file.read()


def write(folder, name, text):
    """The path of a file with this text."""
    path = os.path.join(folder, name)
    with open(path, "wb") as file:
        file.write(text if isinstance(text, bytes) else text.encode())
    return path


def page_of(word):
    """The paragraphs of help/WORD.txt that a program tells of its words by itself."""
    parts = read(HERE, "help", f"{word}.txt").split("\n\n")
    return "\n\n".join(part.rstrip("\n") for part in parts if part.startswith(("Usage:", "Arguments:", "Options:", "  <"))) + "\n"


# Comparing and counting.


class Differs(Exception):
    """What was found, where something else is wanted."""


def want(what, found, wanted):
    if found != wanted:
        raise Differs(f"{what}: found {found!r}, wanted {wanted!r}")


def want_lines(what, found, wanted):
    """The same of two texts, of which the first line that differs is told."""
    for k, (one, other) in enumerate(zip(found.split("\n"), wanted.split("\n")), 1):
        want(f"{what}, line {k}", one, other)
    want(f"the lines of {what}", found.count("\n"), wanted.count("\n"))


def first_difference(ours, theirs):
    """The first line, counted from 0, in which two outputs differ."""
    ours, theirs = ours.split("\n"), theirs.split("\n")
    return next((k for k, pair in enumerate(zip(ours, theirs)) if pair[0] != pair[1]), min(len(ours), len(theirs)))


class Tally:
    """How many cases were as wanted, and how many weren't."""

    def __init__(self):
        self.passed = self.failed = 0

    def note(self, is_well, told=None):
        """Counts a case, and tells of one that isn't as wanted, if there is something to tell."""
        self.passed += bool(is_well)
        self.failed += not is_well
        if not is_well and told:
            print(told)
        return is_well

    def compare(self, name, found, wanted):
        return self.note(found == wanted, f"{name}: found {found!r}, wanted {wanted!r}")

    def carry_out(self, name, check, *given):
        """A check that raises where something isn't as wanted."""
        try:
            check(*given)
            self.note(True)
        except (Differs, LookupError, ValueError, OSError, SyntaxError, subprocess.TimeoutExpired) as fault:
            self.note(False, f"{name}: {type(fault).__name__}: {fault}")

    def want_reached(self, cases, reached):
        """Each case that no run reached is a failure; answers how often each was."""
        for case in cases:
            if not reached[case]:
                self.note(False, f"no run reached the case: {case}")
        return ", ".join(f"{case} {reached[case]}" for case in cases)

    def end(self):
        """The last line, and the exit status."""
        print(f"{self.passed} passed, {self.failed} failed")
        return 1 if self.failed else 0


def carried_out(checks):
    """Of rows of a name, a check and what it is given."""
    tally = Tally()
    for row in checks:
        tally.carry_out(*row)
    return tally


def compared(parts, *given):
    """Of parts that are given a folder too, and yield names, what was found and what was wanted."""
    tally = Tally()
    with tempfile.TemporaryDirectory() as folder:
        for part in parts:

            def whole(part=part):
                for row in part(*given, folder):
                    tally.compare(*row)

            try:
                whole()
            except (OSError, ValueError, LookupError, SyntaxError) as fault:
                tally.note(False, f"{part.__name__}: {type(fault).__name__}: {fault}")
    return tally.end()


# Running.

# Every process that was started beside another one.
CHILDREN = []


def started(words, given=None, **streams):
    """A process, which has this text on its standard input where one is given."""
    child = subprocess.Popen(words, **({} if given is None else {"stdin": subprocess.PIPE}), **streams)
    CHILDREN.append(child)
    if given is not None:
        child.stdin.write(given if isinstance(given, bytes) or child.text_mode else given.encode())
        child.stdin.close()
        # So that nothing is written there any more when its end is waited for.
        child.stdin = None
    return child


def ended(words, text=b"", **streams):
    """Status, standard output and standard error of a run over a text, in bytes, or in text where that is one."""
    given = {} if "stdin" in streams else {"input": text}
    streams = {"stdout": subprocess.PIPE, "stderr": subprocess.PIPE, "timeout": LONGEST, "text": isinstance(text, str), **streams}
    done = subprocess.run(words, check=False, **given, **streams)
    return done.returncode, done.stdout, done.stderr


def of_tool(tool, words, text=b""):
    """The same of a tool, whose output is in bytes; it may run the program, which may take a while."""
    status, output, error = ended([sys.executable, tool, *words], text, timeout=10 * LONGEST)
    return status, output, error.decode()


def answer(program, words, text):
    """Status, output, and the line that is told to be at fault; under statuses 0 and 2 what stands on standard error, if anything."""
    status, output, error = ended([program, *words], text)
    output, error = output.decode("latin-1"), error.decode("latin-1")
    named = re.search(r"line ([0-9]+)", error) if status == 8 else None
    return status, output, int(named[1]) if named else (error or None) if status in (0, 2) else None


def shortened(text, differs, goes_on):
    """The text without the lines that aren't needed for a difference, for as long as it goes on."""
    lines = text.splitlines(keepends=True)
    size = max(1, len(lines) // 2)
    while size and goes_on():
        at = 0
        while at < len(lines) and goes_on():
            less = lines[:at] + lines[at + size :]
            if differs(b"".join(less)):
                lines = less
            else:
                at += size
        size //= 2
    return b"".join(lines)


def at_most(runs):
    """Whether there are runs left, each time that it is asked."""
    left = iter(range(runs))
    return lambda: next(left, None) is not None


def show(what, text, wanted, found):
    """A text of which a program told another answer, and where its output differs."""
    shown = text.decode("latin-1")
    print(f"{what}:\n{shown if len(shown) < 4000 else shown[:2000] + '..' + shown[-1000:]}")
    print(f"wanted status {wanted[0]}, line {wanted[2]}; told status {found[0]}, line {found[2]}")
    at = first_difference(wanted[1], found[1])
    ours, theirs = (output.split("\n")[at : at + 1] for output in (wanted[1], found[1]))
    print(f"line {at + 1} of the output:\n  wanted {''.join(ours)}\n  told   {''.join(theirs)}")


# The network.


def free_ports(count):
    """Ports that nobody holds now."""
    held = [socket.socket(socket.AF_INET, socket.SOCK_DGRAM) for _ in range(count)]
    try:
        for gate in held:
            gate.bind(("127.0.0.1", 0))
        return [gate.getsockname()[1] for gate in held]
    finally:
        for gate in held:
            gate.close()


def listener():
    """A socket at a port that the system picks."""
    ear = socket.socket(socket.AF_INET, socket.SOCK_DGRAM)
    ear.bind(("127.0.0.1", 0))
    ear.settimeout(PATIENCE)
    return ear


def come(ear):
    """All datagrams that have come to a socket, each with where it came from."""
    found = []
    ear.setblocking(False)
    while True:
        try:
            found.append(ear.recvfrom(513))
        except BlockingIOError:
            return found


def reason_to_refuse():
    """Why the system refuses a broadcast here."""
    with socket.socket(socket.AF_INET, socket.SOCK_DGRAM) as gate:
        gate.bind(("127.0.0.1", 0))
        try:
            gate.sendto(b"-", ("255.255.255.255", 20808))
        except OSError as error:
            return f"{os.strerror(error.errno)} (os error {error.errno})"
    return "nothing"


# Being a command.


def begin(main, about, *, programs=1, has_seed=False):
    """Runs a check over the programs that its words name, and a seed, 1 where none is given; ends what it has started, and then ends."""
    words = sys.argv[1:]
    if not programs <= len(words) <= programs + has_seed:
        print(about, file=sys.stderr)
        sys.exit(2)
    seed = [int(words[programs]) if len(words) > programs else 1] if has_seed else []
    try:
        sys.exit(main(*map(os.path.abspath, words[:programs]), *seed))
    finally:
        for child in CHILDREN:
            if child.poll() is None:
                child.kill()
                child.wait()
