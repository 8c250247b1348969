#!/usr/bin/env python3
"""Runs the script `jorazhil` in a copy that isn't built: checks/script.py [PROGRAM].

Help and words at fault have to be answered without rt: a stand-in for it is on the PATH, which notes each of its calls and fails. Each
run's exit status is compared with what is written here, and both of its texts. Other stand-ins keep proofs, as `rt help` says, and let
`rt ci` pass, fail or take a while. So it is seen what a first build is made of, by which calls, how far it is told to be, and that nothing
is left of one that is ended. Then tries without proof, the other programs, the tools, and a chain of links to the script.
Where PROGRAM is given, the words that the script lists have to begin with those that the program tells.
The last line is 'N passed, N failed'.
"""
import os
import pty
import shutil
import signal
import subprocess
import sys
import tempfile
import time

sys.dont_write_bytecode = True
import common  # noqa: E402
from common import HERE, read, started, write  # noqa: E402

PROGRAMS = {
    "replay": ["Usage: jorazhil replay < SCRIPT", "1,073,741,824 bytes", "500000 is 120 beats a minute"],
    "decode": ["Usage: jorazhil decode < DATAGRAMS", "16,777,216 bytes"],
    "filter": ["Usage: jorazhil filter < PAIRS", "last 512 pairs", "16,777,216 bytes"],
    "midi": ["Usage: jorazhil midi <LENGTH> <BLOCKS> < SCRIPT", "from 1 to 1000000", "from 0 to 524288", "1,073,741,824 bytes"],
    "load": ["Usage: jorazhil load <SEED> <COUNT>", "from 1 to 524288"],
    "live": [
        "Usage: jorazhil live [OPTIONS] < SCRIPT",
        *("--events <N>", "--blocks <N>", "--quantum <N>", "--group <N>", "--record"),
        "2 hours 55 minutes",
    ],
    "control": [
        "Usage: jorazhil control [OPTIONS] <ENDPOINT> < SCRIPT",
        *("<ENDPOINT>", "--events <N>", "--quantum <N>", "--group <N>"),
        "without a password",
        "jorazhil client",
    ],
    "drums": ["Usage: jorazhil drums < PATTERN", "<BLOCKS>", "<TEMPO>", "<LOCAL>", "from 60060 to 3000000", "examples/drums/four.pattern"],
    "midi-out": [
        "Usage: jorazhil midi-out [OPTIONS] <SECONDS> <MPB> <LOCAL> [TO]..",
        *("from 1 to 86400", "from 60060 to 3000000", "up to 32", "--quantum <N>", "--group <N>"),
        "jorazhil midi-file --raw",
    ],
    "serve": [
        "Usage: jorazhil serve [OPTIONS] <ENDPOINT>",
        *("--gate <ENDPOINT>", "--to <ENDPOINT>", "--script <FILE>", "--bpm <X>", "from 60060 to 3000000", "--secret <FILE>"),
        *("--hours <H>", "--end-allowed", "--until-input-ends", "docs/SERVER.md"),
    ],
}
TOOLS = {
    "site": ["usage: jorazhil site --here PLACE", "--there PLACE", "--hours HOURS"],
    "client": ["usage: jorazhil client [", "--watch", "tempo BPM"],
    "session": ["usage: jorazhil session [", "--svg FILE"],
    "filter-plot": ["usage: jorazhil filter-plot [", "--svg FILE"],
    "midi-file": ["usage: jorazhil midi-file ["],
}
WORDS = {**PROGRAMS, **TOOLS}
FORMS = ["Usage: jorazhil <COMMAND>", *(f"\n  jorazhil {name} " for name in WORDS)]
GENERAL = [*FORMS, "jorazhil help WORD", "JORAZHIL_TRY=1", "Exit status", "\n  125  "]

# The words, the status, what standard output has, and what standard error has; an empty list is no text at all.
RUNS = [
    ([], 2, [], ["jorazhil: no command was given\n", *FORMS]),
    *(([word], 2, [], [f'jorazhil: "{word}" is no command\n', *FORMS]) for word in ("", "listen", "rep", "Replay", "decoed", "liev", "filters")),
    *(([word], 2, [], [f'jorazhil: "{word}" is no command\n', *FORMS]) for word in ("replay decode", "--bogus", "*", "$(id)", "x]", "help/live")),
    *(([word], 2, [], [f'jorazhil: "{word}" is no command\n', *FORMS]) for word in ("session.py", "drum_machine", "midi_out", "usage", "beside")),
    (["lod", "7", "5"], 2, [], ['jorazhil: "lod" is no command\n', *FORMS]),
    (["controls", "127.0.0.1:1"], 2, [], ['jorazhil: "controls" is no command\n', *FORMS]),
    (["MIDI", "1", "1"], 2, [], ['jorazhil: "MIDI" is no command\n', *FORMS]),
    (["help", "lives"], 2, [], ['jorazhil: "lives" is no command\n', *FORMS]),
    (["help", ""], 2, [], ['jorazhil: "" is no command\n', *FORMS]),
    *(([word], 0, GENERAL, []) for word in ("--help", "-h", "help")),
    (["live", "--blocks", "5", "--help"], 0, WORDS["live"], []),
    (["midi", "20000", "50", "--help"], 0, WORDS["midi"], []),
    (["control", "127.0.0.1:1", "--help"], 0, WORDS["control"], []),
    (["drums", "50", "-h"], 0, WORDS["drums"], []),
    (["client", "127.0.0.1:1", "-h"], 0, WORDS["client"], []),
    *(([*before, name, *behind], 0, texts, []) for name, texts in WORDS.items() for before, behind in ((["help"], []), ([], ["--help"]), ([], ["-h"]))),
]


def differs(status, out, error, run):
    """What is not as wanted of a run; nothing where all is."""
    if run[0] != status:
        return f"status {run[0]} in place of {status}, and told {run[2][-300:]!r}"
    for name, wanted, got in (("output", out, run[1]), ("error", error, run[2])):
        if not wanted and got:
            return f"standard {name} has a text: {got[:200]!r}"
        for text in wanted:
            if text not in got:
                return f"standard {name} lacks {text!r}"
        if any(len(line) > 160 for line in got.splitlines()):
            return f"standard {name} has a line of more than 160 characters"
    return None


# Stand-ins for `rt`, by what they do once a call is noted.
FAILING = "exit 1\n"
# `rt ci` has a program built that tells its words, and notes what lies in the folder where it works.
PASSING = """case $1 in
  help) echo 'usage: rt ci [--anew]' ;;
  doc) echo "$KIT/START-HERE.md" ;;
  version) echo a-kit ;;
  ci)
    ls . crates crates/* >"$NOTES"
    cd crates/jorazhil 2>/dev/null || cd crates/drum_machine
    mkdir out
    printf '#!/bin/sh\\necho ran "$@"\\n' >"out/${PWD##*/}"
    chmod +x "out/${PWD##*/}"
    echo 'rt: lk_base is kept: an earlier run on this machine proved the same files over the same libraries'
    echo '1 passed, 0 failed'
    ;;
  *) exit 1 ;;
esac
"""
# It is told of one crate at once, and of another one four seconds later, and then of none for half a minute.
SLOW = PASSING.replace("  ci)\n", "  ci)\n    echo 'rt: lk_base proved'; sleep 4; echo 'rt: lk_outside proved'; sleep 36\n")
REFUSING = PASSING.replace("  ci)\n", "  ci)\n    echo 'src/main.rt:7:1: error: it is not proved'; echo 'rt: jorazhil NOT PROVED'; exec sleep 50\n")
# At work, with a process of its own, until it is ended.
ENDLESS = PASSING.replace("  ci)\n", '  ci)\n    sleep 100 & echo "$$ $!" >"$NOTES.new"; mv "$NOTES.new" "$NOTES"; wait\n')
# Nothing can be kept beside a kit that lies nowhere, so `rt run` builds the program where it is.
KEEPING_NOTHING = PASSING.replace("$KIT", "/nowhere/kit").replace("  ci)\n", "  all) echo logic=proved ;;\n  run)\n    cat >\"$NOTES\"; set -- run; cd ../..\n").replace(
    "    ls . crates crates/* >\"$NOTES\"\n", ""
)
# A try ends as the file TRY says.
TRYING = """echo "tried $*"; echo 'interpreter: no answer' >&2; echo 'jorazhil: the program says so' >&2
cat "$NOTES" >&2; exit 3
"""


def linked(name):
    """How many crates a program is made of."""
    lines = [line.split("#")[0].split(":") for line in read(HERE, "crates.txt").splitlines() if ":" in line.split("#")[0]]
    uses = {one: below.split() for one, below in lines}
    found, todo = set(), [name]
    while todo:
        one = todo.pop()
        if one in uses and one not in found:
            found.add(one)
            todo += uses[one]
    return len(found)


def is_alive(pid):
    try:
        return read("/proc", pid, "stat").rsplit(")", 1)[1].split()[0] != "Z"
    except OSError:
        return False


class Copy:
    """A copy of what the script needs, without a program, and a PATH on which `rt` is a stand-in."""

    def __init__(self, folder, does=FAILING):
        os.makedirs(folder, exist_ok=True)
        self.calls, self.notes, self.room = (os.path.join(folder, name) for name in ("calls", "notes", "room"))
        self.top = os.path.join(folder, "copy")
        self.script = os.path.join(self.top, "jorazhil")
        # The programs' folders, in which the script would have them built.
        for name in ("jorazhil/src", "jorazhil/must-fail", "daemon_tests/src", "drum_machine/src", "midi_clock/src", "session_server/src"):
            os.makedirs(os.path.join(self.top, "crates", name))
        for name in ("jorazhil", ".ci", "crates.txt", "HANDLES", "help", "tools", "examples", "crates/jorazhil/args", "crates/jorazhil/stdin"):
            place, to = os.path.join(HERE, name), os.path.join(self.top, name)
            (shutil.copytree if os.path.isdir(place) else shutil.copy)(place, to)
        kit = os.path.join(folder, "kit")
        os.makedirs(kit)
        os.mkdir(self.room)
        rt = write(kit, "rt", f'#!/bin/sh\nKIT={kit} NOTES={self.notes}\necho "$@" >>"{self.calls}"\n{does}')
        os.chmod(rt, 0o755)
        self.environment = {**os.environ, "PATH": f"{kit}:{os.environ['PATH']}", "TMPDIR": self.room}

    def run(self, words, script=None, **streams):
        """Status and both texts of a run, whose input is empty."""
        return common.ended([script or self.script, *words], "", **{"env": self.environment, **streams})

    def begun(self, words):
        # What ignores Ctrl-C, as a background job of a shell, hands that on; a terminal doesn't.
        signal.signal(signal.SIGINT, signal.default_int_handler)
        return started([self.script, *words], "", stdout=subprocess.PIPE, stderr=subprocess.PIPE, text=True, env=self.environment, start_new_session=True)

    def at_a_terminal(self, words):
        """What a run says on standard error whose input is a terminal; nothing is known where the system has none to give."""
        try:
            ours, theirs = pty.openpty()
        except OSError:
            return None
        try:
            return self.run(words, stdin=theirs)[2]
        finally:
            os.close(ours)
            os.close(theirs)

    def was_asked(self):
        """With which words `rt` was called since the last question, call by call; nothing where it wasn't."""
        if not os.path.exists(self.calls):
            return None
        calls = read(self.calls).splitlines()
        os.remove(self.calls)
        return calls


def answers(folder):
    """What is answered without rt."""
    copy = Copy(os.path.join(folder, "answers"))
    for words, status, out, error in RUNS:
        why, asked = differs(status, out, error, copy.run(words)), copy.was_asked()
        yield f"jorazhil {' '.join(words)}", why or (asked and f"rt was called, with {asked[0]!r}")
    for words in (["--version"], ["-V"]):
        why = differs(0, ["jorazhil, "], ["tells no version"], copy.run(words))
        yield f"jorazhil {words[0]}, where rt tells no version", why
    for words in (["--help"], ["help", "live"], ["--version"]):
        with open("/dev/full", "w", encoding="utf-8") as full:
            status = copy.run(words, stdout=full)[0]
        yield f"jorazhil {' '.join(words)} > /dev/full", None if status == 7 else f"status {status} in place of 7"
    copy.was_asked()
    status, asked = copy.run(["replay"])[0], copy.was_asked()
    yield "jorazhil replay, which has to be built", None if status == 125 and asked else f"status {status}, rt {asked!r}"
    serve = ["serve", "127.0.0.1:1"]
    for words in (["replay"], ["decode"], ["midi", "1", "1"], ["live", "--blocks", "0"], ["control", "127.0.0.1:1"], ["drums"], [*serve, "--until-input-ends"]):
        error = copy.at_a_terminal(words)
        if error is None:
            print("skipped: no terminal can be had")
            break
        yield f"jorazhil {' '.join(words)} at a terminal", None if f"{words[0]} reads its input from this terminal" in error else repr(error)
    for words in (["load", "7", "5"], ["midi-out", "1", "500000", "127.0.0.1:1"], serve):
        error = copy.at_a_terminal(words)
        yield f"jorazhil {' '.join(words)} at a terminal", repr(error) if error and "terminal" in error else None
    links = [os.path.join(folder, name) for name in ("first", "second")]
    os.symlink("second", links[0])
    os.symlink(copy.script, links[1])
    yield "help by a chain of links", differs(0, GENERAL, [], copy.run(["help"], links[0]))
    # What both need of the system, and no more.
    few = os.path.join(folder, "few")
    os.mkdir(few)
    for name in ("bash", "dirname", "readlink", "cat", "awk", "sed", "sort", "find", "grep", "xargs", "cksum", "ls"):
        os.symlink(shutil.which(name), os.path.join(few, name))
    alone = {**copy.environment, "PATH": few}
    yield "help without python3 and rt", differs(0, GENERAL, [], copy.run(["help"], env=alone))
    yield "a tool without python3", differs(125, [], ["jorazhil: python3 runs tools/session.py, and isn't on the PATH\n"], copy.run(["session"], env=alone))
    yield "replay without rt", differs(125, [], ["isn't built of these sources, and rt, "], copy.run(["replay"], env=alone))


def tools(folder):
    """A tool is given its own words and input, and its status is handed on."""
    copy, words = Copy(os.path.join(folder, "tools")), ["midi-file", "examples/midi.clock"]
    direct = common.ended([sys.executable, "tools/midi_file.py", words[1]], cwd=HERE)
    yield "a tool's output", None if common.ended([copy.script, *words], cwd=HERE, env=copy.environment) == direct and direct[1] else "it is another"
    yield "a tool at fault", differs(2, [], ["midi_file: line 1: "], copy.run(["midi-file"]))
    yield "rt beside tools", None if copy.was_asked() is None else "it was called"


def first_builds(folder):
    """What isn't as wanted of first builds by a kit that keeps proofs, by what each shows; nothing where all is."""
    copy = Copy(os.path.join(folder, "passing"), PASSING)
    tests = [line.split(":")[0] for line in read(HERE, "crates.txt").splitlines() if "_tests:" in line]
    for name, words, told in (("jorazhil", ["replay"], "ran replay\n"), ("drum_machine", ["drums", "5", "x"], "ran 5 x\n")):
        what = f"jorazhil {' '.join(words)}"
        yield f"{what}, where rt ci passes", differs(0, [told], ["it is proved first", f": {linked(name)} crates"], copy.run(words))
        calls = [call for call in copy.was_asked() or [] if call.split()[0] not in ("help", "doc", "version")]
        yield f"the runs of rt for {what}", None if calls == ["ci"] else f"rt was called, with {calls!r}"
        seen = read(copy.notes).split()
        wrong = [other for other in ("must-fail", *({"jorazhil", "drum_machine", "first_node"} - {name}), "link_world", *tests) if other in seen]
        lacking = [other for other in ("HANDLES", "crates.txt", "lk_base", "link_node", name, "src") if other not in seen]
        yield f"the copy that is proved for {what}", f"it has {wrong} and lacks {lacking}" if wrong or lacking else None
        why, asked = differs(0, [told], [], copy.run(words)), copy.was_asked() or []
        yield f"{what}, which is built", why or ("rt was called" if "ci" in asked else None)
        yield f"what is left of the build of {what}", "something" if os.listdir(copy.room) else None
    # With another source, or another rt that tells another version, it is built anew.
    write(copy.top, "crates/jorazhil/src/main.rt", "// Changed.\n")
    yield "jorazhil replay of a changed source", differs(0, ["ran replay\n"], ["it is proved first"], copy.run(["replay"]))
    rt = os.path.join(folder, "passing", "kit", "rt")
    write(os.path.dirname(rt), "rt", read(rt) + "# The same version.\n")
    yield "jorazhil replay by another rt of one version", differs(0, ["ran replay\n"], [], copy.run(["replay"]))
    write(os.path.dirname(rt), "rt", read(rt).replace("a-kit", "another-kit"))
    yield "jorazhil replay by another version of rt", differs(0, ["ran replay\n"], ["it is proved first"], copy.run(["replay"]))
    copy, begun = Copy(os.path.join(folder, "refusing"), REFUSING), time.monotonic()
    told = ["it could not be built; rt says what is wrong", "src/main.rt:7:1: error"]
    yield "jorazhil replay, where rt ci fails", differs(125, [], told, copy.run(["replay"]))
    took = time.monotonic() - begun
    yield "how soon that is told", None if took < 20 else f"after {took} seconds"
    copy = Copy(os.path.join(folder, "nothing"), KEEPING_NOTHING)
    why, asked = differs(0, ["ran replay\n"], ["it is proved first"], copy.run(["replay"])), copy.was_asked() or []
    as_wanted = "ci" not in asked and "all check" in asked and asked[-2:][0] == "run -- replay"
    yield "jorazhil replay, where nothing can be kept", why or (None if as_wanted else f"rt was called, with {asked!r}")
    yield "the input of that run", None if read(copy.notes) == read(HERE, "crates", "jorazhil", "stdin") else "it isn't the stored one"


def ended_builds(folder):
    """Ctrl-C, which all processes at the terminal get, and other ends: nothing is left at work, and nothing on the disk."""
    for number in (signal.SIGINT, signal.SIGTERM, signal.SIGHUP):
        copy = Copy(os.path.join(folder, number.name), ENDLESS)
        run = copy.begun(["replay"])
        end = time.monotonic() + common.PATIENCE
        while not os.path.exists(copy.notes) and time.monotonic() < end:
            time.sleep(0.05)
        at_work = read(copy.notes).split()
        (os.killpg if number == signal.SIGINT else os.kill)(run.pid, number)
        out, _ = run.communicate(timeout=common.PATIENCE)
        while any(map(is_alive, at_work)) and time.monotonic() < end:
            time.sleep(0.05)
        found = (run.returncode in (-number, 128 + number), out, [pid for pid in at_work if is_alive(pid)], os.listdir(copy.room))
        yield f"a build that is ended by {number.name}", None if found == (True, "", [], []) and len(at_work) == 2 else f"{run.returncode}, {found}"
        built = os.path.exists(os.path.join(copy.top, "crates", "jorazhil", "out"))
        yield f"what {number.name} leaves in the clone", "a folder out/" if built else None


def tries(folder):
    copy = Copy(os.path.join(folder, "tries"), TRYING)
    env, says = {**copy.environment, "JORAZHIL_TRY": "1"}, "jorazhil: the program says so\n"
    for words in (["replay"], ["drums", "5"], ["midi-out", "5", "6"], ["serve", "5"]):
        told = f"tried try -- {' '.join(words[words[0] != 'replay' :])}\n"
        write(*os.path.split(copy.notes), "run=ended status=3\n")
        status, out, error = copy.run(words, env=env)
        yield f"a try of {words}", None if (status, out, error.split("\n", 1)[1:]) == (3, told, [says]) else f"{status}, {out!r}, {error!r}"
    for line, told in (
        ("checked: no-answer: the time limit", "jorazhil: the try was stopped after 60 seconds; without JORAZHIL_TRY "),
        ("checked: no-answer: 1048577 bytes to standard output", "jorazhil: the try was stopped at 1 MiB of output; without JORAZHIL_TRY "),
        ("rt: something else", "jorazhil: the try did not come to its end; the last lines of rt are:\n"),
    ):
        write(*os.path.split(copy.notes), line + "\n")
        yield f"a try that tells {line!r}", differs(125, ["tried"], [told], copy.run(["replay"], env=env))


def told_how_far(at_work):
    """What is told by a build that takes more than half a minute."""
    out, error = at_work.communicate(timeout=common.LONGEST)
    far = [line for line in error.splitlines() if "crates are proved" in line]
    of = f"of {linked('jorazhil')} crates are proved, after"
    wanted = [f"jorazhil: {count} {of} 0 min" for count in (1, 2, 2, 3)]
    yield "a build that takes a while", differs(0, ["ran replay\n"], ["it is proved first"], (at_work.returncode, out, error))
    yield "how far it is told to be", None if far in (wanted, wanted[:3]) else f"found {far}, wanted {wanted}"


def main(*programs):
    tally = common.Tally()
    with tempfile.TemporaryDirectory() as folder:
        at_work = Copy(os.path.join(folder, "slow"), SLOW).begun(["replay"])
        parts = [(part, folder) for part in (answers, tools, first_builds, ended_builds, tries)]
        for part, given in [*parts, (told_how_far, at_work)]:
            for what, why in part(given):
                tally.note(not why, f"failed: {what}: {why}")
        for program in programs:
            told = [common.ended([words], "")[2] for words in (os.path.join(folder, "answers", "copy", "jorazhil"), program)]
            tally.note(told[0].startswith(told[1]) and told[1], f"the words that the script lists begin otherwise than the program's {told[1]!r}")
    return tally.end()


if __name__ == "__main__":
    common.begin(main, __doc__, programs=len(sys.argv[1:2]))
