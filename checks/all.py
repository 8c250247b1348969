#!/usr/bin/env python3
"""Runs the repository's own checks, those beside `rt ci`: checks/all.py [quick | program | NAME ..].

`quick` are those that need no program, `program` those of the programs that `rt ci` built; no word means all, and names those of the names.
Each runs whatever the others say. What a check prints comes on standard error, then how long it took; where one fails, a line that begins
with `check:` says so. One whose tool is missing is skipped. The status is 1 where any failed.
"""
import re
import shutil
import subprocess
import sys
import time
from pathlib import Path

sys.dont_write_bytecode = True
from common import HERE, ended  # noqa: E402

TOP = Path(HERE)
PROGRAM, DRUMS, CLOCK, SERVER = (
    str(TOP / "crates" / name / "out" / name) for name in ("jorazhil", "drum_machine", "midi_clock", "session_server")
)
SCRIPTS = ["jorazhil", ".ci/run", ".ci/program", ".ci/build", *sorted(str(path.relative_to(TOP)) for path in TOP.glob("bench/*.sh"))]


def told(*words):
    """What a command writes, without the line feed at its end; None where it isn't there or fails."""
    if not shutil.which(words[0]):
        return None
    status, output, _ = ended(words, "", cwd=TOP)
    return None if status else output.strip()


# Those that are no scripts of their own yield what is wrong.


def handles():
    if (TOP / "HANDLES").read_text() != "Handles allowed: Threads, Wait, Net.\n":
        yield "HANDLES is not the one line that it has to be"


def parse():
    for script in SCRIPTS:
        if subprocess.run(["bash", "-n", script], cwd=TOP).returncode:
            yield f"{script} does not parse"
    for path in sorted(path for folder in ("bench", "checks", "tools") for path in TOP.glob(f"{folder}/*.py")):
        try:
            compile(path.read_bytes(), str(path), "exec")
        except (SyntaxError, ValueError) as fault:
            yield f"{path.relative_to(TOP)} does not parse: {fault}"


def shellcheck():
    words = [name for name in SCRIPTS if name not in (".ci/program", ".ci/build")]
    if shutil.which("shellcheck") and subprocess.run(["shellcheck", "-x", "-S", "warning", *words], cwd=TOP, stdout=sys.stderr).returncode:
        yield "shellcheck has warnings"


def places():
    files = told("git", "ls-files", "*.rt", "*.antt") if shutil.which("git") else None
    stray = [name for name in (files or "").splitlines() if not re.match(r"crates/[^/]+/(src|specs|proofs)/", name)]
    if stray:
        yield f"outside src/, specs/ and proofs/ of a crate: {' '.join(stray)}"


def kit():
    """Another kit than the one that README.md names is no failure."""
    named = re.search("rattle-kit-[^`]*", " ".join((TOP / "README.md").read_text(encoding="utf-8").split()))
    named, now = named and named[0], told("rt", "version")
    if named != now:
        print(f"note: README.md names the kit {named or 'not at all'}, and rt version says {now or 'nothing'}", file=sys.stderr)
    return ()


def examples():
    """Each input of examples/ gives the output that stands beside it."""
    kinds = (("script", ["replay"], "expected"), ("hex", ["decode"], "expected"), ("pairs", ["filter"], "expected"))
    rows = [(path, words, path.with_suffix(f".{to}")) for kind, words, to in kinds for path in sorted(TOP.glob(f"examples/*.{kind}"))]
    rows += [(path.with_suffix(".script"), ["midi", "10000", "1000"], path) for path in sorted(TOP.glob("examples/*.clock"))]
    for path, words, wanted in rows:
        if ended([PROGRAM, *words], path.read_bytes())[1] != (wanted.read_bytes() if wanted.exists() else None):
            yield f"{path.relative_to(TOP)} does not give {wanted.relative_to(TOP)}"


# The names of the checks, each with what it is and, of a script, what is told where it fails.
QUICK = {
    "handles": handles,
    "parse": parse,
    "shellcheck": shellcheck,
    "places": places,
    "kit": kit,
    "prose": (["checks/prose.py"], "a line of prose is longer than 140 characters"),
    "quotes": (["checks/quotes.py"], "code that a page quotes does not stand so in its file"),
    "links": (["checks/links.py"], "a link of a page leads to nothing, or a page of docs/ is not reached from README.md"),
    "rules": (["tools/rules.py", "--check"], "docs/RULES.md is not what tools/rules.py writes"),
}
OF_PROGRAMS = {
    "examples": examples,
    "decode": (["checks/decode.py", PROGRAM], "decode and the plain reading of checks/decode.py differ"),
    "replay": (["checks/replay.py", PROGRAM], "replay and the plain reading of checks/node.py differ"),
    "filter": (["checks/filter.py", PROGRAM], "filter and the plain reading of checks/filter.py differ"),
    "midi": (["checks/midi.py", PROGRAM], "midi and the plain reading of checks/midi.py differ"),
    "load": (["checks/load.py", PROGRAM], "load and the plain reading of checks/load.py differ"),
    "statuses": (["checks/statuses.py", PROGRAM], "an exit status or a text of checks/statuses.py differs"),
    "script": (["checks/script.py", PROGRAM], "the script jorazhil doesn't do by itself what checks/script.py expects"),
    "readme": (["checks/readme.py"], "a command of README.md does not do what is told there"),
    "live": (["checks/live.py", PROGRAM], "two live runs beside each other are not what checks/live.py expects"),
    "clicking": (["checks/clicking.py", PROGRAM], "live runs do not click together as checks/clicking.py expects"),
    "sites": (["checks/sites.py", PROGRAM], "two networks are not one session as checks/sites.py expects"),
    "drums": (["checks/drums.py", PROGRAM, DRUMS], "the drum machine is not what checks/drums.py expects"),
    "midi_clock": (["checks/midi_clock.py", PROGRAM, CLOCK], "the MIDI clock is not what checks/midi_clock.py expects"),
    "control": (["checks/control.py", PROGRAM], "a run under control is not what checks/control.py expects"),
    "serve": (["checks/serve.py", SERVER], "the session server is not what checks/serve.py expects"),
    "session": (["checks/session.py", PROGRAM], "what tools/session.py tells of a recording is not what checks/session.py expects"),
    "filter_tool": (["checks/filter_tool.py", PROGRAM], "what tools/filter.py tells of pairs is not what checks/filter_tool.py expects"),
    "midi_file": (["checks/midi_file.py", PROGRAM], "what tools/midi_file.py makes of MIDI events is not what checks/midi_file.py expects"),
}


def faults_of(what):
    """What is wrong by a check, whose output is handed on as it comes."""
    if callable(what):
        return list(what())
    words, fault = what
    done = subprocess.run([sys.executable, *words], cwd=TOP, stdin=subprocess.DEVNULL, stdout=sys.stderr)
    return [fault] if done.returncode else []


def main(words):
    checks = {**QUICK, **OF_PROGRAMS}
    names = {(): list(checks), ("quick",): list(QUICK), ("program",): list(OF_PROGRAMS)}.get(tuple(words), words)
    if not {*names} <= {*checks}:
        print(f"{__doc__}\nNames: {' '.join(checks)}", file=sys.stderr)
        return 2
    failed, start = [], time.monotonic()
    for name in names:
        begun = time.monotonic()
        faults = faults_of(checks[name])
        print(f"{name}: {time.monotonic() - begun:.1f} s", file=sys.stderr)
        for fault in faults:
            print(f"check: {fault}", file=sys.stderr)
        failed += [name] * bool(faults)
    print(f"{len(names)} checks: {time.monotonic() - start:.0f} s", file=sys.stderr)
    if failed:
        print(f"check: {len(failed)} of {len(names)} checks beside rt ci failed: {', '.join(failed)}", file=sys.stderr)
    return 1 if failed else 0


if __name__ == "__main__":
    sys.exit(main(sys.argv[1:]))
