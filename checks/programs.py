#!/usr/bin/env python3
"""Compiles the programs that the scripts of bench/ measure with, and proves nothing: checks/programs.py [NAME ..].

It lays those of bench/programs/ (or those named alone) into a temporary folder, as modules of one crate in which each `main` is a test.
They have to be as `rt fmt` lays them out, their proofs too. Then `rattle check --only ''` of the kit compiles them over the sources of the
crates: names and types have to be resolved. What clauses and proofs say is only laid out, and read when a script proves its program.
Nothing has to be built before, and `rt` itself would build what lacks. All of them together take some two minutes of a processor, and one
takes 10 to 35 seconds. The last line is 'N programs looked at, N failed', and the status is 1 where one failed.
"""
import re
import shutil
import subprocess
import sys
import tempfile
from pathlib import Path

HERE = Path(__file__).resolve().parent.parent
PROGRAMS = HERE / "bench" / "programs"


def uses_in(path):
    """What each crate that the file lists stands on."""
    lines = [line.split("#")[0] for line in path.read_text(encoding="utf-8").splitlines()]
    return {line.split(":")[0].split()[0]: line.split(":")[1].split() for line in lines if ":" in line}


def below(names, uses):
    """These crates and those below them, each once, the lowest first."""
    found = {}

    def visit(name):
        if name not in found:
            for use in uses.get(name, []):
                visit(use)
            found[name] = uses.get(name)

    for name in names:
        visit(name)
    return found


def lay(names, top):
    (top / "src").mkdir()
    (top / "src" / "lib.rt").write_text("//! The programs.\n#![tactic(auto)]\n\n" + "".join(f"mod {name};\n" for name in names), encoding="utf-8")
    for name in names:
        text = (PROGRAMS / name / "main.rattle").read_text(encoding="utf-8")
        (top / "src" / f"{name}.rt").write_text(text, encoding="utf-8")
        for file in (PROGRAMS / name).rglob("*.answers"):
            to = top / "proofs" / name / file.relative_to(PROGRAMS / name).with_suffix(".antt")
            to.parent.mkdir(parents=True, exist_ok=True)
            to.write_bytes(file.read_bytes())


def run(words, top):
    done = subprocess.run(words, cwd=top, stdin=subprocess.DEVNULL, stdout=subprocess.PIPE, stderr=subprocess.STDOUT, text=True)
    return done.returncode, done.stdout


def compiling(names, kit):
    """The words that compile them."""
    crates = below([use for name in names for use in uses_in(PROGRAMS / "uses.txt")[f"bench_{name}"]], uses_in(HERE / "crates.txt"))
    own = {name: uses for name, uses in crates.items() if uses is not None}
    words = [f"{kit}/bin/rattle", "check", "--crate-name", "programs", "src/lib.rt", "--test", "--jobs", "1", "--only", ""]
    words += ["--antt-project", f"{kit}/rattle/logic/antt-project.json", "--logic-built", f"{kit}/logic_built"]
    words += ["--links", "programs=", "-L", f"dependency={kit}/rlibs"]
    for name in sorted({"core", "std", *crates} - {*own}):
        words += ["--extern", f"{name}={kit}/rlibs/{name}.rlib"]
    for name, uses in own.items():
        words += ["--lib", f"{name}:{','.join(['core', 'std', *uses])}={HERE}/crates/{name}/src/lib.rt"]
    return words


def main(names):
    faults = []
    with tempfile.TemporaryDirectory() as folder:
        top = Path(folder)
        lay(names, top)
        status, told = run(["rt", "fmt"], top)
        faults += [f"{file}: it is not as rt fmt lays it out" for file in re.findall(r"^rt: formatted (.*)$", told, re.M)] if status == 0 else [told]
        # They speak of crates with other names.
        shutil.rmtree(top / "proofs", ignore_errors=True)
        for name in names:
            path = top / "src" / f"{name}.rt"
            text = path.read_text(encoding="utf-8")
            # Each line keeps its number.
            path.write_text(text.replace("#![tactic(auto)]", "").replace("\nfn main(", "\n#[test] fn main("), encoding="utf-8")
        kit = Path(run(["rt", "doc"], top)[1].strip()).parent
        status, told = run(compiling(names, kit), top)
        if status != 0:
            faults += re.findall(r"^.*error.*$", told, re.M) or [told]
    for fault in faults:
        print(fault)
    failed = {name for name in names for fault in faults if re.search(rf"(src|proofs)/{name}[./]", fault)}
    print(f"{len(names)} programs looked at, {len(failed) or len(faults)} failed")
    return 1 if faults or not names else 0


if __name__ == "__main__":
    known = sorted(path.parent.name for path in PROGRAMS.glob("*/main.rattle"))
    if not {*sys.argv[1:]} <= {*known}:
        print(__doc__, file=sys.stderr)
        sys.exit(2)
    sys.exit(main(sys.argv[1:] or known))
