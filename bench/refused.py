"""PROGRAM FOLDER HERE: the figures of bench/refused.sh, which tells what they are."""
import os
import struct
import subprocess
import sys

from figures import Table, note

program, folder, here = sys.argv[1:]
table, wrong = Table(), 0
RUNS = (
    ("replay", "examples/three-peers.script"),
    ("decode", "examples/every-kind.hex"),
    ("filter", "examples/jitter.pairs"),
    ("load 7 200", None),
    ("live --blocks 3 --record", "examples/live/alone.script"),
)
SECONDS = 60


def ended(words, given, **said):
    """The status and the output of a run."""
    with open(os.devnull if given is None else os.path.join(here, given), "rb") as source:
        done = subprocess.run(
            [program, *words.split()],
            stdin=source,
            stdout=subprocess.PIPE,
            stderr=subprocess.DEVNULL,
            timeout=SECONDS,
            env={**os.environ, "LD_PRELOAD": os.path.join(folder, "refusing.so"), **said},
        )
    return done.returncode, done.stdout


def growths_of(words, given):
    file = os.path.join(folder, "growths")
    if os.path.exists(file):
        os.remove(file)
    found = ended(words, given, TELL_GROWTHS=file)
    with open(file, "rb") as told:
        return struct.unpack("l", told.read())[0], found


for words, given in RUNS:
    name = words.split()[0]
    most, (status, output) = growths_of(words, given)
    if most == 0 or status != 0:
        sys.exit(f"{words}: {most} growths were seen, and status {status}")
    told, unmoved = 0, 0
    for number in range(1, most + 1):
        found, text = ended(words, given, REFUSE_GROWTH=str(number))
        if found == 9 and not text:
            told += 1
        elif found == status and (text == output or (name == "live" and text)):
            unmoved += 1
        else:
            wrong += 1
            note(f"{words}: with growth {number} of {most} refused: status {found}, {len(text)} bytes written")
    table.add(
        f"`{name}`, each growth of its memory refused in turn: ended with status 9 and nothing written; as without",
        f"{told}; {unmoved} of {most}",
        "all",
        told + unmoved == most,
    )
table.show()
sys.exit(1 if wrong else 0)
