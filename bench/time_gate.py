#!/usr/bin/env python3
"""Times a run of the gate, or of another command: bench/time_gate.py [COMMAND WORD ..] runs `.ci/run` where none is given.

It prints one line, a row for the table of docs/GATE.md: the kit, processors, what ran, minutes, the greatest memory of all provers at once,
the commit and how the run ended, which is its own exit status too. What the run says goes to standard error. From nothing means a clean
clone on a machine where no run has kept anything yet, or `rt ci --anew` in place of `.ci/run`.
"""
import os
import subprocess
import sys
import threading
import time
from pathlib import Path

TOP = Path(__file__).resolve().parent.parent


def told(*words):
    done = subprocess.run(words, cwd=TOP, stdin=subprocess.DEVNULL, stdout=subprocess.PIPE, text=True)
    return done.stdout.strip() or "unknown"


def memory_of(pid):
    """The bytes that a prover holds, what several share by parts; 0 of another process, and of one that has ended."""
    try:
        if Path(f"/proc/{pid}/cmdline").read_bytes().split(b"\0")[0].rsplit(b"/", 1)[-1] != b"rattle":
            return 0
        lines = Path(f"/proc/{pid}/smaps_rollup").read_text().splitlines()
        return next(int(line.split()[1]) * 1024 for line in lines if line.startswith("Pss:"))
    except (OSError, IndexError, StopIteration):
        return 0


def watch(over, found):
    """Looks at all provers of this machine every five seconds."""
    while not over.wait(5):
        found.append(sum(map(memory_of, filter(str.isdigit, os.listdir("/proc")))))


def main(words):
    commit, kit = told("git", "describe", "--always", "--exclude", "*", "--dirty"), told("rt", "version").split()[0]
    over, found, begun = threading.Event(), [0], time.monotonic()
    watcher = threading.Thread(target=watch, args=(over, found))
    watcher.start()
    try:
        status = subprocess.run(words or [str(TOP / ".ci" / "run")], cwd=TOP, stdin=subprocess.DEVNULL, stdout=sys.stderr).returncode
    finally:
        over.set()
        watcher.join()
    minutes, most = round((time.monotonic() - begun) / 60), max(found) / 1e9
    what = "`.ci/run`" if not words else f"`{' '.join(words)}`"
    print(f"| `{kit}` | {len(os.sched_getaffinity(0))} | {what} | {minutes} | {most:.1f} GB | {commit} | {'passed' if status == 0 else f'status {status}'} |")
    return status


if __name__ == "__main__":
    sys.exit(main(sys.argv[1:]))
