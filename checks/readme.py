#!/usr/bin/env python3
"""Runs the commands of README.md as they stand there, at the top of the clone: checks/readme.py.

A block of commands is a fenced one whose first line begins with `./` or `tools/`. It is run as one script of bash, without its line of
`rt ci`, the gate that this check is a part of; what stands behind two blanks and a `#` is a comment. Each has to end with status 0 within a
minute. Where a fenced block follows that begins with a digit or a bracket, it is what the commands print: each of its lines is looked for
behind the one before; two dots stand for anything, a time is any, and so is an id in round brackets or behind `the session of`.
The last line is 'N blocks run, N failed', and the status is 1 where any failed or there are fewer than two.
"""
import os
import re
import signal
import subprocess
import sys
from contextlib import suppress

sys.dont_write_bytecode = True
from common import HERE, read, started  # noqa: E402

MOST = 60


def blocks(*page):
    """The lines of each fenced block of a page, with the number of its first line."""
    lines, block, start = read(HERE, *page).split("\n"), None, 0
    for number, line in enumerate(lines, 1):
        if not line.startswith("```"):
            if block is not None:
                block.append(line)
        elif block is None:
            block, start = [], number
        else:
            yield start, block
            block = None


def is_commands(block):
    return bool(block) and block[0].startswith(("./", "tools/"))


# What may be another in each run, and what it has to look like: left out, a time, and an id.
VARYING = [(r"\.\.(?!\.)", ".*"), (r"\d+:\d\d\.\d{3}", r"\d+:\d\d\.\d{3}"), (r"\S{8}(?= opens alone)|(?<=the session of )\S{8}", r"\S{8}")]


def pattern_of(line):
    """What a line of the page stands for: an expression."""
    parts, at = [], 0
    for found in re.finditer("|".join(f"({place})" for place, _ in VARYING), line):
        parts += [re.escape(line[at : found.start()]), VARYING[found.lastindex - 1][1]]
        at = found.end()
    return re.compile("".join(parts) + re.escape(line[at:]))


def run(block, cwd=HERE, env=None):
    """Runs the commands; answers what they printed, or what is wrong. Nothing that they started goes on behind them."""
    kept = [line for line in block if not line.startswith("rt ci")]
    script = "set -e -o pipefail\n" + "\n".join(kept) + "\nwait\n"
    pipe = subprocess.PIPE
    child = started(["bash", "-c", script], "", cwd=cwd, env=env, stdout=pipe, stderr=pipe, text=True, start_new_session=True)
    try:
        output, error = child.communicate(timeout=MOST)
    except subprocess.TimeoutExpired:
        return None, f"it didn't end within {MOST} seconds"
    finally:
        with suppress(ProcessLookupError):
            os.killpg(child.pid, signal.SIGTERM)
    if child.returncode != 0:
        return None, f"it ended with status {child.returncode}: {error.strip()[-300:]}"
    return output, None


def lacking(wanted, text):
    """The first line that isn't printed behind those before it, if there is one."""
    there = iter(text.split("\n"))
    for line in wanted:
        pattern = pattern_of(line)
        if not any(pattern.fullmatch(printed) for printed in there):
            return line
    return None


def main():
    found, ran, failed = list(blocks("README.md")), 0, 0
    for k, (number, block) in enumerate(found):
        if not is_commands(block):
            continue
        ran += 1
        text, fault = run(block)
        behind = found[k + 1][1] if k + 1 < len(found) else []
        if fault is None and behind and re.match(r"[\d(\[]", behind[0]):
            line = lacking(behind, text)
            fault = None if line is None else f"it doesn't print {line!r} in its place; it prints\n{text}"
        if fault:
            failed += 1
            print(f"README.md:{number}: {fault}")
    print(f"{ran} blocks run, {failed} failed")
    return 1 if failed or ran < 2 else 0


if __name__ == "__main__":
    sys.exit(main())
