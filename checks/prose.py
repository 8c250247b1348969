#!/usr/bin/env python3
"""Looks for lines of prose that are longer than 140 characters: checks/prose.py. It needs no program.

Prose is, in docs/*.md, README.md and examples/*.md, all that stands outside tables and fenced blocks; in the sources, specs and proofs of
the crates and of the programs in bench/ each line that begins with `//` or `--`; in scripts of bash each that begins with `#`; in those of
Python each comment on a line of its own, and the docstrings. Code may be longer, and so may a comment behind code.
The last line is 'N lines looked at, N too long', and the status 1 where one is.
"""
import ast
import io
import sys
import tokenize
from pathlib import Path

LIMIT = 140
HERE = Path(__file__).resolve().parent.parent


def of_markdown(text):
    """Lines outside tables and fenced blocks."""
    fenced = False
    for number, line in enumerate(text.split("\n"), 1):
        start = line.lstrip()
        if start.startswith("```"):
            fenced = not fenced
        elif start and not fenced and not start.startswith("|"):
            yield number, line


def beginning(*marks):
    """Lines that begin with one of these marks."""

    def of_text(text):
        for number, line in enumerate(text.split("\n"), 1):
            if line.lstrip().startswith(marks):
                yield number, line

    return of_text


def of_python(text):
    """Comments on lines of their own, and docstrings."""
    lines = text.split("\n")
    found = set()
    for token in tokenize.generate_tokens(io.StringIO(text).readline):
        if token.type == tokenize.COMMENT and lines[token.start[0] - 1].lstrip().startswith("#"):
            found.add(token.start[0])
    for place in ast.walk(ast.parse(text)):
        if isinstance(place, (ast.Module, ast.ClassDef, ast.FunctionDef, ast.AsyncFunctionDef)) and ast.get_docstring(place) is not None:
            found.update(range(place.body[0].lineno, place.body[0].end_lineno + 1))
    return [(number, lines[number - 1]) for number in sorted(found) if lines[number - 1].strip()]


# Which files, and what is prose in them. A crate's out/ isn't among them: it is made, and lasts no longer than it has to.
KINDS = [
    (["docs/*.md", "README.md", "examples/*.md"], of_markdown),
    (["crates/*/src/**/*.rt", "bench/**/*.rattle", "bench/**/*.c", "bench/**/*.cpp"], beginning("//")),
    (["crates/*/specs/**/*.antt", "crates/*/proofs/**/*.antt", "bench/**/*.answers"], beginning("--")),
    (["jorazhil", ".ci/*", "*/*.sh"], beginning("#")),
    (["bench/*.py", "checks/*.py", "tools/*.py"], of_python),
]


def main():
    looked = failed = 0
    for patterns, prose in KINDS:
        for path in sorted(path for pattern in patterns for path in HERE.glob(pattern) if path.is_file()):
            for number, line in prose(path.read_text(encoding="utf-8")):
                looked += 1
                if len(line) > LIMIT:
                    failed += 1
                    print(f"{path.relative_to(HERE)}:{number}: {len(line)} characters, of at most {LIMIT}.")
    print(f"{looked} lines looked at, {failed} too long")
    return 1 if failed or not looked else 0


if __name__ == "__main__":
    if len(sys.argv) != 1:
        print(__doc__, file=sys.stderr)
        sys.exit(2)
    sys.exit(main())
