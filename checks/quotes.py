#!/usr/bin/env python3
"""Looks that code which a page quotes stands in the file that it names: checks/quotes.py, at any place of a clone.

A quote is a fenced block behind a line `<!-- from FILE -->`, where FILE is a path from the top. Its lines stand in that file one behind the
other, all of them as much further in as there; a line of two dots alone stands for lines that are left out, so what follows it stands
somewhere behind. Each fenced block of a page that says it is of Rattle (```rust) has to be a quote, or stands behind a line
`<!-- from no file -->`.
The last line is 'N quotes of N pages, N failed', and the status is 1 where any failed or there is none.
"""
import pathlib
import re
import sys

HERE = pathlib.Path(__file__).resolve().parent.parent
FROM = re.compile(r"<!-- from (no file|\S+) -->")


def quotes_of(page):
    """Each fenced block that has to be a quote: the number of its first line, the file that it names, if any, and its lines."""
    named, block, start, is_quote = None, None, 0, False
    for number, line in enumerate(page.read_text(encoding="utf-8").split("\n"), 1):
        if block is not None:
            if line.startswith("```"):
                if is_quote and named != "no file":
                    yield start, named, block
                named, block = None, None
            else:
                block.append(line)
        elif line.startswith("```"):
            block, start, is_quote = [], number, named is not None or line.startswith("```rust")
        elif line:
            found = FROM.fullmatch(line)
            named = found[1] if found else None


def pieces_of(lines):
    """The runs of lines between lines of two dots."""
    pieces = [[]]
    for line in lines:
        if line.strip() == "..":
            pieces.append([])
        else:
            pieces[-1].append(line)
    return [piece for piece in pieces if piece]


def margin_of(lines):
    return min((len(line) - len(line.lstrip(" ")) for line in lines if line.strip()), default=0)


def moved(lines, margin):
    return [line[margin:].rstrip() for line in lines]


def missing(lines, text):
    """The first line of the first piece that doesn't stand in the text behind those before it, if there is one."""
    behind = 0
    for piece in pieces_of(lines):
        wanted = moved(piece, margin_of(piece))
        for at in range(behind, len(text) - len(piece) + 1):
            there = text[at : at + len(piece)]
            if moved(there, margin_of(there)) == wanted:
                behind = at + len(piece)
                break
        else:
            return piece[0]
    return None


def fault_of(named, lines):
    if named is None:
        return "code of Rattle that names no file: '<!-- from FILE -->' or '<!-- from no file -->' has to stand before it"
    if not (HERE / named).is_file():
        return f"there is no file {named}"
    if not pieces_of(lines):
        return "it quotes nothing"
    first = missing(lines, (HERE / named).read_text(encoding="utf-8").split("\n"))
    return None if first is None else f"what begins with {first.strip()!r} doesn't stand so in {named}"


def main():
    pages = sorted(path for path in HERE.rglob("*.md") if not {".git", "out"} & {*path.relative_to(HERE).parts})
    quotes = failed = 0
    for page in pages:
        for number, named, lines in quotes_of(page):
            quotes += 1
            fault = fault_of(named, lines)
            if fault:
                failed += 1
                print(f"{page.relative_to(HERE)}:{number}: {fault}")
    print(f"{quotes} quotes of {len(pages)} pages, {failed} failed")
    return 1 if failed or not quotes else 0


sys.exit(main())
