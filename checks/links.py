#!/usr/bin/env python3
"""Looks that each link of the pages goes somewhere: checks/links.py, at any place of a clone.

A page is a file `.md` of the repository. A link is what stands in round brackets behind square ones, outside of code. One that names no
other site has to lead to a file or a folder that is there; what follows a `#` in it has to be a heading of that page, spelled as GitHub
spells it: in lower case, with a hyphen for a space, without other signs, and with a number where a heading comes again. Of a file that is
no page it has to be `LN`, with N one of its lines. A page in docs/ has to be reached from README.md. The last line is 'N links of N pages,
N failed', and the status is 1 where any failed.
"""
import functools
import pathlib
import re
import sys

HERE = pathlib.Path(__file__).resolve().parent.parent
FENCE, CODE = re.compile(r"^(```|~~~).*?^\1", re.M | re.S), re.compile(r"`[^`\n]*`")
LINK, HEADING = re.compile(r"\[[^\]]*\]\(([^()\s]*(?:\([^()\s]*\)[^()\s]*)*)\)"), re.compile(r"^#{1,6} +(.*?) *#*$", re.M)


def pages():
    """The pages, without those of folders that are no part of the repository."""
    found = (path for path in HERE.rglob("*.md") if not {".git", "out"} & {*path.relative_to(HERE).parts})
    return sorted(found)


def blanked(text, pattern):
    """The text with blanks in place of what is matched, line by line as it was."""
    return pattern.sub(lambda at: re.sub(r"[^\n]", " ", at[0]), text)


def anchors_of(page):
    """The names of the page's headings."""
    found, seen = set(), {}
    for heading in HEADING.findall(blanked(page.read_text(encoding="utf-8"), FENCE)):
        name = re.sub(r"[^\w\- ]", "", re.sub(r"\[([^\]]*)\]\([^)]*\)", r"\1", heading).lower()).replace(" ", "-")
        again = seen.get(name, 0)
        seen[name] = again + 1
        found.add(f"{name}-{again}" if again else name)
    return found


@functools.cache
def lines_of(file):
    """How the lines of a file that is no page are named in links."""
    return {f"L{number}" for number, _ in enumerate(file.read_bytes().splitlines(), 1)} if file.is_file() else set()


def links_of(page):
    """The links of a page, each with the number of its line."""
    text = blanked(blanked(page.read_text(encoding="utf-8"), FENCE), CODE)
    return [(text.count("\n", 0, at.start()) + 1, at[1]) for at in LINK.finditer(text)]


def fault_of(page, link):
    """What is wrong with a link of a page, and the page that it leads to; None where nothing is."""
    if re.match(r"[a-z][a-z0-9+.-]*:", link):
        return None, None
    path, _, anchor = link.partition("#")
    to = (page.parent / path).resolve() if path else page
    if not to.is_relative_to(HERE):
        return "leads out of the repository", None
    if not to.exists():
        return "leads to nothing", None
    if anchor and anchor not in (anchors_of(to) if to.suffix == ".md" else lines_of(to)):
        return f"{to.relative_to(HERE)} has no heading or line #{anchor}", to
    return None, to


def main():
    failed, count, leads = 0, 0, {}
    for page in pages():
        for number, link in links_of(page):
            count += 1
            fault, to = fault_of(page, link)
            leads.setdefault(page, set()).add(to)
            if fault:
                failed += 1
                print(f"{page.relative_to(HERE)}:{number}: ({link}): {fault}")
    reached, todo = set(), [HERE / "README.md"]
    while todo:
        page = todo.pop()
        if page not in reached:
            reached.add(page)
            todo += [to for to in leads.get(page, ()) if to]
    for page in pages():
        if page.parent == HERE / "docs" and page not in reached:
            failed += 1
            print(f"{page.relative_to(HERE)}: no way leads there from README.md")
    print(f"{count} links of {len(pages())} pages, {failed} failed")
    return 1 if failed else 0


if __name__ == "__main__":
    sys.exit(main())
