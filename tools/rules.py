#!/usr/bin/env python3
"""Writes docs/RULES.md, the rules of the runtime by subject, from the sources.

A rule is one sentence in a comment above the definition that says it, in crates/NAME/specs/*.antt:

  -- Rule: A broadcast is due at first, 250,000 microseconds after the last, and 50,000 after it where there is news to tell.

It begins with `-- Rule: ` and goes on to the first line that ends with a full stop, so that a plain comment may follow it; a definition may
have several. With it the page tells, at most four of each kind, those of the definition's own crate first:

- the public calls that promise it: functions of a crate's surface in whose `requires` or `ensures` the definition stands; where none has it
  there, those of a definition that names it, and so on; and at last those of one that a law ties to it. A call of a trait's impl has the
  trait's clauses, with what its own `ghost` items put there. Behind them stand the laws on the definition;
- the functions that aren't of a crate's surface, found likewise no farther off than the calls;
- the edits of must-fail/ with a line `rule: NAME` or `# rule: NAME`, which rt doesn't read: wrong bodies that go against the rule;
- the tests with a comment `// rule: NAME` above `#[test]`, other comments alone between; `// rule: NAME in ROW` names a row of its table.

NAME is a definition's name, with its module before it, as in `Module.name`, where several have it; `rule: NAME, NAME` names several. All of
this is a search in texts: that an edit or a test turns on its rule was judged by who wrote the line. A crate is looked for rules where it
stands in crates.txt, and the subject that its rules are told under stands in SUBJECTS below.

Exit status: 0 where all is well; 1 where a rule, a `rule:` line or the page is not as it has to be, told on standard output; 2 for other
words than these.
"""
import argparse
import difflib
import re
import sys
from collections import defaultdict
from functools import cache
from pathlib import Path
from typing import NamedTuple

ROOT = Path(__file__).resolve().parent.parent
PAGE = ROOT / "docs" / "RULES.md"
MOST = 4
MOST_WORDS = 40

# The subjects of the page: a heading, the crates whose rules stand there, and words by which a person would look for them.
SUBJECTS = [
    ("Numbers and ids", "lk_base", "clipped, rounded, limit, tidy, moment, quantum; how ids are drawn and ordered"),
    ("Network, audio device and clock", "lk_outside link_adapters", "socket, gate, block of 20 milliseconds, failures, refused datagrams"),
    ("Lines and scripts", "link_lines link_script link_text", "`replay` and `live` scripts, comments, first line at fault, control lines"),
    ("Datagrams", "link_payload asdp_messages", "entries and their keys, alive, response, bye, ping, pong, faults, bytes"),
    ("Beats, phases and clicks", "timeline_math", "timeline, tempo, beat at a time, phase, quantum, click, accent"),
    ("Ghost time and measurement", "ghost_xform ping_measure", "offset, median, ping, pong of another session, silence, deadline, accuracy"),
    ("Peers", "peer_gateway", "when a peer's row ends, time to live, 128 rows a gate, target of a measurement"),
    ("Sessions", "session_choice", "which session wins, which timeline counts, join, forget, 64 other sessions"),
    ("Filter of host times", "link_hostfilter", "what the filter refuses, late, too far, 512 pairs, least squares"),
    ("States, edits and commits", "client_state", "`set_tempo`, `force_beat`, `request_beat`, play and stop, start, `OriginSpent`"),
    ("MIDI clock", "link_midi midi_clock", "when MIDI starts and stops, continue, song position, pulse"),
    ("Drum machine", "step_sequencer drum_machine", "step, pattern, voices, WAV, its words and statuses"),
    ("Cells between threads", "audio_handoff triple_buffer", "rows, how many steps an audio read or a publish takes, notes"),
    ("A node", "link_node", "when a broadcast is due, a bye of another group, ticks, joining, founding, sync, publishing"),
    ("Peers that agree", "link_world", "lost, repeated and reordered datagrams; who holds which timeline"),
    ("Captures, commits and the journal", "link_shared", "hub, queue, overtaken audio commit, full journal"),
    ("A live run", "link_live", "what a run promises, blocks, commands, how it ends"),
    ("Control", "link_control", "answers to a client's lines, `bad`, a line of 65 bytes, 4,096 lines"),
    ("A session server", "lk_talks link_asks link_clients serve_adapters session_server", "many clients, watching, `bpm`, `hello`, seats, its words and statuses"),
    ("Words and options", "link_words", "`--events`, `--blocks`, `--quantum`, `--group`, `--record`"),
    ("Commands and statuses", "link_commands link_live_command link_daemon daemon_laws", "what status 6 means, report, limits of inputs"),
]

HEAD = """\
# Rules

This page is for who contributes to the runtime, builds on it or implements the protocol, and wants to know what holds: find the rule by a
word of its sentence, and from there its definition, code and tests. `tools/rules.py` writes it from the sources, and the gate compares it.

A row is a rule. Behind its sentence stand:

- the definition that says it exactly, with all premises;
- **by**: the public calls in whose contracts that stands, or else the nearest one built on it, and then laws: of these it is proved;
- **in**: functions inside a crate that were found likewise, mostly those that do it;
- **refused**: edits in `must-fail/`, wrong bodies that go against it, which the prover has to refuse;
- **tested**: tests in Rattle whose cases were worked out apart from the code, in brackets by the rows of their table.

Each link leads to the line. At most four of each are told, and two dots stand for more. A part is left out where nothing names the rule.

Bytes and texts are in [FORMATS.md](FORMATS.md), formulas in [FORMULAS.md](FORMULAS.md), and words of the field in
[ARCHITECTURE.md](ARCHITECTURE.md).
"""

DEFINITION = re.compile(r"(?:pub )?(?:abbrev|unfoldable|opaque|record|data) (?:pub )?([^\s:]+)")
IMPORT = re.compile(r"\buse Rattle\.(\w+)\.specs\.(\w+)(?:\.\{([^}]*)\}| as (\w+))")
WORD = re.compile(r"[A-Za-z_][\w']*(?:\.[A-Za-z_][\w']*)*")
# Comments, texts and characters of a source, in which no name is looked for.
HIDDEN = re.compile(r"""//[^\n]*|/\*.*?\*/|"(?:\\.|[^"\\])*"|'(?:\\.|[^'\\\n])'""", re.S)
OWNER = re.compile(r"^(?:pub )?(?:impl|trait)\b", re.M)
FUNCTION = re.compile(r"(\bpub\s+)?\bfn\s+(\w+)")
GHOST = re.compile(r"\bghost\s+(\w+)\s*=\s*(?=\{)")
CLAUSE = re.compile(r"\s*\b(?:requires|ensures)\b\s*\w*\s*(?=\{)")
# A law's body has nothing but laws that it stands on.
LAW = re.compile(r"\b\w+\(\);")
NAME = r"(?:\w+\.)?\w+"
MARK = re.compile(rf"\s*(?:(?://|#) )?rule: ({NAME}(?:, {NAME})*)(?: in (.+))?")


class Definition(NamedTuple):
    crate: str
    module: str
    name: str


class Function(NamedTuple):
    """A function outside tests: its name with its type's, its file and line, whether it is of the crate's surface, whether it is a law, and
    the definitions that stand in its clauses."""

    name: str
    file: Path
    line: int
    is_public: bool
    is_law: bool
    cites: frozenset


findings = []


def tell(file, line, text):
    findings.append(f"{file.relative_to(ROOT)}:{line}: {text}")


@cache
def crates():
    lines = (ROOT / "crates.txt").read_text(encoding="utf-8").splitlines()
    return [line.split(":")[0].split()[0] for line in lines if line and not line.startswith("#")]


def crate_of(file):
    return file.relative_to(ROOT).parts[1]


def words_of(text):
    return WORD.findall(text)


def known_in(text):
    """The definitions that a text imports, by the names that it has for them, and its short names of modules."""
    names, modules = {}, {}
    for crate, module, several, short in IMPORT.findall(text):
        if crate in crates():
            names.update({name: Definition(crate, module, name) for name in re.split(r"[,\s]+", several)})
            modules.update({short: (crate, module)} if short else {})
    return names, modules


def cited(words, known):
    """The definitions that stand among the words."""
    names, modules = known
    found = set()
    for word in words:
        first, _, rest = word.partition(".")
        if first in modules:
            found.add(Definition(*modules[first], rest.partition(".")[0]))
        elif first in names:
            found.add(names[first])
    return found


# ---- the definitions


class Specs:
    """All definitions in the order of their modules, with their lines and rules, and which definitions name which."""

    def __init__(self):
        self.places, self.rules, self.users = {}, {}, defaultdict(set)
        for crate in crates():
            folder = ROOT / "crates" / crate / "specs"
            listed = re.findall(r"^pub mod (\w+)", (folder / "Lib.antt").read_text(encoding="utf-8"), re.M) if folder.is_dir() else []
            for file in sorted(folder.glob("*.antt"), key=lambda file: (listed + [file.stem]).index(file.stem)):
                self.read(crate, file)

    def read(self, crate, file):
        text = file.read_text(encoding="utf-8")
        bodies, waiting, at, lines = {}, [], None, text.split("\n")
        numbers = iter(range(len(lines)))
        for k in numbers:
            head = DEFINITION.match(lines[k])
            if lines[k].startswith("-- Rule:"):
                waiting.append((k + 1, self.sentence(file, lines, k)))
            elif head:
                at = Definition(crate, file.stem, head[1])
                self.places[at], bodies[at] = (file, k + 1), []
                if waiting:
                    self.rules[at], waiting = [sentence for _, sentence in waiting], []
            elif not lines[k].startswith("--"):
                for number, _ in waiting:
                    tell(file, number, "the rule stands above no definition")
                waiting = []
            if at and not lines[k].lstrip().startswith("--"):
                bodies[at] += words_of(lines[k])
        names, modules = known_in(text)
        known = {**names, **{one.name: one for one in bodies}}, modules
        for one, words in bodies.items():
            for other in cited(words, known) - {one}:
                self.users[other].add(one)

    def sentence(self, file, lines, k):
        """The sentence of the rule that begins in a line."""
        end = k
        while not lines[end].endswith(".") and lines[end + 1].startswith("-- "):
            end += 1
        words = " ".join(line[3:] for line in lines[k : end + 1]).split()[1:]
        if not lines[end].endswith("."):
            tell(file, k + 1, "the rule doesn't end with a full stop")
        if len(words) > MOST_WORDS:
            tell(file, k + 1, f"the rule has {len(words)} words, of at most {MOST_WORDS}")
        return " ".join(words)

    def named(self, name, crate):
        """The definitions with a rule that a name tells, those of the crate alone where there are such."""
        found = [one for one in self.rules if name in (one.name, f"{one.module}.{one.name}")]
        return [one for one in found if one.crate == crate] or found


# ---- the functions


def past(text, at):
    """The place behind the bracket that closes the one at a place."""
    depth = 0
    for k in range(at, len(text)):
        depth += (text[k] in "([{") - (text[k] in ")]}")
        if depth == 0:
            return k + 1
    return len(text)


def owner_of(header):
    """The type that an impl is of, and its trait, if any; of a trait its own name. The header stands behind `impl` or `trait`."""
    header, depth = header.strip(), 0
    for k, letter in enumerate(header if header.startswith("<") else ""):
        depth += (letter == "<") - (letter == ">" and header[k - 1] not in "-=")
        if depth == 0:
            header = header[k + 1 :]
            break
    names = [re.match(r"\s*(?:\w+::)*(\w*)", part)[1] for part in re.split(r"\bfor\b(?!\s*<)", header)]
    return names[-1], names[0] if len(names) > 1 else ""


def contract_of(text, at):
    """The words of a function's clauses, and the place behind them. `at` is behind its name."""
    words = []
    while at < len(text) and text[at] not in "{;" and not CLAUSE.match(text, at):
        at = past(text, at) if text[at] in "([" else at + 1
    while True:
        clause = CLAUSE.match(text, at)
        if not clause:
            return words, at
        at = past(text, clause.end())
        words += words_of(text[clause.end() : at])


def is_law(text, at):
    """Whether a function has a law's body. `at` is behind its contract."""
    while at < len(text) and text[at] not in "{;":
        at += 1
    return text[at : at + 1] == "{" and LAW.sub("", text[at + 1 : past(text, at) - 1]).strip() == ""


class Sources:
    """All functions outside tests. Those of impls wait until all traits were read, whose clauses they have."""

    def __init__(self):
        self.functions, self.promised, self.impls = [], {}, []
        for crate in crates():
            source = ROOT / "crates" / crate / "src"
            root = source / "lib.rt"
            lib = HIDDEN.sub("", root.read_text(encoding="utf-8")) if root.is_file() else ""
            surface = {name for used in re.findall(r"^pub use ([^;]+);", lib, re.M) for name in re.findall(r"(\w+)\s*(?=[,}]|$)", used)}
            for file in sorted(source.rglob("*.rt")):
                if not {"tests", "tests.rt"} & set(file.relative_to(source).parts):
                    self.read(file, surface)
        for function, call, ghosts in self.impls:
            words, cites = self.promised.get(call, ([], set()))
            put = {one for ghost, found in ghosts.items() if ghost in words for one in found}
            self.functions.append(function._replace(cites=function.cites | cites | put))

    def read(self, file, surface):
        text = HIDDEN.sub(lambda hidden: re.sub(r"[^\n]", " ", hidden[0]), file.read_text(encoding="utf-8"))
        known, owners = known_in(text), []
        for start in OWNER.finditer(text):
            brace = text.index("{", start.end())
            owners.append((brace, past(text, brace), *owner_of(text[start.end() : brace]), start[0].endswith("trait")))
        for head in FUNCTION.finditer(text):
            begin, end, owner, trait, declares = next((one for one in owners if one[0] < head.start() < one[1]), (0, 0, "", "", False))
            words, behind = contract_of(text, head.end())
            is_public = bool(head[1] or trait or declares) and (owner or head[2]) in surface
            name = f"{owner}::{head[2]}" if owner else head[2]
            line = text.count("\n", 0, head.end()) + 1
            function = Function(name, file, line, is_public, is_law(text, behind), frozenset(cited(words, known)))
            if declares:
                self.promised[owner, head[2]] = words, function.cites
            if trait:
                ghosts = GHOST.finditer(text, begin, end)
                found = {ghost[1]: cited(words_of(text[ghost.end() : past(text, ghost.end())]), known) for ghost in ghosts}
                self.impls.append((function, (trait, head[2]), found))
            else:
                self.functions.append(function)


def nearest(start, specs, by_definition):
    """The public calls in whose clauses the definition stands, or else the nearest one that names it; functions inside as near; and
    what laws tie to it in its crate on the way."""
    level, seen, inner, tied = {start}, {start}, set(), set()
    while level:
        there = [one for at in level for one in by_definition[at]]
        calls = {one for one in there if one.is_public and not one.is_law}
        inner = inner or {one for one in there if not one.is_public and not one.is_law}
        if calls:
            return calls, inner, tied
        tied |= {other for one in there if one.is_law for other in one.cites if other.crate == start.crate}
        level = {user for at in level for user in specs.users[at]} - seen
        seen |= level
    return set(), inner, tied


def functions_of(definition, specs, by_definition):
    """The public calls that promise the definition, or else what is tied to it and has the fewest calls, the laws on it, and functions
    inside."""
    calls, inner, tied = nearest(definition, specs, by_definition)
    if not calls:
        ways = [way for way in (nearest(one, specs, by_definition) for one in sorted(tied)) if way[0]]
        calls, further, _ = min(ways, key=lambda way: len(way[0]), default=(set(), set(), set()))
        inner = inner or further
    return calls, {one for one in by_definition[definition] if one.is_law and one.is_public}, inner


# ---- what names a rule


def marks(specs):
    """The edits and the tests that name each definition with a rule: the name, its file and a test's line, and the row of a test's table
    with its line, if there is one."""
    edits, tests = defaultdict(list), defaultdict(list)
    for file in sorted(ROOT.glob("crates/*/must-fail/*.edit")):
        for number, line in enumerate(file.read_text(encoding="utf-8").split("\n"), 1):
            if line.removeprefix("# ").startswith("rule:"):
                mark(edits, specs, file, number, line, file.stem)
    for file in sorted(ROOT.glob("crates/*/src/**/*.rt")):
        lines = file.read_text(encoding="utf-8").split("\n")
        for k, line in enumerate(lines):
            if line.strip().startswith("// rule:"):
                behind = next((n for n in range(k, len(lines)) if not lines[n].strip().startswith("//")), k)
                test = re.match(r"\s*#\[test\][^{]*?\bfn (\w+)", "\n".join(lines[behind : behind + 4]))
                if test:
                    mark(tests, specs, file, k + 1, line, test[1], behind + 1 + test[0].count("\n"))
                else:
                    tell(file, k + 1, "no #[test] stands behind the rule")
    return edits, tests


def mark(marked, specs, file, number, line, name, begins=None):
    """Takes a line `rule: ..` of a file, which stands for an edit or a test of this name."""
    there = MARK.fullmatch(line)
    if not there:
        tell(file, number, "it is not told as in `rule: NAME`, `rule: NAME, NAME` or `rule: NAME in ROW`")
        return
    text = file.read_text(encoding="utf-8")
    row = re.search(rf"^(?!\s*//).*(?<!\w){re.escape(there[2])}(?!\w)", text, re.M) if there[2] else None
    if there[2] and not row:
        tell(file, number, f"no row is named {there[2]!r}")
    for word in there[1].split(", "):
        found = specs.named(word, crate_of(file))
        if len(found) == 1:
            marked[found[0]].append((name, file, begins, row and (there[2], text.count("\n", 0, row.end()) + 1)))
        else:
            tell(file, number, f"{len(found) or 'no'} definitions with a rule are named {word}")


# ---- the page


def link(text, file, line=None):
    return f"[{text}](../{file.relative_to(ROOT)}{f'#L{line}' if line else ''})"


def told(word, crate, *kinds):
    """A part of a line: the word, and names with their places, those of the crate first of each kind, each with the rows that are told."""
    names = []
    for found in kinds:
        rows = {}
        for name, file, line, row in sorted(found, key=lambda one: (crate_of(one[1]) != crate, one[:2], one[2] or 0)):
            there = rows.setdefault((name, file), (line, []))[1]
            there += [link(row[0], file, row[1])] if row else []
        names += [link(f"`{name}`", file, line) + (f" ({'; '.join(told)})" if told else "") for (name, file), (line, told) in rows.items()]
    return [f"{word} {', '.join(names[:MOST] + ['..'] * (len(names) > MOST))}"] if names else []


def rows_of(definition, specs, by_definition, edits, tests):
    """A line for each rule of a definition."""
    file, line = specs.places[definition]
    calls, laws, inner = ([(one.name, one.file, one.line, None) for one in found] for found in functions_of(definition, specs, by_definition))
    parts = [link(f"`{definition.module}.{definition.name}`", file, line)]
    for word, kinds in (("by", (calls, laws)), ("in", (inner,)), ("refused", (edits[definition],)), ("tested", (tests[definition],))):
        parts += told(word, definition.crate, *kinds)
    return [f"| {sentence} | {' · '.join(parts)} |" for sentence in specs.rules[definition]]


def page():
    specs = Specs()
    edits, tests = marks(specs)
    by_definition = defaultdict(list)
    for function in Sources().functions:
        for definition in function.cites:
            by_definition[definition].append(function)
    lines, placed = [HEAD], [crate for _, names, _ in SUBJECTS for crate in names.split()]
    for heading, _, words in SUBJECTS:
        lines.append(f"- [{heading}](#{heading.lower().replace(' ', '-').replace(',', '')}): {words}")
    for heading, names, _ in SUBJECTS:
        lines += ["", f"## {heading}", "", "| Rule | Where |", "|---|---|"]
        for crate in names.split():
            for definition in specs.rules:
                if definition.crate == crate:
                    lines += rows_of(definition, specs, by_definition, edits, tests)
    told_before = {}
    for definition, sentences in specs.rules.items():
        file, line = specs.places[definition]
        if definition.crate not in placed:
            tell(file, line, f"the rules of {definition.crate} have no subject in SUBJECTS of tools/rules.py")
        for sentence in sentences:
            if told_before.setdefault(sentence, definition) != definition:
                tell(file, line, f"the rule stands above {told_before[sentence].name} already")
    return "\n".join(lines) + "\n", sum(map(len, specs.rules.values()))


def main():
    parser = argparse.ArgumentParser(description=__doc__, formatter_class=argparse.RawDescriptionHelpFormatter)
    parser.add_argument("--check", action="store_true", help="write nothing, and tell where docs/RULES.md differs")
    check = parser.parse_args().check
    text, count = page()
    if check:
        there = PAGE.read_text(encoding="utf-8") if PAGE.is_file() else ""
        differing = [line for line in difflib.unified_diff(there.split("\n"), text.split("\n"), n=0, lineterm="") if line[0] in "+-"][2:]
        findings.extend(f"docs/RULES.md {'has' if line[0] == '-' else 'lacks'}: {line[1:160]}" for line in differing)
    else:
        PAGE.write_text(text, encoding="utf-8")
    print("\n".join(findings + [f"{count} rules, {len(findings)} failed"]))
    return 1 if findings else 0


if __name__ == "__main__":
    sys.exit(main())
