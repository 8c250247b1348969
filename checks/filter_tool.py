#!/usr/bin/env python3
"""Compares what tools/filter.py tells of pairs, over the built program, with what is written here: checks/filter_tool.py PROGRAM.

examples/jitter.pairs is drawn anew from its description in examples/README.md. It is told as examples/jitter.told has it, by the program's
own run and by stored output, and docs/filter.svg is its picture, byte for byte. Then pairs made here: one alone, some that are refused,
host times that fall, numbers at the ends of the range. Of pictures is looked at whether they are XML, and how many dots, places of the line
and crosses they have. Input that can't be told has to end with status 2 and one sentence on standard error. The last line is 'N passed, N
failed'.
"""
import os
import sys

sys.dont_write_bytecode = True
import common  # noqa: E402
import session  # noqa: E402
from common import EXAMPLES, HERE, read, write  # noqa: E402
from session import leaving, parts_of  # noqa: E402

TOOL = os.path.join(HERE, "tools", "filter.py")
PAIRS, EXPECTED = (os.path.join(EXAMPLES, "jitter" + ending) for ending in (".pairs", ".expected"))
HEAD = """\
in microseconds                         off the line:             change of it:
                                               median     greatest       median     greatest
"""

# A name, the pairs, the lines that are told before the table, its rows, and in the picture the dots given, the places of the line of
# those filtered, and the crosses of those refused with that of the legend.
MADE = [
    (
        "one pair",
        "-5 -7",
        "1 pair, none refused\nthe line: 0 microseconds a sample\n",
        "given                                             0.0          0.0          0.0          0.0\n"
        "filtered                                          0.0          0.0          0.0          0.0\n",
        (1, 2, 0),
    ),
    # The line is flat at 10/3. The filter is there at the last pair, and tells 3. Of two numbers the median is the greater one.
    (
        "three pairs, of which one is off",
        "0 0\n1 10\n2 0\n",
        "3 pairs, none refused\nthe line: 0 microseconds a sample\n",
        "given                                             3.3          6.7         10.0         10.0\n"
        "filtered                                          3.3          6.7         10.0         10.0\n",
        (3, 3, 0),
    ),
    (
        "pairs that are refused",
        "0 0\n480 10000\n960 20000\n480 30000\n2147483649 0\n1440 30000\n",
        "6 pairs, 2 refused: 1 late and 1 far\nthe line: 20.833333 microseconds a sample, which is 48000 samples a second\n",
        "given                                             0.0          0.0          0.0          0.0\n"
        "filtered                                          0.0          0.0          0.0          0.0\n",
        (4, 4, 2 + 1),
    ),
    (
        "host times that fall, at the ends of the range",
        f"{2**60 - 2} {-(2**60) + 20}\n{2**60 - 1} {-(2**60) + 10}\n{2**60} {-(2**60)}\n",
        "3 pairs, none refused\nthe line: -10 microseconds a sample\n",
        "given                                             0.0          0.0          0.0          0.0\n"
        "filtered                                          0.0          0.0          0.0          0.0\n",
        (3, 3, 0),
    ),
]


def jitter():
    """The example, as examples/README.md says how it is drawn."""
    word, pairs = 1, ""
    for k in [*range(1200), *range(1300, 2100)]:
        word = (1_664_525 * word + 1_013_904_223) % 2**32
        late = 4000 * (word // 2**16) ** 3 // 2**48
        pairs += f"{256 * k} {(256_000_000 * k + 24_000) // 48_000 + late}\n"
    return pairs


def tell(words, text=b""):
    return session.tell(words, text, TOOL)


def counted(path):
    parts = parts_of(read(path))
    dots, places = (parts[name][0].get("d").count("M" if name == "given" else "L") for name in ("given", "filtered"))
    return dots, places + 1, len(parts.get("refused", []))


def example(program, folder):
    drawn, told = os.path.join(folder, "jitter.svg"), read(EXAMPLES, "jitter.told")
    yield "examples/jitter.pairs", read(PAIRS) == jitter(), True
    yield "jitter", tell(["--program", program, "--svg", drawn, PAIRS]), (0, told, "")
    yield "docs/filter.svg", read(drawn) == read(HERE, "docs", "filter.svg"), True
    dots, places, crosses = counted(drawn)
    yield "its dots, places and crosses", (dots > 1000, places > 1000, crosses), (True, True, 0)
    # Without the program, and over standard input.
    stored = ["--output", EXPECTED, "--program", os.path.join(folder, "none"), "--svg", drawn]
    yield "jitter of stored output", tell([*stored, "-"], read(PAIRS).encode()), (0, told, "")
    yield "its picture", read(drawn) == read(HERE, "docs", "filter.svg"), True
    yield "--help", tell(["--help"])[::2], (0, "")


def made_here(program, folder):
    drawn = os.path.join(folder, "made.svg")
    for name, pairs, lines, rows, parts in MADE:
        yield name, tell(["--program", program, "--svg", drawn], pairs.encode()), (0, lines + HEAD + rows, "")
        yield f"the picture of {name}", counted(drawn), parts


def refused(program, folder):
    """The words, the input, and what has to stand on standard error."""
    none, output = os.path.join(folder, "none"), os.path.join(folder, "output")
    pair = "expected a sample count and a host time, each within 2^60 of 0, as in `256 5333`, found"
    cases = [
        ([], b"", "line 1: expected a sample count and a host time, as in `256 5333`, found the end of the text"),
        ([], b"0 0\n\n", f'line 2: {pair} ""'),
        ([], b"# pairs\n0 0\n", f'line 1: {pair} "# pairs"'),
        ([], b"0 0\n256 5.3\n", f'line 2: {pair} "256 5.3"'),
        ([], b"0 0\n1152921504606846977 0\n", f'line 2: {pair} "1152921504606846977 0"'),
        ([], b"0 0\r\n", "line 1: expected a line feed alone at the end of the line, found a carriage return before it"),
        ([], b"\xff\xfe0\0\n", f'line 1: {pair} "\\xff\\xfe0\\x00"'),
        ([write(folder, "some.pairs", "0 0\n1\n")], b"", f'{folder}/some.pairs: line 2: {pair} "1"'),
        ([folder], b"", f"{folder} could not be read: Is a directory"),
        ([none], b"", f"{none} could not be read: No such file or directory"),
        (["--svgs", "x"], b"", "unrecognized arguments: --svgs; --help tells all"),
        (["--program", none, PAIRS], b"", f"{none} could not be run: No such file or directory"),
        (["--output", none, PAIRS], b"", f"{none} could not be read: No such file or directory"),
    ]
    for words, text, sentence in cases:
        yield f"{words} on {text[-40:]!r}", tell(words, text), (2, "", f"filter: {sentence}\n")
    # Outputs that aren't those of these pairs.
    pairs, far = b"0 0\n512 11610\n512 30000\n2147483649 0\n", "`host` and a time, or `far` and a pair before it, for the pair"
    for lines, sentence in [
        ("", "line 1: expected a line for each of the 4 pairs, found the end of the text"),
        ("host 0\ndone 1 0\n", 'line 2: expected a line for each of the 4 pairs, found "done 1 0"'),
        ("late 0\n", f'line 1: expected {far} 0 0, found "late 0"'),
        ("host 0\nlate 0\n", f'line 2: expected {far} 512 11610, found "late 0"'),
        ("host 0\nhost 11610.5\n", f'line 2: expected {far} 512 11610, found "host 11610.5"'),
        ("host 0\nhost 11610\nhost 30000\n", 'line 3: expected `late 512` for the pair 512 30000, found "host 30000"'),
        ("host 0\nhost 11610\nlate 0\n", 'line 3: expected `late 512` for the pair 512 30000, found "late 0"'),
        ("host 0\nhost 11610\nlate 512\nfar 1 0\n", f'line 4: expected {far} 2147483649 0, found "far 1 0"'),
        ("host 0\nhost 11610\nlate 512\nfar 0 0\n", "line 5: expected `done 4 2` behind these lines, found the end of the text"),
        ("host 0\nhost 11610\nlate 512\nfar 0 0\ndone 4 1\n", 'line 5: expected `done 4 2` behind these lines, found "done 4 1"'),
        ("host 0\nhost 11610\nlate 512\nfar 0 0\ndone 4 2\n#\n", 'line 6: expected nothing behind the line `done`, found "#"'),
    ]:
        words = ["--output", write(folder, "output", lines)]
        yield f"an output {lines!r}", tell(words, pairs), (2, "", f"filter: {output}: {sentence}\n")
    # Files that can't be written, or that were read from.
    run, copy, nowhere = ["--program", program], write(folder, "copy.pairs", read(PAIRS)), os.path.join(folder, "none", "x.svg")
    yield "a picture over its pairs", tell([*run, "--svg", copy, copy]), (2, "", f"filter: --svg {copy} is a file that is read from\n")
    yield "the pairs are as they were", read(copy) == read(PAIRS), True
    sentence = f"filter: {nowhere} could not be written: No such file or directory\n"
    yield "a picture in no folder", tell([*run, "--svg", nowhere, copy]), (2, "", sentence)


def streams(program, _):
    yield from leaving(TOOL, ["--program", program, PAIRS], "2,000 pairs, none refused\n")


def main(program):
    return common.compared((example, made_here, refused, streams), program)


if __name__ == "__main__":
    common.begin(main, __doc__)
