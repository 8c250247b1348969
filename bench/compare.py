"""OURS FORMER: the table of bench/compare.sh, which tells what is in it. Each is a folder of files, the raw figures of a run."""
import os
import re
import sys
from statistics import median

from figures import LEAST, machine

# The numbers of a figure, as `1,329,000`, `683.512 ns; 232.104 ns` or `2.000 ns (2.2)`.
NUMBER = re.compile(r"-?[0-9][0-9,]*(?:\.[0-9]+)?")


def figures_in(folder):
    """The figures of each row, one of each turn."""
    found = {}
    for name in sorted(os.listdir(folder)):
        with open(os.path.join(folder, name), encoding="utf-8") as told:
            for line in told:
                what, figure = line.rstrip("\n").split("\t")
                found.setdefault(what, []).append(figure)
    return found


def medians_of(figures):
    """By place the median of the numbers; none where not all figures have as many."""
    numbers = [[float(number.replace(",", "")) for number in NUMBER.findall(figure)] for figure in figures]
    return [median(place) for place in zip(*numbers)] if len({*map(len, numbers)}) == 1 else []


def is_noise(figures, number):
    """Whether a number of such figures is of nanoseconds, and so small that it is what two differences scatter by."""
    return " ns" in figures[0] and number < LEAST


def shown(figures, number):
    if is_noise(figures, number):
        return f"under {LEAST}"
    return f"{number:,.0f}" if number == int(number) else f"{number:,.2f}"


def told(figures, medians):
    """The first figure with the medians in it."""
    left = iter(medians)
    return NUMBER.sub(lambda _: shown(figures, next(left)), figures[0]) if medians else "none" if not figures else " / ".join(figures)


ours, former = map(figures_in, sys.argv[1:])
print(f"{machine()}. Medians of runs by turns.\n")
print("| what | ours | former | ours over former |\n|---|---|---|---|")
for what in {**ours, **former}:
    here, there = ours.get(what, []), former.get(what, [])
    own, other = medians_of(here), medians_of(there)
    pairs = list(zip(own, other)) if len(own) == len(other) else []
    if pairs and all(is_noise(here, a) and is_noise(there, b) for a, b in pairs):
        continue
    ratios = ["none" if b == 0 or is_noise(here, a) or is_noise(there, b) else f"{a / b:.3f}" for a, b in pairs]
    print(f"| {what} | {told(here, own)} | {told(there, other)} | {'; '.join(ratios)} |")
