"""PROGRAM RUNS: the figures of bench/peers.sh, which tells what they are."""
import sys

from figures import Table, add_call, timed

table = Table()
ROWS = [  # the call, what is printed, how many calls it is, and the aims in nanoseconds by rows
    ("known", "`Peers::saw` of a known peer", 1, {8: 60, 512: 400}),
    ("new_and_bye", "`Peers::saw` of a new peer, and `bye`, each", 2, {}),
    ("prune", "`Peers::prune` of nothing", 1, {}),
    ("count", "`Peers::count`", 1, {512: 1000}),
]
# The table of the new peer has a row less.
told = {(name, -(-int(rows) // 8) * 8): call for (name, rows), call in timed(sys.argv[1], int(sys.argv[2]), 100, keys=2).items()}
for name, shown, parts, aims in ROWS:
    for rows in (8, 128, 512):
        add_call(table, f"{shown}, {rows} rows", told[name, rows], told["nothing", rows], aims.get(rows), parts)
table.show()
