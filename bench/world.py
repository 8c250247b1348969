"""PROGRAM RUNS: the figures of bench/world.sh, which tells what they are."""
import sys

from figures import Table, note, timed

table = Table()
HALF, WHOLE = 50_000, 100_000
PEERS = 6
told = timed(sys.argv[1], int(sys.argv[2]), 20)
seconds = {}
for key, call in told.items():
    delivered, ticks, commits, own, sent, joined = map(int, call.results)
    if own != sent:
        sys.exit(f"the world sent {sent} datagrams, and the nodes stepped beside its schedule {own}")
    if delivered + ticks + commits != call.calls or 2 * delivered <= call.calls:
        sys.exit(f"{key} turns: {delivered} deliveries, {ticks} ticks and {commits} commits aren't all of them, or most aren't deliveries")
    if joined != PEERS:
        sys.exit(f"{key} turns: only {joined} peers are in the first one's session at the end")
    seconds[call.calls] = call.least * call.calls / 1e9
    kinds = f"{delivered:,} deliveries, {ticks:,} ticks, {commits:,} commits; {sent:,} datagrams sent"
    aim = ("at most 1 s", seconds[WHOLE] <= 1) if call.calls == WHOLE else ()
    what = f"`World::run`, {PEERS} peers, {call.calls:,} turns: {kinds}"
    table.add(what, f"{seconds[call.calls]:.3f} s, {call.least:,.0f} ns a turn", *aim)
    note(f"{key} turns: {call.whole:,.0f} ns a turn over all rounds of the best run")
ratio = seconds[WHOLE] / seconds[HALF]
table.add(f"`World::run`: {WHOLE:,} turns over {HALF:,}", f"{ratio:.2f} times", "at most 2.2 times", ratio <= 2.2)
table.show()
