"""PROGRAM RUNS: the figures of bench/measure.sh, which tells what they are."""
import sys

from figures import Table, add_call, timed

table = Table()
ROUNDS = 100
told = timed(sys.argv[1], int(sys.argv[2]), ROUNDS)
for name, call in told.items():
    if int(call.results[0]) != (call.calls * ROUNDS if name.endswith("pong") else 0):
        sys.exit(f"{name} answered {call.results[0]} pings in {call.calls * ROUNDS} calls")
add_call(table, "`offset_of` over 101 points, with their copy", told["offset"], told["no_offset"], 900)
add_call(table, "`Measure::pong`, a pong that counts", told["pong"], told["no_pong"], 25)
table.show()
