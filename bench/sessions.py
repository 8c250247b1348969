"""PROGRAM RUNS: the figures of bench/sessions.sh, which tells what they are."""
import sys

from figures import Table, add_call, timed

table = Table()
ROUNDS = 100
SHOWN = {  # what is printed, and which answer each call has: kept, full or stayed
    "saw_last": ("`Sessions::saw` of the last other one", 0),
    "saw_stranger": ("`Sessions::saw` of one that has no room", 1),
    "measured_last": ("`Sessions::measured` of the last other one, which stays", 2),
}
told = timed(sys.argv[1], int(sys.argv[2]), ROUNDS, keys=2)
for (name, others), call in told.items():
    if name in SHOWN:
        shown, answer = SHOWN[name]
        if int(call.results[answer]) != call.calls * ROUNDS:
            sys.exit(f"{name} with {others} others had other answers: {call.results}")
        add_call(table, f"{shown}, {others} others", call, told["nothing", others])
table.show()
