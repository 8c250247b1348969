"""PROGRAM RUNS: the figures of bench/numbers.sh, which tells what they are. A file numbers.py would hide the module that Python has."""
import sys

from figures import Table, add_call, timed

table = Table()
ROUNDS = 100
ROWS = [  # the call, the loop without it, what is printed, and the aim in nanoseconds
    ("beat_at", "nothing", "`beat_at`, within 6 days of the origin", 11),
    ("time_at", "nothing", "`time_at`, near", None),
    ("encoded_beat", "nothing", "`encoded_beat`, near", 40),
    ("silent_block", "no_block", "`clicks` of 20,000 microseconds without a beat, near", 100),
    ("clicking_block", "no_block", "`clicks` of 20,000 microseconds with a beat, near", None),
    ("far_beat_at", "far_nothing", "`beat_at`, far", None),
    ("far_time_at", "far_nothing", "`time_at`, far", None),
    ("far_encoded_beat", "far_nothing", "`encoded_beat`, far", None),
    ("far_silent_block", "far_no_block", "`clicks` of 20,000 microseconds without a beat, far", None),
    ("far_clicking_block", "far_no_block", "`clicks` of 20,000 microseconds with a beat, far", None),
]
told = timed(sys.argv[1], int(sys.argv[2]), ROUNDS)
for name, call in told.items():
    if int(call.results[0]) != (call.calls * ROUNDS if name.endswith("clicking_block") else 0):
        sys.exit(f"{name} found {call.results[0]} clicks in {call.calls * ROUNDS} calls")
for name, base, shown, aim in ROWS:
    add_call(table, shown, told[name], told[base], aim)
table.show()
