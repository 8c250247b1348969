"""PROGRAM RUNS: the figures of bench/client.sh, which tells what they are."""
import sys

from figures import Table, add_call, timed

table = Table()
told = timed(sys.argv[1], int(sys.argv[2]), 1000)
ROWS = [  # the call, the loop without it, and the aim in nanoseconds, if there is one
    ("client_from_session", "two_timelines", 38),
    ("session_from_client", "two_timelines", 38),
    ("set_tempo", "one_state", 26),
    ("force_beat", "one_state", 80),
    ("request_beat", "one_state", 150),
    ("clicks", "state_and_number", None),
    ("between", "three_states", 15),
    ("from_row", "one_row", 10),
]
SHOWN = {
    "clicks": "`State::clicks` of 20,000 microseconds, every second state playing",
    "between": "`Commit::between`",
    "from_row": "`State::from_row`",
}
for name, base, aim in ROWS:
    add_call(table, SHOWN.get(name, f"`{name}`"), told[name], told[base], aim)
table.show()
