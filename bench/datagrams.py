"""PROGRAM RUNS: the figures of bench/datagrams.sh, which tells what they are."""
import sys

from figures import Table, add_call, timed

table = Table()
told = timed(sys.argv[1], int(sys.argv[2]), 2000)
for name, call in told.items():
    if int(call.results[1]) != call.calls:
        sys.exit(f"{name}: {call.results[1]} of {call.calls} datagrams are messages")
for kind, shown in (("alive", "an alive, 107 bytes"), ("response", "a response, 107 bytes"), ("ping", "a ping, 41 bytes"), ("pong", "a pong, 73 bytes"), ("bye", "a bye, 20 bytes")):
    add_call(table, f"`read_datagram` of {shown}", told[f"read_{kind}"], told[f"walk_{kind}"])
for kind, writer in (("alive", "alive"), ("response", "response"), ("ping", "ping_message"), ("pong", "pong_message"), ("bye", "bye")):
    add_call(table, f"`write_{writer}`", told[f"write_{kind}"], told[f"give_{kind}"])
add_call(table, "a ping of 41 bytes read and answered by a pong (`answer_ping`)", told["answer_ping"], told["walk_ping"])
table.show()
