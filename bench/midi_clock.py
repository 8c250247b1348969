"""PROGRAM SECONDS: the figures of bench/midi_clock.sh, which tells what they are."""
import os
import re
import socket
import subprocess
import sys
import time

from figures import Table, note
from scripts import eight, entry

program, seconds = sys.argv[1], int(sys.argv[2])
table = Table()
# In microseconds: a beat, when the first block begins, for how long the node is asked when it opened, and how long its first answer may
# take. A microsecond has two whole microbeats of such a beat, so pulse k is at k * MPB / 24, rounded up.
MPB, FIRST, ASKED, PATIENCE = 500_000, 500_000, 300_000, 5_000_000
MEDIAN, MOST = 300, 2_000
PING, PONG, GHOST = b"_link_v\x01\x01", b"_link_v\x01\x02", b"__gt\0\0\0\x08"
# Tells by how many nanoseconds each of so many sleeps was late.
SLEEP = """
import sys, time
first, beat, count = map(int, sys.argv[1:])
late = []
for k in range(count):
    at = first + k * beat // 24
    time.sleep(max(0, at - time.monotonic_ns()) / 1e9)
    late.append(time.monotonic_ns() - at)
print(*late)
"""


def now():
    return time.monotonic_ns() / 1000


def answered(gate, to):
    """From when to when the node opened, by a pong, if one comes soon. It gives back what its ping has."""
    sent = now()
    echo = entry(b"__ht", eight(round(sent)))
    gate.sendto(PING + echo, to)
    while now() < sent + 10_000:
        try:
            pong = gate.recv(513, socket.MSG_DONTWAIT)
        except BlockingIOError:
            continue
        if pong.startswith(PONG) and pong.endswith(echo):
            ghost = int.from_bytes(pong[pong.index(GHOST) + 8 :][:8], "big")
            return sent - ghost - 1, now() - ghost
    return None


def opening(gate, to):
    """The middle of what no pong contradicts."""
    told, end = [], now() + PATIENCE
    while now() < end:
        if answer := answered(gate, to):
            end = end if told else now() + ASKED
            told.append(answer)
        time.sleep(0.001)
    if not told:
        sys.exit("no pong tells when the node opened")
    least, most = max(since for since, _ in told), min(until for _, until in told)
    note(f"{len(told)} pongs tell to {most - least:.1f} µs when the node opened")
    return (least + most) / 2


def arrivals(pipe):
    """When each byte is there, for which the processor isn't given away."""
    os.set_blocking(pipe, False)
    while True:
        try:
            data = os.read(pipe, 4096)
        except BlockingIOError:
            continue
        if not data:
            return
        if data.strip(b"\xf8"):
            sys.exit(f"{data!r} isn't of clocks alone")
        yield from [now()] * len(data)


def three_of(samples):
    ordered = sorted(samples)
    return ordered[len(ordered) // 2], ordered[len(ordered) * 99 // 100], ordered[-1]


def bound():
    """A socket at a port that the system picks."""
    gate = socket.socket(socket.AF_INET, socket.SOCK_DGRAM)
    gate.bind(("127.0.0.1", 0))
    return gate


with bound() as gate:
    with bound() as held:
        to = held.getsockname()
    words = [program, str(seconds), str(MPB), f"127.0.0.1:{to[1]}"]
    with subprocess.Popen(words, stdin=subprocess.DEVNULL, stdout=subprocess.PIPE, stderr=subprocess.PIPE) as child:
        opened = opening(gate, to)
        due = [opened - -k * MPB // 24 for k in range(24 * FIRST // MPB, 24 * (FIRST + seconds * 1_000_000) // MPB)]
        between = [round(1000 * (due[0] + MPB / 48)), 1000 * MPB, len(due)]
        sleeping = subprocess.Popen([sys.executable, "-c", SLEEP, *map(str, between)], stdout=subprocess.PIPE, text=True)
        came, told = list(arrivals(child.stdout.fileno())), child.stderr.read().decode()
    slept = [int(late) / 1000 for late in sleeping.communicate()[0].split()]
latest = re.search(r"the latest message was (\d+) microseconds? late", told)
if child.returncode != 0 or len(came) != len(due) or not latest:
    sys.exit(f"status {child.returncode} behind {len(came)} clocks of {len(due)}: {told}")
late = [at - pulse for at, pulse in zip(came, due)]
note(f"the least that a clock was late: {min(late):.1f} µs; a sleep: {min(slept):.1f} µs")
ours, plain = three_of(late), three_of(slept)
what = f"`midi-out` alone at 120 beats a minute, {len(due):,} clocks, how late they are"
aim = f"at most {MEDIAN} µs in the median and {MOST:,} µs for the 99th percentile"
table.add(f"{what}: median; 99th percentile; greatest", "; ".join(f"{each:.1f} µs" for each in ours), aim, ours[0] <= MEDIAN and ours[1] <= MOST)
table.add(f"{what}, over a sleep alone", "; ".join(f"{each / sleep:.2f} times {sleep:.1f} µs" for each, sleep in zip(ours, plain)))
table.add(f"{what}: the latest message by the last line", f"{latest[1]} µs")
table.show()
