"""PROGRAM FOLDER MAKER EVENTS: the figures of bench/replay.sh, which tells what they are.

The events of one kind are a quarter as many. Nothing large is held by the process that measures.
"""
import os
import resource
import subprocess
import sys

from figures import Table, note, run

program, folder, maker, events = *sys.argv[1:4], int(sys.argv[4])
script, out = os.path.join(folder, "script"), os.path.join(folder, "out")
table = Table()
KINDS = {
    "response": "a response of a known peer",
    "alive": "an alive, with its response",
    "ping": "a ping, with its pong",
    "passed": "a pong that nobody waits for",
    "pongs": "a pong that counts, with the next ping",
    "bye": "a bye and a response, each",
    "tick": "a tick with nothing due",
    "app": "an application commit, beyond a spent one",
    "audio": "an audio commit, beyond a spent one",
    "end": "an end without destinations, beyond a comment",
}


def make(name, peers, count):
    with open(script, "w") as text:
        subprocess.run([sys.executable, maker, name, str(peers), str(count)], stdout=text, check=True)
    return os.path.getsize(script)


def least(taker=os.devnull):
    runs = [run([program, "replay"], script, taker) for _ in range(4)][1:]
    return min(seconds for seconds, _, _ in runs), min(used for _, used, _ in runs), max(peak for _, _, peak in runs)


def whole(name, peers, aim):
    """Times a script whose output goes into a file. The seconds an event."""
    size, count = make(name, peers, events), events + peers
    seconds, used, peak = least(out)
    with open(out, "rb") as text:
        text.seek(-64, os.SEEK_END)
        last = text.read().split(b"\n")[-2].decode()
    if last.split(" ")[:2] != ["done", str(count)]:
        sys.exit(f"{name}: the last line is {last!r}")
    what = f"`replay` of `{name}`" + (f", {peers} peers" if peers else "")
    megabytes, rate = size / 1e6 / seconds, count / seconds
    note(f"{what}: {size / 1e6:.1f} MB of script, {os.path.getsize(out) / 1e6:.1f} MB of output, {seconds:.3f} s, {used:.3f} s of the processor, {last}")
    if "MB" in aim:
        table.add(f"{what}: script a second", f"{megabytes:.0f} MB", f"at least {aim['MB']} MB", megabytes >= aim["MB"])
    if "events" in aim:
        table.add(f"{what}: events a second", f"{rate:,.0f}", f"at least {aim['events']:,}", rate >= aim["events"])
    else:
        table.add(f"{what}: events a second", f"{rate:,.0f}")
    table.add(
        f"{what}: peak memory, script of {size / 1e6:.0f} MB",
        f"{peak / 1e6:.1f} MB, {peak / size:.2f} times the script",
        "at most 1.2 times the script and 32 MB",
        peak <= 1.2 * size + 32e6,
    )
    return seconds / count


def kind_costs(name, peers):
    count = events // 4 + peers
    make(f"{name}-idle", peers, events // 4)
    idle = least()[1]
    make(name, peers, events // 4)
    full = least()[1]
    run([program, "replay"], script, out)
    ns = [1e9 * seconds / count for seconds in (full, full - idle)]
    table.add(f"`replay`, {KINDS[name]}, {peers} peers: whole; step; written", f"{ns[0]:,.0f} ns; {ns[1]:,.0f} ns; {os.path.getsize(out) / count:.0f} bytes")


alone = whole("alives", 0, {"MB": 180})
cat = min(run(["cat"], script, out)[0] for _ in range(3))
note(f"alives: {alone * events / cat:.2f} times the time of cat ({cat:.3f} s)")
few, many = whole("mixed", 10, {"events": 800_000}), whole("mixed", 500, {})
table.add("`replay` of `mixed`: time an event with 500 peers over 10", f"{many / few:.2f} times", "at most 1.2 times", many <= 1.2 * few)
note(f"the memory of the process that starts it: {resource.getrusage(resource.RUSAGE_SELF).ru_maxrss * 1024 / 1e6:.1f} MB")
for name in KINDS:
    for peers in (10, 500):
        kind_costs(name, peers)
table.show()
