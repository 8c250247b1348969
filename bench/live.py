"""PROGRAM FOLDER SECONDS: the figures of bench/live.sh, which tells what they are."""
import os
import random
import select
import socket
import subprocess
import sys
import time
from contextlib import ExitStack

from figures import Table, note, run
from scripts import eight, entry, state

program, folder, seconds = sys.argv[1], sys.argv[2], float(sys.argv[3])
table, draw = Table(), random.Random(1)
BLOCK = 0.02
# A run opens before its peers begin, and ends after them.
BESIDE = 2
# A peer tells of itself every quarter of a second.
PERIOD = 0.25
MEDIAN, SHARE, FAILED_SHARE = 100, 0.006, 0.02
PING = b"_link_v\x01\x01" + entry(b"__ht", eight(1))
ALIVE, RESPONSE, BYE, PONG = b"_asdp_v\x01\x01", b"_asdp_v\x01\x02", b"_asdp_v\x01\x03", b"_link_v\x01\x02"
ECHO = """
import socket
gate = socket.socket(socket.AF_INET, socket.SOCK_DGRAM)
gate.bind(("127.0.0.1", 0))
print(gate.getsockname()[1], flush=True)
while True:
    gate.sendto(*gate.recvfrom(513))
"""


def opened():
    """A socket at a port of its own."""
    gate = socket.socket(socket.AF_INET, socket.SOCK_DGRAM)
    gate.bind(("127.0.0.1", 0))
    return gate


def free_port():
    with opened() as gate:
        return gate.getsockname()[1]


def received(gate, kind):
    """The next datagram of a kind, for which the processor isn't given away."""
    end = time.perf_counter() + 1
    while time.perf_counter() < end:
        try:
            datagram = gate.recv(513, socket.MSG_DONTWAIT)
        except BlockingIOError:
            continue
        if datagram.startswith(kind):
            return datagram
    sys.exit(f"{kind!r} did not come within a second")


def sample(gate, to, datagram, kind):
    """Microseconds from the sending of a datagram to its answer."""
    time.sleep(draw.uniform(0.001, 0.003))
    start = time.perf_counter()
    gate.sendto(datagram, to)
    received(gate, kind)
    return 1e6 * (time.perf_counter() - start)


def session_in(alive):
    """The session that an alive tells."""
    at = alive.index(b"sess\0\0\0\x08") + 8
    return alive[at : at + 8]


def script(port, to, last, *commands):
    lines = "link 1", "setup 500000 1", f"gate 127.0.0.1:{port}", f"to 127.0.0.1:{to}", *commands, f"at {round(1e6 * last)} look"
    return "".join(line + "\n" for line in lines)


def words(last):
    return [program, "live", "--blocks", str(round(last / BLOCK))]


def beside(peers):
    """The samples of alives and of pings, of a run beside so many peers, and those of a plain echo."""
    gates, told, port, last = [opened() for _ in range(peers)], opened(), free_port(), seconds + BESIDE
    given = script(port, told.getsockname()[1], last, "at 0 play")
    with ExitStack() as stack:
        child = stack.enter_context(
            subprocess.Popen(words(last), stdin=subprocess.PIPE, stdout=subprocess.PIPE, stderr=subprocess.DEVNULL, text=True)
        )
        echo = stack.enter_context(subprocess.Popen([sys.executable, "-c", ECHO], stdout=subprocess.PIPE, text=True))
        stack.callback(echo.kill)
        plain = "127.0.0.1", int(echo.stdout.readline())
        child.stdin.write(given)
        child.stdin.close()
        session = session_in(received(told, ALIVE))
        to, samples, at = ("127.0.0.1", port), ([], [], []), 0
        alives = [bytes.fromhex(state(1, b"PEER%04d" % k, session, 0, gate.getsockname()[1])) for k, gate in enumerate(gates)]
        # Those of the first time that a peer comes don't count.
        for gate, alive in zip(gates, alives):
            sample(gate, to, alive, RESPONSE)
        end = time.perf_counter() + seconds
        while time.perf_counter() < end:
            gate, alive, at = gates[at % peers], alives[at % peers], at + 1
            samples[0].append(sample(gate, to, alive, RESPONSE))
            samples[1].append(sample(gate, to, PING, PONG))
            samples[2].append(sample(gate, plain, alive, ALIVE))
        counts = child.stdout.readline().split(" ")
        child.stdout.read()
    for gate in (*gates, told):
        gate.close()
    if child.returncode != 0 or counts[:2] != ["#", "live"] or int(counts[2]) < 2 * at:
        sys.exit(f"the run beside {peers} peers ended with status {child.returncode} and {counts}")
    return samples


def middle_and_most(samples):
    ordered = sorted(samples)
    return ordered[len(ordered) // 2], ordered[len(ordered) * 99 // 100]


def add_samples(what, samples, aim=None):
    median, most = middle_and_most(samples)
    note(f"{what}: {len(samples):,} samples, least {min(samples):.1f} µs, greatest {max(samples):.1f}")
    table.add(
        f"{what}: median; 99th percentile",
        f"{median:.1f} µs; {most:.1f} µs",
        None if aim is None else f"at most {aim} µs in the median",
        aim is not None and median <= aim,
    )


def add_ratio(what, samples, echoes):
    """Beside an echo by turns: so a machine whose waking takes long counts in both."""
    told = zip(middle_and_most(samples), middle_and_most(echoes))
    ratios = (f"{ours / plain:.2f} times {plain:.1f} µs" for ours, plain in told)
    table.add(f"{what}, over a plain UDP echo: median; 99th percentile", "; ".join(ratios))


def to_itself():
    with opened() as gate:
        return sample(gate, gate.getsockname(), PING, PING)


def peer(gate, port, last):
    """A peer in the session of the run at that port, which sleeps but to tell of itself and to answer what the run tells of itself. It ends
    with the run's goodbye. All that it told has to be answered."""
    gate.settimeout(BESIDE)
    session, to = session_in(gate.recv(513)), ("127.0.0.1", port)
    alive, response = (bytes.fromhex(state(kind, b"PEER0000", session, 0, gate.getsockname()[1])) for kind in (1, 2))
    due, told, answers, heard = time.monotonic(), 0, 0, 1
    while told <= (last + BESIDE) / PERIOD:
        if not select.select([gate], [], [], max(0, due - time.monotonic()))[0]:
            gate.sendto(alive, to)
            told, due = told + 1, due + PERIOD
            continue
        datagram = gate.recv(513)
        if datagram.startswith(BYE):
            break
        if datagram.startswith(ALIVE):
            gate.sendto(response, to)
            heard += 1
        elif datagram.startswith(RESPONSE):
            answers += 1
    note(f"a peer: {told} alives and {answers} responses to them, {heard} alives heard")
    if answers not in (told - 1, told) or min(told, heard) < 0.9 * last / PERIOD:
        sys.exit("a peer wasn't told or answered as it should be")


def minute(what, last, aim=None, port=None, options=(), status=0, meanwhile=None, **said):
    """The peak memory of a run that ends with this status. What is to be done meanwhile is given its destination, its port and how long it
    lasts; nobody else speaks to it."""
    given = os.path.join(folder, "script")
    with opened() as told:
        port = port or free_port()
        with open(given, "w") as text:
            text.write(script(port, told.getsockname()[1], last))
        beside = meanwhile and (lambda: meanwhile(told, port, last))
        passed, used, peak = run([*words(last), *options], given, status=status, said=said, meanwhile=beside)
    add_share(f"`live`, {what}: of the processor", passed, used, aim)
    return peak


def add_share(what, passed, used, aim=None):
    share = used / passed
    note(f"{what}: {passed:.2f} s, {used:.3f} s of the processor")
    figure = f"{used:.2f} s, {100 * share:.2f} %"
    table.add(what, figure, *(() if aim is None else (f"at most {100 * aim:g} % of one", share <= aim)))


def idle(last):
    peak = minute("an idle minute beside one peer", last, SHARE, meanwhile=peer)
    table.add("`live`, an idle minute beside one peer: peak memory", f"at most {peak / 1e6:.1f} MB")
    waiting, waited = os.path.join(folder, "waiting"), []
    has_waiting = os.path.exists(waiting)
    minute("an idle minute that nobody hears", last, meanwhile=has_waiting and (lambda *_: waited.append(run([waiting, str(last)]))))
    for passed, used, _ in waited:
        add_share("the waits of such a run alone, in C, in the same minute: of the processor", passed, used)


def failed(last):
    with opened() as other:
        minute("a minute of a run whose gate is taken", last, FAILED_SHARE, port=other.getsockname()[1], status=3)
    minute("a minute of a run with a full journal", last, FAILED_SHARE, options=("--events", "3"), status=6)
    below = os.path.join(folder, "refusing.so")
    if os.path.exists(below):
        minute("a minute of a run whose sockets break", last, FAILED_SHARE, status=3, LD_PRELOAD=below, BREAK_SOCKETS="1000")


note(f"a datagram to itself: {sorted(to_itself() for _ in range(500))[250]:.1f} µs")
for peers, name in ((1, "one peer"), (10, "ten peers")):
    alives, pings, echoes = beside(peers)
    add_samples(f"`live` beside {name}, from an alive to its response", alives, MEDIAN)
    add_ratio(f"`live` beside {name}, from an alive to its response", alives, echoes)
    add_samples(f"`live` beside {name}, from a ping to its pong", pings)
idle(60)
failed(60)
table.show()
