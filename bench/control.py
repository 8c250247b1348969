"""PROGRAM SAMPLES: the figures of bench/control.sh, which tells what they are."""
import contextlib
import os
import random
import re
import socket
import subprocess
import sys
import time

from figures import Table, note, spent

program, count = sys.argv[1], int(sys.argv[2])
table, draw = Table(), random.Random(1)
PEERS, IDLE = 10, 10
RATIO, SHARE = 1.5, 0.01
PATIENCE = 20
TELLING, COMMITTING = ("status", "beat 1000000", "time 4000000"), ("tempo 400000", "play", "tempo 500000", "stop")
ECHO = """
import socket
with socket.create_server(("127.0.0.1", 0)) as server:
    print(server.getsockname()[1], flush=True)
    client, _ = server.accept()
client.setsockopt(socket.IPPROTO_TCP, socket.TCP_NODELAY, 1)
while part := client.recv(512):
    client.sendall(part)
"""
if not 1 <= count <= 1500:
    sys.exit("bench/control.sh takes a number of samples from 1 to 1500")


def free_ports(many):
    held = [socket.socket(socket.AF_INET, socket.SOCK_DGRAM) for _ in range(many)]
    try:
        for gate in held:
            gate.bind(("127.0.0.1", 0))
        return [gate.getsockname()[1] for gate in held]
    finally:
        for gate in held:
            gate.close()


def connected(port):
    client = socket.create_connection(("127.0.0.1", port), PATIENCE)
    client.setsockopt(socket.IPPROTO_TCP, socket.TCP_NODELAY, 1)
    client.setblocking(False)
    return client


def answer(client):
    """The next line, for which the processor isn't given away."""
    text, end = b"", time.perf_counter() + PATIENCE
    while time.perf_counter() < end:
        try:
            part = client.recv(4096)
        except BlockingIOError:
            continue
        if not part:
            sys.exit("the connection ended")
        text += part
        if text.endswith(b"\n"):
            return text
    sys.exit("no answer came")


def sample(client, line):
    """Microseconds from the sending of a line to its answer."""
    time.sleep(draw.uniform(0.001, 0.003))
    start = time.perf_counter()
    client.send(line)
    answer(client)
    return 1e6 * (time.perf_counter() - start)


def begun(words, given, **streams):
    child = subprocess.Popen([program, *words], stdin=subprocess.PIPE, stdout=subprocess.PIPE, **streams)
    child.stdin.write(given.encode())
    child.stdin.close()
    child.stdin = None
    return child


def head(own, others):
    return f"link 1\nsetup 500000 1\ngate 127.0.0.1:{own}\n" + "".join(f"to 127.0.0.1:{other}\n" for other in others)


def controlled(own, others):
    """A run under control, and its client."""
    child = begun(["control", "127.0.0.1:0"], head(own, others), stderr=subprocess.PIPE)
    for line in child.stderr:
        found = re.fullmatch(rb"jorazhil: listening for a client at 127\.0\.0\.1:([0-9]+)\n", line)
        if found:
            return child, connected(int(found[1]))
    sys.exit("it does not say where it listens")


def ended(child, client):
    """What a run has used, whose client leaves."""
    client.close()
    child.stderr.read()
    summary = child.stdout.read()
    _, status, used = os.wait4(child.pid, 0)
    child.returncode = os.waitstatus_to_exitcode(status)
    if child.returncode != 0 or not summary.startswith(b"# live "):
        sys.exit(f"the run ended with status {child.returncode} and {summary!r}")
    return used


def until_peers(client, many):
    end = time.monotonic() + PATIENCE
    while time.monotonic() < end:
        client.send(b"status\n")
        if answer(client).split()[5] == b"%d" % many:
            return
        time.sleep(0.1)
    sys.exit(f"the run never has {many} peers")


def samples(many):
    """Those of the echo and of a run beside so many peers, by kind."""
    own, *others = free_ports(many + 1)
    with contextlib.ExitStack() as stack:
        echo = stack.enter_context(subprocess.Popen([sys.executable, "-c", ECHO], stdout=subprocess.PIPE, text=True))
        child, client = controlled(own, others)
        stack.callback(child.kill)
        for other in others:
            # They are still there when all is measured, and are ended then.
            peer = begun(["live", "--blocks", "0"], head(other, [own]) + "at 600000000 look\n", stderr=subprocess.DEVNULL)
            stack.enter_context(peer)
            stack.callback(peer.kill)
        until_peers(client, many)
        plain = connected(int(echo.stdout.readline()))
        found = {kind: ([], []) for kind in (TELLING, COMMITTING)}
        for k in range(count):
            for kind, (echoes, answers) in found.items():
                line = f"{kind[k % len(kind)]}\n".encode()
                echoes.append(sample(plain, line))
                answers.append(sample(client, line))
        plain.close()
        ended(child, client)
    return found


def middle_and_most(times):
    ordered = sorted(times)
    return ordered[len(ordered) // 2], ordered[len(ordered) * 99 // 100]


def add_samples(what, echoes, answers):
    (plain, plain_most), (median, most) = middle_and_most(echoes), middle_and_most(answers)
    note(f"{what}: {len(answers):,} samples, least {min(answers):.1f} µs, greatest {max(answers):.1f}; the echo: least {min(echoes):.1f}, greatest {max(echoes):.1f}")
    table.add(f"{what} to its answer: median; 99th percentile", f"{median:.1f} µs; {most:.1f} µs")
    ratio = median / plain
    table.add(
        f"{what} to its answer, over a plain TCP echo: median; 99th percentile",
        f"{ratio:.2f} times {plain:.1f} µs; {most / plain_most:.2f} times {plain_most:.1f} µs",
        f"at most {RATIO} times in the median",
        ratio <= RATIO,
    )


def idle():
    own, nobody = free_ports(2)
    start = time.perf_counter()
    child, client = controlled(own, [nobody])
    time.sleep(IDLE)
    used = ended(child, client)
    passed = time.perf_counter() - start
    share = spent(used) / passed
    note(f"an idle run: {passed:.2f} s, {spent(used):.3f} s of the processor")
    table.add(f"`control`, an idle run of {IDLE} seconds: of the processor", f"{spent(used):.2f} s, {100 * share:.2f} %", f"at most {SHARE:.0%} of one", share <= SHARE)
    table.add(f"`control`, an idle run of {IDLE} seconds: peak memory", f"at most {used.ru_maxrss * 1024 / 1e6:.1f} MB")


for many, name in ((0, "alone"), (PEERS, "beside ten peers")):
    found = samples(many)
    add_samples(f"`control` {name}, from a line that tells something", *found[TELLING])
    add_samples(f"`control` {name}, from one that commits", *found[COMMITTING])
idle()
table.show()
