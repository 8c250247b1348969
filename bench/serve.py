"""PROGRAM SAMPLES SECONDS: the figures of bench/serve.sh, which tells what they are."""
import contextlib
import os
import random
import re
import socket
import subprocess
import sys
import tempfile
import time

from figures import Table, note, spent

program, count, seconds = sys.argv[1], int(sys.argv[2]), int(sys.argv[3])
table, draw = Table(), random.Random(1)
SEATS, CHANGES = 15, 100
RATIO, FLOODED, SHARE, LATE = 1.5, 2, 0.01, 10
PATIENCE = 20
LINES = (b"status\n", b"now\n")
ECHO = """
import socket
with socket.create_server(("127.0.0.1", 0)) as server:
    print(server.getsockname()[1], flush=True)
    client, _ = server.accept()
client.setsockopt(socket.IPPROTO_TCP, socket.TCP_NODELAY, 1)
while part := client.recv(512):
    client.sendall(part)
"""
FLOOD = """
import socket, sys, threading
flood = socket.create_connection(("127.0.0.1", int(sys.argv[1])))
def read():
    print(end=flood.recv(1).decode(), flush=True)
    while flood.recv(65536):
        pass
threading.Thread(target=read, daemon=True).start()
while True:
    flood.sendall(b"status\\nnow\\n" * 500)
"""
# Sets another tempo 20 times a second.
CHANGE = """
import socket, sys, time
talk = socket.create_connection(("127.0.0.1", int(sys.argv[1])))
for k in range(10**9):
    talk.sendall(b"tempo %d\\n" % (400000 + 100 * (k % 20000)))
    talk.recv(512)
    time.sleep(0.05)
"""
# So many watch. It tells by how many microseconds each line came after an alive of the second server. A response may have told it before.
WATCH = """
import re, selectors, socket, sys, time
ear = socket.socket(socket.AF_INET, socket.SOCK_DGRAM)
ear.bind(("127.0.0.1", 0))
print(ear.getsockname()[1], flush=True)
port, count = map(int, sys.stdin.readline().split())
talks = [socket.create_connection(("127.0.0.1", port)) for _ in range(count)]
for talk in talks:
    talk.sendall(b"watch\\n")
    assert talk.recv(512).startswith(b"ok\\n")
print("watching", flush=True)
ways = selectors.DefaultSelector()
for way in (*talks, ear, sys.stdin):
    ways.register(way, selectors.EVENT_READ)
told, came = {}, {}
while True:
    ready = [key.fileobj for key, _ in ways.select(0)]
    at = time.perf_counter()
    if sys.stdin in ready:
        break
    for way in ready:
        part = way.recv(65536)
        if way is ear:
            if part[:9] == b"_asdp_v\\x01\\x01":
                told.setdefault(int.from_bytes(part[28:36], "big"), at)
        else:
            for mpb in re.findall(rb"changed (\\d+) ", part):
                came.setdefault((way, int(mpb)), at)
print(*(round(1e6 * (at - told[mpb])) for (_, mpb), at in came.items() if told.get(mpb, at) < at))
"""


def free_ports(many):
    held = [socket.socket(socket.AF_INET, socket.SOCK_DGRAM) for _ in range(many)]
    try:
        for gate in held:
            gate.bind(("127.0.0.1", 0))
        return [gate.getsockname()[1] for gate in held]
    finally:
        for gate in held:
            gate.close()


class Client:
    def __init__(self, port):
        self.socket, self.rest = socket.create_connection(("127.0.0.1", port), PATIENCE), b""
        self.socket.setsockopt(socket.IPPROTO_TCP, socket.TCP_NODELAY, 1)
        self.socket.setblocking(False)

    def answer(self):
        """The next line that is an answer, for which the processor isn't given away."""
        end = time.perf_counter() + PATIENCE
        while time.perf_counter() < end:
            while b"\n" in self.rest:
                line, self.rest = self.rest.split(b"\n", 1)
                if not line.startswith(b"changed "):
                    return line
            try:
                part = self.socket.recv(65536)
            except BlockingIOError:
                continue
            if not part:
                sys.exit("the connection ended")
            self.rest += part
        sys.exit("no answer came")

    def ask(self, line):
        self.socket.send(line)
        return self.answer()

    def sample(self, line):
        """Microseconds from the sending of a line to its answer. What came by itself is taken before."""
        time.sleep(draw.uniform(0.001, 0.003))
        with contextlib.suppress(BlockingIOError):
            self.rest = self.rest[self.rest.rfind(b"\n") + 1 :] + self.socket.recv(65536)
        start = time.perf_counter()
        self.ask(line)
        return 1e6 * (time.perf_counter() - start)


class Server:
    def __init__(self, *words):
        self.told = tempfile.TemporaryFile()
        self.child = subprocess.Popen([program, "127.0.0.1:0", "--end-allowed", *words], stdin=subprocess.DEVNULL, stdout=subprocess.DEVNULL, stderr=self.told)
        end = time.monotonic() + PATIENCE
        while not (found := re.search(rb": listening.* at 127\.0\.0\.1:([0-9]+)\n", os.pread(self.told.fileno(), 1 << 16, 0))):
            if time.monotonic() > end or self.child.poll() is not None:
                sys.exit("it does not say where it listens")
            time.sleep(0.01)
        self.port = int(found[1])

    def end(self, client):
        """What it has used."""
        client.ask(b"end\n")
        _, status, used = os.wait4(self.child.pid, 0)
        self.child.returncode = os.waitstatus_to_exitcode(status)
        if self.child.returncode != 0:
            sys.exit(f"the server ended with status {self.child.returncode}")
        return used


def beside(stack, text, *words):
    """A process of Python that goes on meanwhile."""
    child = stack.enter_context(subprocess.Popen([sys.executable, "-c", text, *map(str, words)], stdin=subprocess.PIPE, stdout=subprocess.PIPE, text=True))
    stack.callback(child.kill)
    return child


def samples(stack, client):
    """Those of a client by turns with those of an echo."""
    plain = Client(int(beside(stack, ECHO).stdout.readline()))
    pairs = [(plain.sample(line), client.sample(line)) for _ in range(count) for line in LINES]
    return [echo for echo, _ in pairs], [answer for _, answer in pairs]


def middle_and_most(times):
    ordered = sorted(times)
    return ordered[len(ordered) // 2], ordered[len(ordered) * 99 // 100]


def add_samples(what, found, aim=RATIO):
    echoes, answers = found
    (plain, plain_most), (median, most) = middle_and_most(echoes), middle_and_most(answers)
    note(f"{what}: {len(answers):,} samples, least {min(answers):.1f} µs, greatest {max(answers):.1f}; the echo: least {min(echoes):.1f}, greatest {max(echoes):.1f}")
    table.add(f"{what}, from a line to its answer: median; 99th percentile", f"{median:.1f} µs; {most:.1f} µs")
    figure = f"{median / plain:.2f} times {plain:.1f} µs; {most / plain_most:.2f} times {plain_most:.1f} µs"
    told = (f"at most {aim} times in the median", median / plain <= aim) if aim else ()
    table.add(f"{what}, from a line to its answer, over a plain TCP echo: median; 99th percentile", figure, *told)
    return median


def one_client():
    with contextlib.ExitStack() as stack:
        server = Server()
        stack.callback(server.child.kill)
        client = Client(server.port)
        found = samples(stack, client)
        server.end(client)
    return add_samples("`serve` with one client", found)


def watching():
    """The tempo is changed for as long as the samples take."""
    with contextlib.ExitStack() as stack:
        watch = beside(stack, WATCH)
        ear, (first, second) = int(watch.stdout.readline()), free_ports(2)
        servers = [
            Server("--gate", f"127.0.0.1:{first}", "--to", f"127.0.0.1:{second}"),
            Server("--gate", f"127.0.0.1:{second}", "--to", f"127.0.0.1:{first}", "--to", f"127.0.0.1:{ear}"),
        ]
        for server in servers:
            stack.callback(server.child.kill)
        client, other = (Client(server.port) for server in servers)
        until_met(client, other)
        print(servers[0].port, SEATS - 1, file=watch.stdin, flush=True)
        watch.stdout.readline()
        client.ask(b"watch\n")
        change = beside(stack, CHANGE, servers[1].port)
        found = samples(stack, client)
        change.kill()
        add_samples("`serve` with 15 watching clients while the tempo changes", found)
        print(file=watch.stdin, flush=True)
        late = list(map(int, watch.stdout.readline().split()))
        servers[0].end(client)
        servers[1].end(other)
    add_late(late)


def until_met(*clients):
    end = time.monotonic() + PATIENCE
    while time.monotonic() < end:
        views = [client.ask(b"status\n").split() for client in clients]
        if all(view[6] == b"1" for view in views) and views[0][8] == views[1][8]:
            return
        time.sleep(0.1)
    sys.exit("the servers never share a session")


def add_late(late):
    if len(late) < CHANGES:
        sys.exit(f"only {len(late)} lines told of changes")
    median, most = (time / 1000 for time in middle_and_most(late))
    note(f"changes: {len(late):,} lines, least {min(late) / 1000:.2f} ms, greatest {max(late) / 1000:.2f}")
    what = "`serve`, a change of a second server, from its datagram to the line at each of 14 watching clients: median; 99th percentile"
    table.add(what, f"{median:.2f} ms; {most:.2f} ms", f"at most {LATE} ms in the 99th percentile", most <= LATE)


def flooded(quiet):
    with contextlib.ExitStack() as stack:
        server = Server()
        stack.callback(server.child.kill)
        client = Client(server.port)
        flood = beside(stack, FLOOD, server.port)
        flood.stdout.read(1)
        found = samples(stack, client)
        flood.kill()
        server.end(client)
    ratio = add_samples("`serve` beside a flood", found, None) / quiet
    table.add("`serve` beside a flood, over one client alone: median", f"{ratio:.2f} times", f"at most {FLOODED} times", ratio <= FLOODED)


def idle():
    (nobody,) = free_ports(1)
    start = time.perf_counter()
    server = Server("--gate", "127.0.0.1:0", "--to", f"127.0.0.1:{nobody}")
    client = Client(server.port)
    time.sleep(seconds)
    used = server.end(client)
    passed = time.perf_counter() - start
    share = spent(used) / passed
    note(f"an idle run: {passed:.2f} s, {spent(used):.3f} s of the processor, {used.ru_nvcsw / passed:.0f} waits a second")
    what = f"`serve`, an idle run of {seconds} seconds with one client"
    table.add(f"{what}: of the processor", f"{spent(used):.2f} s, {100 * share:.2f} %", f"at most {SHARE:.0%} of one", share <= SHARE)
    table.add(f"{what}: peak memory", f"at most {used.ru_maxrss * 1024 / 1e6:.1f} MB")


quiet = one_client()
watching()
flooded(quiet)
idle()
table.show()
