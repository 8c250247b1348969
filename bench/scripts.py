#!/usr/bin/env python3
"""Writes a script for bench/replay.sh on standard output: bench/scripts.py NAME PEERS EVENTS.

`alives` has alives alone, each of the same peer from another address. In the others PEERS peers, a quarter of them on each of four gates,
tell their state once, and EVENTS events follow. `mixed` has in 16 events eight alives, two pings, two pongs, two ticks, an application
commit and an audio commit, a millisecond apart, with one destination on each gate. Every 32nd alive has a newer timeline. Every 512 events
a visitor comes in a session of its own, which is then measured: its 51 pongs are the next ones, and are answered by pings.

The other names have events of one kind, a tenth of a millisecond apart, and no destination: `response`, `alive`, `ping`, `passed` (a pong
that nobody waits for), `pongs` (a visitor's response, a tick and its 51 pongs), `bye` (a bye, and a response that brings the row back),
`tick`, `app`, `audio`, `end`. Each has an idle form, as `ping-idle`, of the same lines, as long and with as many words, in which less is
done: datagrams have another first byte and so aren't of Link, ticks are ends (which without destinations do nothing), commits meet a spent
origin, and ends are comments.
"""
import sys

SESSION = b"BENCHNOD"
OPENED = 1_000_000


def entry(key, value):
    return key + len(value).to_bytes(4, "big") + value


def eight(n):
    return n.to_bytes(8, "big", signed=True)


def state(kind, sender, session, beat, port, ttl=5):
    endpoint = bytes([10, 0, 0, 1, *port.to_bytes(2, "big")])
    values = ((b"tmln", eight(500_000) + eight(beat) + eight(0)), (b"sess", session), (b"stst", bytes(17)), (b"mep4", endpoint))
    return (b"_asdp_v\x01" + bytes([kind, ttl, 0, 0]) + sender + b"".join(entry(key, value) for key, value in values)).hex()


class Lines:
    """Makes a line for an event of each kind; the moment is that of the next one."""

    def __init__(self, peers, step):
        self.peers, self.step, self.now, self.known = peers, step, OPENED, {}
        self.seen, self.newest, self.commits, self.visits = 0, 0, 0, 0

    def rx(self, peer, digits):
        return f"rx {self.now} {peer % 4} 10.0.0.1:{10_000 + peer} {digits}\n"

    def peer(self):
        self.seen += 1
        return self.seen * 7 % self.peers

    def told(self, kind, peer, ttl=5):
        key = kind, peer, self.newest
        if key not in self.known:
            self.known[key] = state(kind, b"PEER%04d" % peer, SESSION, self.newest, 10_000 + peer, ttl)
        return self.rx(peer, self.known[key])

    def opening(self):
        return "".join(self.told(2, peer, 255) for peer in range(self.peers))

    def alive(self):
        return self.told(1, self.peer())

    def newer(self):
        self.newest, self.known = self.newest + 10**9, {}
        return self.alive()

    def response(self):
        return self.told(2, self.peer())

    def ping(self):
        payload = entry(b"__ht", eight(self.now)) + entry(b"_pgt", eight(self.now))
        return self.rx(self.peer(), (b"_link_v\x01\x01" + payload).hex())

    def visit(self, kind):
        self.visits += 1
        return f"rx {self.now} 0 10.0.0.1:9999 {state(kind, b'VISITING', b'V%07d' % self.visits, 0, 9999)}\n"

    def pong(self):
        """A visitor's, whose session is a thousand seconds behind and so isn't joined. Its host time may be any: its points fit."""
        host, offset = self.now - 200, -OPENED - 10**9
        ghost, previous = offset + self.now - 100, offset + self.now - 300
        payload = entry(b"sess", b"V%07d" % self.visits) + entry(b"__gt", eight(ghost)) + entry(b"__ht", eight(host)) + entry(b"_pgt", eight(previous))
        return f"rx {self.now} 0 10.0.0.1:9999 {(b'_link_v' + bytes([1, 2]) + payload).hex()}\n"

    def bye(self):
        """Of the peer that the next response is from."""
        peer = (self.seen + 1) * 7 % self.peers
        return self.rx(peer, (b"_asdp_v\x01\x03\0\0\0PEER%04d" % peer).hex())

    def tick(self):
        return f"tick {self.now}\n"

    def end(self):
        return f"end {self.now}\n"

    def commit(self, word):
        self.commits += 1
        return f"{word} {self.now} t {400_000 + self.commits % 1000 * 100} 0 {self.now} s {self.commits % 2} {self.now} {self.now}\n"

    def app(self):
        return self.commit(f"app {self.now}")

    def audio(self):
        return self.commit(f"audio {self.now} {self.commits + 1}")


A, P, O, T = Lines.alive, Lines.ping, Lines.pong, Lines.tick
MIXED = [A, P, A, T, A, O, A, Lines.app, A, P, A, T, A, O, A, Lines.audio]
KINDS = {
    "response": [Lines.response],
    "alive": [A],
    "ping": [P],
    "passed": [O],
    "pongs": [lambda lines: lines.visit(2), T] + [O] * 51,
    "bye": [Lines.bye, Lines.response],
    "tick": [T],
    "app": [Lines.app],
    "audio": [Lines.audio],
    "end": [Lines.end],
}
IDLE = {"rx": (" 5f", " 5e"), "tick": ("tick", "end"), "end": ("end", "#nd")}


def kind_at(name, k):
    if name != "mixed":
        return KINDS[name][k % len(KINDS[name])]
    if k % 512 == 0:
        return lambda lines: lines.visit(1)
    return Lines.newer if k % 64 == 2 else MIXED[k % 16]


def alives(events):
    digits = state(1, b"ABCDEFGH", b"ABCDEFGH", 0, 20808)
    yield "replay 1\nnode BENCHNOD 1 500000 1 1000000\ngate 127.0.0.1:20809\n"
    for k in range(events):
        yield f"rx {OPENED + 100 + k * 37} 0 10.{k >> 16 & 255}.{k >> 8 & 255}.{k & 255}:20808 {digits}\n"


def others(name, peers, events):
    yield f"replay 1\nnode {SESSION.decode()} 1 500000 1 {OPENED}\n"
    for gate in range(4):
        yield f"gate 127.0.0.1:{20808 + gate}\n" + (f"to 127.0.0.1:{30808 + gate}\n" if name == "mixed" else "")
    lines, kind, idle = Lines(peers, 1000 if name == "mixed" else 100), name.removesuffix("-idle"), name.endswith("-idle")
    yield lines.opening()
    if kind in ("app", "audio") and idle:
        yield f"rx {OPENED} 0 10.0.0.1:9999 {state(2, b'PEER0000', SESSION, 2**60, 9999, 255)}\n"
    for k in range(events):
        lines.now += lines.step
        line = kind_at(kind, k)(lines)
        yield line.replace(*IDLE.get(line.split(" ", 1)[0], ("", "")), 1) if idle else line


def main():
    name, peers, events = sys.argv[1], int(sys.argv[2]), int(sys.argv[3])
    for line in alives(events) if name == "alives" else others(name, peers, events):
        sys.stdout.write(line)


if __name__ == "__main__":
    main()
