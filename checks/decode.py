#!/usr/bin/env python3
"""Compares the built program's `decode` with a plain reading of the formats: checks/decode.py PROGRAM.

Its datagrams are an alive, a response, a bye, a ping and a pong, each with every single byte changed to 0, to 255 and to its value plus
one; the first n bytes of the alive for every n; repeated, reordered, unknown and empty entries; sizes that pass the end by far; two faults
at once; 512 and 513 bytes. Beside them the texts that checks/worked.py has for `decode`, with what was worked out by hand. The last line is
'N passed, N failed'.
"""
import struct
import sys

sys.dont_write_bytecode = True
import common  # noqa: E402
import worked  # noqa: E402

LIMIT = 2**60
STATE = {b"tmln": 24, b"sess": 8, b"stst": 17, b"mep4": 6}
PONG = {b"sess": 8, b"__gt": 8, b"__ht": 8, b"_pgt": 8}


def number(value, at):
    return struct.unpack(">q", value[at : at + 8])[0]


def last_values(payload, known):
    """The last value of each known key, or the line of the first fault."""
    values, at = {}, 0
    while at < len(payload):
        if len(payload) - at < 8:
            return None, f"fault cut {at}"
        key, size = payload[at : at + 4], struct.unpack(">I", payload[at + 4 : at + 8])[0]
        if len(payload) - at - 8 < size:
            return None, f"fault cut {at}"
        if key in known and size != known[key]:
            return None, f"fault size {key.hex()} {size}"
        if key in known:
            values[key] = payload[at + 8 : at + 8 + size]
        at += 8 + size
    return values, None


def out_of_range(numbers):
    for key, value, least, greatest in numbers:
        if not least <= value <= greatest:
            return f"fault range {key.hex()} {value}"
    return None


def state_words(payload):
    values, fault = last_values(payload, STATE)
    if fault:
        return fault, None
    for key in (b"tmln", b"sess"):
        if key not in values:
            return f"fault missing {key.hex()}", None
    timeline, start = values[b"tmln"], values.get(b"stst", bytes(17))
    mpb, beat, time = (number(timeline, at) for at in (0, 8, 16))
    beats, stamp = number(start, 1), number(start, 9)
    fault = out_of_range(
        [(b"tmln", mpb, 1, 2**31)]
        + [(b"tmln", n, -LIMIT, LIMIT) for n in (beat, time)]
        + [(b"stst", n, -LIMIT, LIMIT) for n in (beats, stamp)]
    )
    if fault:
        return fault, None
    endpoint = "-"
    if b"mep4" in values:
        a, b, c, d, port = struct.unpack(">BBBBH", values[b"mep4"])
        endpoint = f"{a}.{b}.{c}.{d}:{port}"
    return None, f"{mpb} {beat} {time} {values[b'sess'].hex()} {int(start[0] != 0)} {beats} {stamp} {endpoint}"


def pong_words(payload):
    values, fault = last_values(payload, PONG)
    if fault:
        return fault
    for key in (b"sess", b"__gt"):
        if key not in values:
            return f"fault missing {key.hex()}"
    ghost, host, previous = (number(values.get(key, bytes(8)), 0) for key in (b"__gt", b"__ht", b"_pgt"))
    fault = out_of_range([(b"__gt", ghost, -LIMIT, LIMIT), (b"__ht", host, -LIMIT, LIMIT), (b"_pgt", previous, -LIMIT, LIMIT)])
    return fault or f"pong {values[b'sess'].hex()} {ghost} {host} {previous}"


def line_of(datagram):
    if len(datagram) < 9:
        return f"fault short {len(datagram)}"
    head, kind = datagram[:8], datagram[8]
    if head not in (b"_asdp_v\x01", b"_link_v\x01"):
        return "fault notlink"
    if len(datagram) > 512:
        return f"fault toolong {len(datagram)}"
    if head == b"_link_v\x01":
        payload = datagram[9:]
        if kind == 1:
            return f"ping {payload.hex() or '-'}"
        return pong_words(payload) if kind == 2 else f"other link {kind}"
    if len(datagram) < 20:
        return f"fault short {len(datagram)}"
    sender = f"{datagram[12:20].hex()} {datagram[9]} {struct.unpack('>H', datagram[10:12])[0]}"
    if kind == 3:
        return f"bye {sender}"
    if kind not in (1, 2):
        return f"other discovery {kind}"
    fault, words = state_words(datagram[20:])
    return fault or f"{'alive' if kind == 1 else 'response'} {sender} {words}"


def entry(key, value, size=None):
    return key + struct.pack(">I", len(value) if size is None else size) + value


def datagrams():
    timeline = entry(b"tmln", struct.pack(">qqq", 500_000, 0, 0))
    session, start = entry(b"sess", b"ABCDEFGH"), entry(b"stst", bytes(17))
    endpoint = entry(b"mep4", bytes([127, 0, 0, 1]) + struct.pack(">H", 20808))
    header = b"_asdp_v\x01\x01\x05\x00\x00ABCDEFGH"
    alive = header + timeline + session + start + endpoint
    response = b"_asdp_v\x01\x02\x05\x00\x00QRSTUVWX" + timeline + entry(b"sess", b"QRSTUVWX") + start + endpoint
    bye = b"_asdp_v\x01\x03\x00\x00\x00ABCDEFGH"
    ping = b"_link_v\x01\x01" + entry(b"__ht", struct.pack(">q", 1000)) + entry(b"_pgt", struct.pack(">q", -7))
    pong = b"_link_v\x01\x02" + session + entry(b"__gt", struct.pack(">q", 250)) + ping[9:]
    for whole in (alive, response, bye, ping, pong):
        yield whole
        for at, byte in enumerate(whole):
            for changed in (0, 255, (byte + 1) % 256):
                yield whole[:at] + bytes([changed]) + whole[at + 1 :]
    for n in range(len(alive)):
        yield alive[:n]
    other = entry(b"tmln", struct.pack(">qqq", 400_000, -LIMIT, LIMIT))
    empty, unknown = entry(b"none", b""), entry(b"mep6", bytes(18))
    parts = [timeline, session, start, endpoint]
    for at in range(5):
        for more in (empty, unknown, other, timeline, session, entry(b"sess", b""), entry(b"tmln", bytes(25)), entry(b"stst", b"\x02" + bytes(16))):
            yield header + b"".join(parts[:at] + [more] + parts[at:])
            yield header + b"".join((parts[:at] + [more] + parts[at:])[::-1])
    for size in (0xFFFFFFFF, 2**31, 25, 23):
        for at in range(5):
            yield header + b"".join(parts[:at]) + entry(b"tmln", bytes(24), size) + b"".join(parts[at:])
    for mpb in (-1, 0, 1, 2**31, 2**31 + 1):
        yield header + entry(b"tmln", struct.pack(">qqq", mpb, 0, 0)) + session
    for n in (LIMIT, LIMIT + 1, -LIMIT, -LIMIT - 1, 2**63 - 1, -(2**63)):
        yield header + entry(b"tmln", struct.pack(">qqq", 1, n, 0)) + session
        yield header + entry(b"tmln", struct.pack(">qqq", 1, 0, n)) + session
        yield header + timeline + session + entry(b"stst", b"\x01" + struct.pack(">qq", n, 0))
        yield header + timeline + session + entry(b"stst", b"\xff" + struct.pack(">qq", 0, n))
        for key in (b"__gt", b"__ht", b"_pgt"):
            yield b"_link_v\x01\x02" + session + entry(b"__gt", bytes(8)) + entry(key, struct.pack(">q", n))
    for length in (511, 512, 513, 514):
        yield alive + entry(b"fill", bytes(length - len(alive) - 8))
        yield b"_link_v\x01\x01" + bytes(length - 9)
        yield b"_asdp_v\x01\x09\x05\0\0ABCDEFGH" + bytes(length - 20)
        yield bytes(length)
    yield from twice_at_fault(header, timeline, session)


def twice_at_fault(header, timeline, session):
    """Payloads with two faults, of which one is told: sizes, cuts, missing keys, and numbers out of range."""
    link, cut = b"_link_v\x01\x02", b"mep4\x80\0\0\0"

    def line(mpb, beat, time):
        return entry(b"tmln", struct.pack(">qqq", mpb, beat, time))

    def start(beats, stamp):
        return entry(b"stst", b"\x80" + struct.pack(">qq", beats, stamp))

    def numbers(*pairs):
        return b"".join(entry(key, struct.pack(">q", n)) for key, n in pairs)

    yield header + entry(b"sess", b"ABCDEFG") + cut
    yield header + session + cut
    yield header + session + entry(b"stst", bytes(16))
    yield header + start(LIMIT + 1, 0)
    yield header + line(0, LIMIT + 1, LIMIT + 2) + session
    yield header + line(500_000, LIMIT + 1, LIMIT + 2) + session
    yield header + start(LIMIT + 1, 0) + session + line(500_000, 0, LIMIT + 2)
    yield header + start(LIMIT + 1, LIMIT + 2) + session + timeline
    yield header + start(-256, 7) + session + timeline
    yield link + numbers((b"__ht", LIMIT + 1))
    yield link + session + numbers((b"__ht", LIMIT + 1))
    yield link + session + cut + numbers((b"__gt", 257))
    yield link + numbers((b"_pgt", LIMIT + 1), (b"__ht", LIMIT + 2), (b"__gt", 257)) + session
    yield link + numbers((b"_pgt", LIMIT + 1), (b"__ht", LIMIT + 2), (b"__gt", -LIMIT - 1)) + session
    yield link + numbers((b"_pgt", 3), (b"__ht", -2), (b"__gt", 257)) + session


def main(program):
    given, tally = list(datagrams()), common.Tally()
    # Digits of upper case for every other one.
    text = "".join((d.hex().upper() if k % 2 else d.hex()) + "\n" for k, d in enumerate(given))
    status, output, error = common.ended([program, "decode"], text)
    told = output.split("\n")[:-1]
    if status != 0 or len(told) != len(given):
        print(f"the program ended with {status} after {len(told)} lines for {len(given)} datagrams: {error}")
        told = [None] * len(given)
    for datagram, line in zip(given, told):
        wanted = line_of(datagram)
        tally.note(line == wanted, line and f"{datagram.hex()}\n  wanted {wanted}\n  told   {line}")
    for text, wanted in worked.decoded():
        found = common.answer(program, ["decode"], text.encode())
        tally.note(worked.agrees(found, wanted), f"{text[:200]!r}\n  wanted {str(wanted)[:400]}\n  told   {str(found)[:400]}")
    return tally.end()


if __name__ == "__main__":
    common.begin(main, __doc__)
