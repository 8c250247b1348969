#!/usr/bin/env python3
"""Plays the built drum machine, beside a live run, alone and beside another one, and measures its WAV: checks/drums.py PROGRAM DRUMS.

PROGRAM is jorazhil's own, and DRUMS the drum machine's. The live run's clicks are lines on its standard error, each with its host time. It
starts to play, and changes its tempo twice between two beats. The drum machine comes a second later, and plays in the live run's session
from its first step on, with a stroke on each beat; the onsets in its WAV are found by their level alone. The two clocks begin apart, by
how much nobody knows: so the onsets have to be where the clicks are, but for one distance that all of them share, to within a millisecond;
each click that falls into the WAV has its onset, and each onset its click. Its MIDI clock goes on with the session's, 24 times a beat of
the last tempo. Beside a second live run, which stops, the onsets end with the clicks. A third one comes later, and is started by it. Then
a pattern of sixteenths, whose onsets are quarters of a beat apart, from the front of the WAV on, each with a MIDI clock, which tells its
host time; one that begins with a rest; and the WAV's header. Two drum machines beside each other: what a listener hears of them, each with
an id of its own, up to their goodbyes; and two that begin within a second. As many destinations as there may be, and one that the system
refuses. When the first block begins, and when the run ends. A journal that is full before the end. A rehearsal by other patterns, which
has the stored one's steps; patterns and words at fault, with their statuses and whole texts; and `jorazhil drums`.
The last line is 'N passed, N failed'.
"""
import os
import re
import socket
import struct
import subprocess
import sys
import tempfile
import time
from contextlib import ExitStack

sys.dont_write_bytecode = True
import common  # noqa: E402
import node  # noqa: E402
from common import CHILDREN, HERE, Differs, come, free_ports, listener, reason_to_refuse, started, want  # noqa: E402

RATE, FRAMES, BLOCK = 48_000, 960, 20_000
REST = "." * 16
BEATS, SIXTEENTHS, OFFBEATS = "x...x...x...x...", "x" * 16, ".x" * 8
# How long the drum machine listens before its first block, in microseconds.
LISTENS = 500_000
# The live run, whose beats are half a second apart at first: it begins to play in the middle between two of them, and changes its tempo two
# fifths of a beat behind one, so that a thread that is held up for a sixth of a second still plays the beat before by the old tempo. The
# drum machine plays its blocks from about a second and a half of it on, and ends before it does. All in microseconds.
PLAY_AT, CHANGES, END, BLOCKS = 750_000, ((4_200_000, 400_000), (7_000_000, 600_000)), 11_000_000, 430
# The live run that stops.
STOP_CHANGE, STOP_AT, STOP_END, STOP_BLOCKS = (3_200_000, 400_000), 4_600_000, 7_600_000, 280
# The live run that the drum machine starts ends before that does.
PEER_END, PEER_BLOCKS = 4_000_000, 300
# A millisecond, in microseconds.
NEAR = 1_000
# A frame, with what is lost where times are rounded, in microseconds.
FRAME = 22
# The most destinations, and how many events find room in a journal.
MOST_PEERS, ROOM = 32, 262_144
# For how many blocks a journal is filled, and how many datagrams are on their way at once: a socket has room for twice as many.
FULL_BLOCKS, FLOOD = 500, 128
SET_UP = "room for 262144 events, bars of 4 beats"
USAGE = "drum_machine: these words are none that it takes\n\n" + common.page_of("drums").replace("jorazhil drums", "drum_machine")
PING, PONG = b"_link_v\x01\x01", b"_link_v\x01\x02"

def at_port(port):
    return f"127.0.0.1:{port}"


def pattern(kick, snare=REST, hat=REST):
    return f"kick {kick}\nsnare {snare}\nhat {hat}\n"


def samples_of(wav, blocks):
    """The samples of a WAV of so many blocks."""
    size = 2 * FRAMES * blocks
    head = b"RIFF" + struct.pack("<I", 36 + size) + b"WAVEfmt " + struct.pack("<IHHIIHH", 16, 1, 1, RATE, 2 * RATE, 2, 16) + b"data" + struct.pack("<I", size)
    want("the head of the WAV", wav[:44], head)
    want("how many bytes of sound it has", len(wav) - 44, size)
    return struct.unpack(f"<{FRAMES * blocks}h", wav[44:])


def onsets_in(samples):
    """The times in microseconds at which a kick begins: the level is high where it was low for five milliseconds."""
    found, quiet = [], 240
    for frame, level in enumerate(samples):
        if abs(level) >= 7_900:
            if quiet >= 240:
                found.append(frame * 1_000_000 / RATE)
            quiet = 0
        elif abs(level) < 4_000:
            quiet += 1
    return found


def messages_in(midi):
    """The host time and the hex digits of each MIDI message that was told."""
    return [(int(at), digits) for at, digits in re.findall(r"^midi (\d+) ([0-9a-f]+)$", midi.decode(), re.M)]


def clocks_in(messages):
    """The host times of the clocks among MIDI messages."""
    return [at for at, digits in messages if digits == "f8"]


def beside_live(program, drums, changes, end, blocks):
    """The clicks of a live run that plays, with these changes, and the sound and the MIDI messages of the drum machine that joins it."""
    here, there = free_ports(2)
    with listener() as ear, tempfile.TemporaryFile() as sound, tempfile.TemporaryFile() as midi:
        to = [f"to {at_port(port)}" for port in (there, ear.getsockname()[1])]
        commands = [f"at {PLAY_AT} play", *changes, f"at {end} look"]
        script = "\n".join(["link 1", "setup 500000 1", f"gate {at_port(here)}", *to, *commands]) + "\n"
        live = started([program, "live", "--blocks", str(end // BLOCK)], script, stdout=subprocess.DEVNULL, stderr=subprocess.PIPE)
        # Once its first alive has come, it is there. A session that is older by more than half a second wins.
        ear.recvfrom(513)
        time.sleep(1)
        played = started([drums, str(blocks), "500000", at_port(there), at_port(here)], pattern(BEATS), stdout=sound, stderr=midi)
        want("the drum machine's status", played.wait(timeout=60), 0)
        clicks = [int(at) for at in re.findall(rb"^click (\d+) ", live.communicate(timeout=60)[1], re.M)]
        want("the live run's status", live.returncode, 0)
        sound.seek(0)
        midi.seek(0)
        return clicks, sound.read(), messages_in(midi.read())


def session(program, drums):
    """A thread that is held up for longer plays by another state than the other one, so such a run is made again: one of three isn't."""
    for tries in range(3):
        try:
            return one_session(program, drums)
        except (Differs, LookupError):
            if tries == 2:
                raise


def one_session(program, drums):
    clicks, wav, messages = beside_live(program, drums, [f"at {at} tempo {mpb}" for at, mpb in CHANGES], END, BLOCKS)
    onsets = onsets_in(samples_of(wav, BLOCKS))
    want("that there are clicks", len(clicks) > 12, True)
    apart = best_distance(clicks, onsets)
    inside = [click for click in clicks if NEAR <= click + apart < BLOCKS * BLOCK - NEAR]
    want("that two changes of tempo are heard", inside[-1] > CHANGES[1][0] + 2_000_000, True)
    missed = [click for click in inside if not any(abs(click + apart - onset) <= NEAR for onset in onsets)]
    want("the clicks that have no onset within a millisecond", missed, [])
    heard = [onset - apart for onset in onsets if onset - apart < END]
    want("the onsets that have no click within a millisecond", [at for at in heard if not any(abs(click - at) <= NEAR for click in clicks)], [])
    # The session plays, so it starts nothing itself.
    want("the MIDI messages that are no clocks", [digits[:2] for _, digits in messages if digits != "f8"], ["f2", "fb"])
    clocks = clocks_in(messages)
    want("that clocks rise", clocks, sorted(clocks))
    # 24 of them to a beat of the last tempo, to a microsecond.
    gaps = [other - one for one, other in zip(clocks[-100:], clocks[-99:])]
    want("that the last clocks are 24 to a beat", [gap for gap in gaps if abs(gap - CHANGES[1][1] / 24) > 1], [])


def best_distance(clicks, onsets):
    """How much an onset is later than its click, by the two clocks: the distance that most of them share."""
    ends = [onset - click for click in clicks for onset in onsets]
    return max(ends, key=lambda apart: (sum(abs(other - apart) <= NEAR / 2 for other in ends), -abs(apart)))


def stop(program, drums):
    """The live run's stop is the drum machine's too: half a second and a stroke behind it nothing is struck any more."""
    changes = ["at {} tempo {}".format(*STOP_CHANGE), f"at {STOP_AT} stop"]
    clicks, wav, messages = beside_live(program, drums, changes, STOP_END, STOP_BLOCKS)
    onsets = onsets_in(samples_of(wav, STOP_BLOCKS))
    want("that there are clicks and onsets", len(clicks) > 4 and len(onsets) > 4, True)
    apart = best_distance(clicks, onsets)
    times = [onset - apart for onset in onsets]
    want("that there are onsets before the stop", len([at for at in times if STOP_AT - 1_500_000 <= at < STOP_AT]) >= 3, True)
    want("the onsets behind the stop, by the live run's clock", [at for at in times if at > STOP_AT + 500_000 + 400_000], [])
    want("that the sound goes on for a second and a half", STOP_BLOCKS * BLOCK - apart > STOP_AT + 1_500_000, True)
    want("the last MIDI message that is no clock", [digits for _, digits in messages if digits != "f8"][-1:], ["fc"])
    want("that clocks go on", clocks_in(messages)[-1] > LISTENS + STOP_BLOCKS * BLOCK - 50_000, True)


def starts_a_peer(program, drums):
    """A live run that joins the drum machine a second later, and doesn't play by itself, is started by it: it clicks where that strikes."""
    here, there = free_ports(2)
    script = f"link 1\nsetup 400000 1\ngate {at_port(here)}\nto {at_port(there)}\nat {PEER_END} look\n"
    with tempfile.TemporaryFile() as sound:
        played = started([drums, str(PEER_BLOCKS), "500000", at_port(there), at_port(here)], pattern(BEATS), stdout=sound, stderr=subprocess.DEVNULL)
        time.sleep(1)
        live = subprocess.run([program, "live", "--blocks", str(PEER_END // BLOCK)], input=script.encode(), capture_output=True, timeout=60)
        want("the live run's status", live.returncode, 0)
        want("the drum machine's status", played.wait(timeout=60), 0)
        sound.seek(0)
        onsets = onsets_in(samples_of(sound.read(), PEER_BLOCKS))
    clicks = [int(at) for at in re.findall(rb"^click (\d+) ", live.stderr, re.M)]
    want("that there are clicks", len(clicks) > 4, True)
    apart = best_distance(clicks, onsets)
    want("the clicks that have no onset within a millisecond", [at for at in clicks if not any(abs(at + apart - onset) <= NEAR for onset in onsets)], [])


def alone(drums):
    """A run that is held up right as it begins is made again: one of three isn't."""
    for _ in range(3):
        late = begin_alone(drums)
        if max(late) <= 5_000:
            break
    want(f"that beat 0 begins with the WAV, and that half a second behind the clock, where they are so much later: {late}", max(late) <= 5_000, True)


def begin_alone(drums):
    """Sixteenths at 150 beats a minute: 100 milliseconds apart, from the first frame on, each with a sixth clock. Answers of the first when
    it is heard, by the WAV, and by how much the WAV begins later than half a second behind the machine's clock, by the MIDI clock."""
    (port,) = free_ports(1)
    done = subprocess.run([drums, "100", "400000", at_port(port)], input=pattern(SIXTEENTHS).encode(), capture_output=True, timeout=60)
    want("its status", done.returncode, 0)
    onsets, messages = onsets_in(samples_of(done.stdout, 100)), messages_in(done.stderr)
    gaps = [other - one for one, other in zip(onsets, onsets[1:])]
    want("how many onsets there are", len(onsets), 20)
    want("that they are 100 milliseconds apart", all(abs(gap - 100_000) <= 30 for gap in gaps), True)
    want("what MIDI begins with", [digits for _, digits in messages[:2]], ["fa", "f8"])
    want("the MIDI messages that are no clocks", [digits for _, digits in messages if digits != "f8"], ["fa"])
    clocks = clocks_in(messages)
    want("that the start is at the first clock", clocks[0], messages[0][0])
    want("the clocks that are not 24 to a beat", [at for k, at in enumerate(clocks) if abs(at - clocks[0] - k * 400_000 / 24) > 1], [])
    # Host times are by the machine's own clock, which starts right before it listens.
    apart = clocks[0] - onsets[0]
    want(f"that it listens for half a second, where the WAV begins at {apart}", apart >= LISTENS, True)
    want("the onsets that have no clock", [onset for k, onset in enumerate(onsets) if abs(clocks[6 * k] - apart - onset) > FRAME], [])
    want(f"that clocks end with the WAV, at {clocks[-1] - apart}", 2_000_000 - 400_000 / 24 - FRAME <= clocks[-1] - apart < 2_000_000, True)
    return onsets[0], apart - LISTENS


def rests_first(drums):
    """Every other sixteenth, the first of which is a rest."""
    (port,) = free_ports(1)
    done = subprocess.run([drums, "50", "400000", at_port(port)], input=pattern(OFFBEATS).encode(), capture_output=True, timeout=60)
    want("its status", done.returncode, 0)
    onsets = onsets_in(samples_of(done.stdout, 50))
    want("how many onsets there are", len(onsets), 5)
    want(f"that they begin with the second sixteenth, at {onsets[0]}", 100_000 - FRAME <= onsets[0] < 150_000, True)
    gaps = [other - one for one, other in zip(onsets, onsets[1:])]
    want("that they are 200 milliseconds apart", all(abs(gap - 200_000) <= 30 for gap in gaps), True)


def alives_of(port, heard):
    """What the node at a port tells in its alives: its id and its state. They are all that is heard of it, but for a goodbye at the end."""
    sent = [datagram for datagram, source in heard if source == ("127.0.0.1", port)]
    want(f"whether anything is heard from {port}", len(sent) > 1, True)
    told = [(datagram[12:20], node.read_state(datagram[20:])) for datagram in sent[:-1]]
    for datagram, (name, state) in zip(sent, told):
        want(f"the kind, the time to live and the group of {datagram!r}", datagram[:12], b"_asdp_v\x01\x01\x05\0\0")
        want("where it answers pings", state and state[3], node.endpoint_of(at_port(port)))
        want("its spelling", datagram, node.write_state(1, 0, name, state[1], state[0], state[2], state[3]))
    want("the last that is heard", sent[-1], node.write_bye(0, told[-1][0]))
    return told


def once_each(values):
    """Each value that isn't that of the one before."""
    return [value for k, value in enumerate(values) if values[:k][-1:] != [value]]


def two_machines(drums):
    """The second begins a second later, so that the first one's session wins, and is alone in one of its own again for a last second."""
    with listener() as ear:
        ports = free_ports(2)
        gates = [at_port(port) for port in ports]
        own = at_port(ear.getsockname()[1])
        streams = {"stdout": subprocess.DEVNULL, "stderr": subprocess.DEVNULL}
        first = started([drums, "250", "500000", gates[0], gates[1], own], pattern(BEATS), **streams)
        heard = [ear.recvfrom(513)]
        time.sleep(1)
        second = started([drums, "250", "400000", gates[1], gates[0], own], pattern(BEATS), **streams)
        want("their statuses", [child.wait(timeout=60) for child in (first, second)], [0, 0])
        heard += come(ear)
    want("from where there are datagrams", {source for _, source in heard}, {("127.0.0.1", port) for port in ports})
    told = [alives_of(port, heard) for port in ports]
    one, other, last = told[0][0][0], told[1][0][0], told[1][-1][0]
    want(f"how many ids there are among {one}, {other} and {last}", len({one, other, last}), 3)
    sessions = [once_each([(name, state[1], state[0].mpb) for name, state in alives]) for alives in told]
    want("the id, the session and the tempo that the first one tells", sessions[0], [(one, one, 500_000)])
    want("the ids, sessions and tempos that the second one tells", sessions[1], [(other, other, 400_000), (other, one, 500_000), (last, last, 500_000)])


def most_peers(drums):
    """As many destinations as there may be, each of which hears an alive and the goodbye."""
    with ExitStack() as held:
        ears = [held.enter_context(listener()) for _ in range(MOST_PEERS)]
        (port,) = free_ports(1)
        words = [drums, "5", "500000", at_port(port), *(at_port(ear.getsockname()[1]) for ear in ears)]
        done = subprocess.run(words, input=pattern(BEATS).encode(), capture_output=True, timeout=60)
        want("its status", done.returncode, 0)
        for ear in ears:
            alives_of(port, come(ear))


def is_answered(asker, child):
    """Sends so many datagrams, the last of which is a ping, and answers whether its pong comes: not once the journal is full."""
    try:
        for _ in range(FLOOD - 1):
            asker.send(b"-")
        asker.send(PING)
        while child.poll() is None:
            try:
                if asker.recv(513).startswith(PONG):
                    return True
            except socket.timeout:
                pass
    except ConnectionRefusedError:
        # The run has ended.
        pass
    return False


def full_journal(drums):
    """A journal that datagrams fill long before the last block. What comes then isn't taken, and the sound goes on."""
    with listener() as asker, tempfile.TemporaryFile() as sound, tempfile.TemporaryFile() as told:
        (port,) = free_ports(1)
        words = [drums, str(FULL_BLOCKS), "400000", at_port(port), at_port(asker.getsockname()[1])]
        child = started(words, pattern(SIXTEENTHS), stdout=sound, stderr=told)
        # Once its first alive has come, it is there.
        asker.recv(513)
        asker.connect(("127.0.0.1", port))
        asker.settimeout(0.5)
        took = 0
        while is_answered(asker, child):
            took += FLOOD
        status = child.wait(timeout=60)
        sound.seek(0)
        told.seek(0)
        onsets, error = onsets_in(samples_of(sound.read(), FULL_BLOCKS)), told.read().decode()
    if status == 0 and took < ROOM - 1_000:
        print(f"note: {took} datagrams in {FULL_BLOCKS} blocks are too few here to fill a journal, so no full one is looked at")
        return
    full = "the journal was full before the run ended, and what the network brought then was not taken; a run with fewer blocks has room"
    want("its status, and what it tells last", (status, error.splitlines()[-1]), (6, f"drum_machine: {full}"))
    # There are ticks and the start beside them, and the last ones have no pong.
    want(f"that {took} datagrams find room", ROOM - 1_000 < took <= ROOM, True)
    want(f"that the last onset is at the end, at {onsets[-1]}", onsets[-1] > FULL_BLOCKS * BLOCK - 100_000 - FRAME, True)


def strokes_of(text):
    """What is struck at each step of a pattern."""
    rows = [line.split(" ") for line in text.splitlines()]
    return [" ".join(voice for voice, marks in rows if marks[step] == "x") or "-" for step in range(16)]


def rehearsal(drums):
    """The steps are those of the stored run, whatever the pattern; what is struck is the pattern's."""
    with open(os.path.join(HERE, "crates", "drum_machine", "stdin"), "rb") as text:
        stored = subprocess.run([drums], input=text.read(), capture_output=True, timeout=60)
    want("its status", stored.returncode, 0)
    with open(os.path.join(HERE, "crates", "drum_machine", "stdout"), "rb") as text:
        want("what it tells", stored.stdout, text.read())
    # A kick alone, none, and rests in all three voices before the first strokes.
    for text in (pattern(BEATS), pattern(REST, BEATS, SIXTEENTHS), pattern(OFFBEATS, "..x." * 4, "...x" * 4)):
        other = subprocess.run([drums], input=text.encode(), capture_output=True, timeout=60)
        want(f"the status of {text!r}", other.returncode, 0)
        lines = [[re.sub(rb":.*", b"", line) for line in told.splitlines()] for told in (stored.stdout, other.stdout)]
        want(f"the steps of {text!r}", lines[1], lines[0])
        struck = [line.split(": ")[1] for line in other.stdout.decode().splitlines() if line.startswith("bar ")]
        want(f"what is struck of {text!r}", struck, 4 * strokes_of(text))


def want_fault(drums, words, status, told, name, **given):
    """A run that ends with this status and tells just this on standard error, beside MIDI. It writes something where the network failed."""
    done = subprocess.run([drums, *words], stderr=subprocess.PIPE, timeout=60, **given)
    want(f"the status of {words} with {name}", done.returncode, status)
    said = [line for line in done.stderr.decode().splitlines() if not line.startswith("midi ")]
    want(f"what {words} tells with {name}", said, told.splitlines())
    if done.stdout is not None:
        want(f"whether {words} wrote something with {name}", bool(done.stdout), status == 3)


def fault(text):
    return f"drum_machine: {text}\n"


def line_fault(number, voice, marks):
    wanted = f'"{voice}", a space, 16 marks, each x or a dot, and a line feed, as in "{voice} {marks}"'
    return fault(f"line {number} of the pattern is at fault: it has to be {wanted}")


def about(port, blocks, seconds):
    return fault(f"session at 127.0.0.1:{port}; at most {blocks} blocks of 20 milliseconds ({seconds} seconds), {SET_UP}")


def faults(drums):
    good, (port,) = pattern(BEATS), free_ports(1)
    session_words = ["50", "500000", "127.0.0.1:1"]
    kick, snare, hat = (line_fault(*line) for line in ((1, "kick", BEATS), (2, "snare", "....x.......x..."), (3, "hat", "x." * 8)))
    behind = fault("line 4 of the pattern is at fault: it has three lines, and nothing behind them")
    too_long = fault("the pattern is longer than 4096 bytes; it has to be three lines, as in examples/drums/four.pattern")
    no_gate = "the gate 203.0.113.1:9 could not be bound: Cannot assign requested address (os error 99); the run goes on without the network"
    alone_then = f"session without the network; at most 5 blocks of 20 milliseconds (0.1 seconds), {SET_UP}"
    network = "the network failed: the address has to be this machine's and its port free; what was left was played without peers"
    unwritten = fault("the output could not be written; what was written is the front of it")
    cases = [
        ([], good.replace("kick", "Kick"), 8, kick),
        ([], pattern(BEATS + "."), 8, kick),
        ([], pattern(BEATS, "x" * 15), 8, snare),
        ([], pattern(BEATS, REST, "X" + REST[1:]), 8, hat),
        ([], good + "\n", 8, behind),
        ([], good[:-1], 8, hat),
        ([], "", 8, kick),
        ([], good.ljust(4096, "#"), 8, behind),
        ([], good.ljust(4097, "#"), 8, too_long),
        ([], good + "#" * 5000, 8, too_long),
        (["50"], good, 2, USAGE),
        (["50"], "", 2, USAGE),
        ([b"\xff"], good, 2, USAGE),
        (["0", *session_words[1:]], good, 2, USAGE),
        (["524289", *session_words[1:]], good, 2, USAGE),
        (["50", "60059", "127.0.0.1:1"], good, 2, USAGE),
        (["50", "3000001", "127.0.0.1:1"], good, 2, USAGE),
        (["50", "500000", "127.0.0.1"], good, 2, USAGE),
        ([*session_words, "127.0.0.1:65536"], good, 2, USAGE),
        ([*session_words, *(at_port(port) for port in range(2, MOST_PEERS + 3))], good, 2, USAGE),
        (["5", "500000", "203.0.113.1:9"], good, 3, fault(no_gate) + fault(alone_then) + fault(network)),
    ]
    for words, text, status, told in cases:
        want_fault(drums, words, status, told, repr(text[:60]), input=text.encode(), stdout=subprocess.PIPE)
    unread = fault("standard input could not be read; it has to be a pattern, as examples/drums/four.pattern")
    directory = os.open("/", os.O_RDONLY)
    try:
        for words in ([], session_words):
            want_fault(drums, words, 5, unread, "a directory", stdin=directory, stdout=subprocess.PIPE)
    finally:
        os.close(directory)
    with open("/dev/full", "wb") as full:
        want_fault(drums, [], 7, unwritten, "a full device", input=good.encode(), stdout=full)
        want_fault(drums, ["5", "500000", at_port(port)], 7, about(port, 5, "0.1") + unwritten, "a full device", input=good.encode(), stdout=full)


def refused(drums):
    """What is told of a run's set-up, and at its end of what the system refused to send: a broadcast, for which no option is set."""
    (port,) = free_ports(1)
    done = subprocess.run([drums, "10", "500000", at_port(port), "255.255.255.255:20808"], input=pattern(BEATS).encode(), capture_output=True, timeout=60)
    want("its status", done.returncode, 0)
    said = "".join(line + "\n" for line in done.stderr.decode().splitlines() if not line.startswith("midi "))
    told = fault(f"the system refused N datagrams to 255.255.255.255:20808, the last for: {reason_to_refuse()}")
    want("what it tells", re.sub(r"refused [1-9]\d* datagrams", "refused N datagrams", said), about(port, 10, "0.2") + told)


def two_at_once(drums):
    """Two that begin within one second have ids of their own."""
    with listener() as ear:
        ports, own = free_ports(2), at_port(ear.getsockname()[1])
        streams = {"stdout": subprocess.DEVNULL, "stderr": subprocess.DEVNULL}
        time.sleep(1 - time.time() % 1)
        children = [started([drums, "5", "500000", at_port(port), own], pattern(BEATS), **streams) for port in ports]
        want("their statuses", [child.wait(timeout=60) for child in children], [0, 0])
        heard = come(ear)
    want("how many ids they have", len({alives_of(port, heard)[0][0] for port in ports}), 2)


def late_pattern(drums):
    """It listens from when the pattern has been read, however late that is: a second of blocks takes one and a half from then on."""
    (port,) = free_ports(1)
    streams = {"stdin": subprocess.PIPE, "stdout": subprocess.DEVNULL, "stderr": subprocess.DEVNULL}
    with subprocess.Popen([drums, "50", "500000", at_port(port)], **streams) as child:
        CHILDREN.append(child)
        time.sleep(0.5)
        before = time.monotonic()
        child.stdin.write(pattern(BEATS).encode())
        child.stdin.close()
        want("its status", child.wait(timeout=60), 0)
        took = time.monotonic() - before
    want(f"that it takes a second and a half behind its pattern, where it took {took}", took >= 1.45, True)


def last_block(drums):
    """A run ends when its last block has been played, 20 milliseconds behind the call that writes it: of three runs one isn't held up."""
    waited = []
    for _ in range(3):
        (port,) = free_ports(1)
        child = started([drums, "50", "500000", at_port(port)], pattern(BEATS), stdout=subprocess.PIPE, stderr=subprocess.DEVNULL)
        size = len(child.stdout.read(44 + 2 * FRAMES * 50))
        before = time.monotonic()
        want("its status, and how much it writes", (child.wait(timeout=60), size), (0, 44 + 2 * FRAMES * 50))
        waited.append(time.monotonic() - before)
        child.stdout.close()
    want(f"that a run waits for the end of its last block, of these seconds: {waited}", max(waited) >= 0.015, True)


def by_script(drums):
    """`jorazhil drums` runs the built program with its words. Without rt on the PATH it builds nothing."""
    if not os.path.exists(drums + ".sources"):
        print("note: of which sources the program was built isn't noted beside it, so `jorazhil drums` isn't looked at")
        return
    words, env = [os.path.join(HERE, "jorazhil"), "drums"], {**os.environ, "PATH": "/usr/bin:/bin"}
    text, wanted = (common.read(HERE, "crates", "drum_machine", name) for name in ("stdin", "stdout"))
    want("status and output without words", common.ended(words, text, env=env)[:2], (0, wanted))
    want("status and text with a word", common.ended([*words, "50"], pattern(BEATS), env=env)[::2], (2, USAGE))


def main(program, drums):
    checks = [
        ("beside a live run", session, program, drums),
        ("beside a live run that stops", stop, program, drums),
        ("a live run that it starts", starts_a_peer, program, drums),
        ("alone", alone, drums),
        ("a pattern that begins with a rest", rests_first, drums),
        ("two drum machines", two_machines, drums),
        ("as many destinations as there may be", most_peers, drums),
        ("two that begin at once", two_at_once, drums),
        ("a pattern that comes late", late_pattern, drums),
        ("the end of the last block", last_block, drums),
        ("what the system refuses", refused, drums),
        ("a full journal", full_journal, drums),
        ("a rehearsal", rehearsal, drums),
        ("faults", faults, drums),
        ("the script", by_script, drums),
    ]
    return common.carried_out(checks).end()


if __name__ == "__main__":
    common.begin(main, __doc__, programs=2)
