#!/usr/bin/env python3
"""Runs the built program to each status that isn't 0 and can be brought about from outside: checks/statuses.py PROGRAM.

Each run's exit status, standard output and whole text on standard error are compared with what is written here; of a live run that went on
only how its output begins, since the rest hangs on the clock, and of many lines at fault only which line is told. Of words that set up a
run it is compared how the run is told that they set up. Status 9, want of memory, has no run, 12 is brought about by checks/control.py, and
11 too where there is a client.
The last line is 'N passed, N failed'.
"""
import os
import resource
import socket
import subprocess
import sys
import threading

sys.dont_write_bytecode = True
import common  # noqa: E402

NODE = b"node QRSTUVWX 1 500000 1 1000000\n"
GATE = b"gate 127.0.0.1:20809\n"
HEAD = b"replay 1\n" + NODE + GATE
# The front of a head of version 2, and a whole one.
FRONT = b"replay 2\n" + NODE
HEAD_2 = FRONT + b"group 1\nquantum 4000000\n" + GATE
OPENING = b"state 0 500000 0 1000000 0 0 0 1 0 1000000 0 0\n"

# A gate at a port that the system picks, and a last command that ends the run at once.
LINK = b"link 1\nsetup 500000 1\ngate 127.0.0.1:0\n"
LOOK = b"at 0 look\n"

COMMANDS = common.read(common.HERE, "help", "usage.txt").encode()
REPLAY, DECODE, FILTER, MIDI, LOAD, LIVE, CONTROL = (
    common.page_of(word).encode() for word in ("replay", "decode", "filter", "midi", "load", "live", "control")
)
INPUT = b"jorazhil: standard input could not be read: %s; nothing was written\n"
SINK = b"jorazhil: standard output could not be written: %s; what was written is the front of the output\n"
DIRECTORY, DESCRIPTOR, FULL = b"Is a directory (os error 21)", b"Bad file descriptor (os error 9)", b"No space left on device (os error 28)"
# What a live run tells when its gates are bound or not, and at its end.
LIVE_AT = b"jorazhil: live at %s; no blocks, room for %s, bars of 4 beats\n"
UNBOUND = (
    b"jorazhil: the %s could not be bound: %s; the run goes on without the network\n"
    b"jorazhil: live without the network; no blocks, room for 262144 events, bars of 4 beats\n"
)
IN_USE, NOT_HERE = b"Address already in use (os error 98)", b"Cannot assign requested address (os error 99)"
# The text of status 11.
UNSERVED = (
    b"jorazhil: the client could not be served: its endpoint could not be opened (its address must be this machine's, and its port free), "
    b"or the connection broke; the run ended there\n"
)
JOURNAL = b"jorazhil: the journal took %d of %s\n"
NO_AT = b"jorazhil: the script had no at command, so the node left its session at once\n"
PORT = (
    b"jorazhil: the network failed: a gate could not be bound (its address must be this machine's, and its port free), or a socket broke; "
    b"a run that had begun went on without it\n"
)
AUDIO = b"jorazhil: the audio device failed; a run that had begun went on without it\n"
EVENTS = (
    b"jorazhil: the journal was full before the run ended, and what came then was not taken; "
    b"`--events` gives it more room, up to 524288\n"
)
TOO_MANY = b"jorazhil: the script has more than 4096 commands; nothing was run or written\n"
TOO_LONG = b"jorazhil: the input is longer than 16777216 bytes; nothing was written\n"

# Where a client would connect, which nobody comes to in these runs, and words that name no such place.
CLIENT = "127.0.0.1:0"
NO_ENDPOINTS = ["", "x", "localhost:1", "127.0.0.1", "127.0.0.1:", "127.0.0.1:65536", "1.2.3.256:1", "1.2.3:1", "01.2.3.4:1", "1.2.3.4:1 ", "[::1]:1"]
NO_ENDPOINTS += [" 1.2.3.4:5", "1.2.3.4:05", "1.2.3.4:+5", "1..3.4:5", "1.2.3.4:5:6"]
NO_COMMAND = b"no command: a script for `control` has none, as its client gives them"

GATE_OR_COMMAND = b"`gate`, `to` or a command: `at` or `block`"
ACT = b"`tempo`, `force`, `request`, `quantum`, `play`, `stop` or `look`"
BEAT = b"a beat from -1152921504606846976 to 1152921504606846976 microbeats"
BLOCK_ACT = b"`tempo`, `quantum`, `play` or `stop`"
TEMPO = b"a tempo from 60060 to 3000000 microseconds per beat (500000 is 120 beats a minute)"
MOMENT = b"a moment from 0 to 36028797018963968 microseconds"
VERSION = b"`replay 1` or `replay 2`"
NODE_LINE = b"`node` and a node's id, seed, tempo, sync and opening moment"
GROUP_LINE = b"`group` and a number from 0 to 65535, which stand before the gates in version 2"
GROUP = b"a number from 0 to 65535"
QUANTUM_LINE = b"`quantum` and a number from 0 to 1099511627776, which stand before the gates in version 2"
QUANTUM = b"a number from 0 to 1099511627776 microbeats (4000000 is four beats)"
# What may stand behind a commit's moment, and behind its timeline, in each version.
PARTS = b"`t` and a timeline, `s` and a start, or the end of the line"
PARTS_2 = b"`t` and a timeline, `s` and a start, `q` and a quantum, or the end of the line"
START = b"`s` and a start, or the end of the line"
START_2 = b"`s` and a start, `q` and a quantum, or the end of the line"
QUANTUM_PART = b"`q` and a quantum, or the end of the line"
NO_QUANTUM = b"no quantum: only a script that begins with `replay 2` has one"
GATE_LINE = b"`gate` and the endpoint of the node's first gate"
TO = b"to 127.0.0.1:20809\n"
# What may follow where a gate has all its destinations, and where all gates stand.
FULL_GATE = b", as the gate has 32 destinations"
GATE_OR_EVENT = b"`gate` or an event" + FULL_GATE + b": `rx`, `tick`, `app`, `audio` or `end`"
TO_OR_EVENT = b"`to` or an event, as the node has four gates: `rx`, `tick`, `app`, `audio` or `end`"
GATE_TO_OR_EVENT = b"`gate`, `to` or an event: `rx`, `tick`, `app`, `audio` or `end`"
AUDIO_NUMBER = b"a number from 1 to 1152921504606846975"
EVENT = b"an event: `rx`, `tick`, `app`, `audio` or `end`"
SETUP_LINE = b"`setup` and a tempo and a sync"
NODE_ID = b"an id of eight characters from ! to ~"
ENDPOINT = b"an endpoint as in 127.0.0.1:20808"
HEX = b"at most 513 bytes in hex digits, two for each, or `-` for none"
LIMITED = b"a number from -1152921504606846976 to 1152921504606846976"
BLOCK = b"the number of a block from 1 to 524288"
TEXT_END = b"the end of the text"
SAMPLE = b"a sample count from -1152921504606846976 to 1152921504606846976"
HOST = b"a host time from -1152921504606846976 to 1152921504606846976 microseconds"
LINE_END = b"the end of the line"
NO_WORD = b"no word (words are parted by single spaces)"
CARRIAGE_RETURN = b"a carriage return (lines end in line feeds alone)"


def words_at_fault(reason, forms):
    return b"jorazhil: " + reason + b"\n\n" + forms


def no_endpoint(word):
    return b'"%s" is no endpoint: four numbers from 0 to 255 parted by dots, a colon and a port, as 127.0.0.1:20900' % word.encode()


def at_fault(line, column, expected, found):
    return b"jorazhil: line %d, column %d: expected %s, found %s; nothing was written\n" % (line, column, expected, found)


# The words, the bytes on standard input, the status and the text on standard error. Standard output stays empty.
TEXTS = [
    ([], HEAD, 2, words_at_fault(b"no command was given", COMMANDS)),
    (["listen"], HEAD, 2, words_at_fault(b'"listen" is no command', COMMANDS)),
    ([""], HEAD, 2, words_at_fault(b'"" is no command', COMMANDS)),
    (["Replay"], HEAD, 2, words_at_fault(b'"Replay" is no command', COMMANDS)),
    (["decoder"], HEAD, 2, words_at_fault(b'"decoder" is no command', COMMANDS)),
    (["loads", "7", "5"], b"", 2, words_at_fault(b'"loads" is no command', COMMANDS)),
    (["--help"], HEAD, 2, words_at_fault(b"a runtime for tempo sessions", COMMANDS)),
    (["--version"], HEAD, 2, words_at_fault(b"a runtime for tempo sessions", COMMANDS)),
    (["replay", "--"], HEAD, 2, words_at_fault(b'"--" is one word too many: replay takes no other word, and reads standard input', REPLAY)),
    (["decode", "replay"], HEAD, 2, words_at_fault(b'"replay" is one word too many: decode takes no other word, and reads standard input', DECODE)),
    (["decode", ""], HEAD, 2, words_at_fault(b'"" is one word too many: decode takes no other word, and reads standard input', DECODE)),
    (["decode", "--help"], b"00\n", 2, words_at_fault(b"decode reads standard input", DECODE)),
    (["replay", "x"], HEAD, 2, words_at_fault(b'"x" is one word too many: replay takes no other word, and reads standard input', REPLAY)),
    (["decode", "x"], b"00\n", 2, words_at_fault(b'"x" is one word too many: decode takes no other word, and reads standard input', DECODE)),
    (["replay", "--help"], HEAD, 2, words_at_fault(b"replay reads standard input", REPLAY)),
    (["filters"], b"0 0\n", 2, words_at_fault(b'"filters" is no command', COMMANDS)),
    (["Filter"], b"0 0\n", 2, words_at_fault(b'"Filter" is no command', COMMANDS)),
    (["filter", "x"], b"0 0\n", 2, words_at_fault(b'"x" is one word too many: filter takes no other word, and reads standard input', FILTER)),
    (["filter", ""], b"0 0\n", 2, words_at_fault(b'"" is one word too many: filter takes no other word, and reads standard input', FILTER)),
    (["filter", "--"], b"0 0\n", 2, words_at_fault(b'"--" is one word too many: filter takes no other word, and reads standard input', FILTER)),
    (["filter", "--help"], b"0 0\n", 2, words_at_fault(b"filter reads standard input", FILTER)),
    (["MIDI", "1", "1"], HEAD, 2, words_at_fault(b'"MIDI" is no command', COMMANDS)),
    (["midi"], HEAD, 2, words_at_fault(b"the following required arguments were not provided:\n  <LENGTH>\n  <BLOCKS>", MIDI)),
    (["midi", "1"], HEAD, 2, words_at_fault(b"the following required arguments were not provided:\n  <BLOCKS>", MIDI)),
    (["midi", "0", "1"], HEAD, 2, words_at_fault(b"invalid value '0' for '<LENGTH>': 0 is not in 1..=1000000", MIDI)),
    (["midi", "1000001", "1"], HEAD, 2, words_at_fault(b"invalid value '1000001' for '<LENGTH>': 1000001 is not in 1..=1000000", MIDI)),
    (["midi", "1", "524289"], HEAD, 2, words_at_fault(b"invalid value '524289' for '<BLOCKS>': 524289 is not in 0..=524288", MIDI)),
    (["midi", "1e3", "1"], HEAD, 2, words_at_fault(b"invalid value '1e3' for '<LENGTH>': invalid digit found in string", MIDI)),
    (["midi", "-1", "1"], HEAD, 2, words_at_fault(b"unexpected argument '-1' found", MIDI)),
    (["midi", "1", "1", "x"], HEAD, 2, words_at_fault(b"unexpected argument 'x' found", MIDI)),
    (["midi", "--help"], HEAD, 2, words_at_fault(b"midi plays a script in blocks, and tells its MIDI clock", MIDI)),
    ([b"replay\xff"], HEAD, 2, words_at_fault(b"a word is not UTF-8 text", COMMANDS)),
    (["load"], b"", 2, words_at_fault(b"the following required arguments were not provided:\n  <SEED>\n  <COUNT>", LOAD)),
    (["load", "7", "0"], b"", 2, words_at_fault(b"invalid value '0' for '<COUNT>': 0 is not in 1..=524288", LOAD)),
    (["load", "7", "524289"], b"", 2, words_at_fault(b"invalid value '524289' for '<COUNT>': 524289 is not in 1..=524288", LOAD)),
    (["load", "1e3", "5"], b"", 2, words_at_fault(b"invalid value '1e3' for '<SEED>': invalid digit found in string", LOAD)),
    (["load", "7", "5", "x"], b"", 2, words_at_fault(b"unexpected argument 'x' found", LOAD)),
    (["load", "7", "-1"], b"", 2, words_at_fault(b"unexpected argument '-1' found", LOAD)),
    (["load", "--help"], b"", 2, words_at_fault(b"load runs a node through generated events", LOAD)),
    (["live", "--help"], LINK, 2, words_at_fault(b"live plays a live script beside its peers", LIVE)),
    (["live", "--events", "0"], LINK, 2, words_at_fault(b"invalid value '0' for '--events <N>': 0 is not in 1..=524288", LIVE)),
    (["live", "--blocks", "x"], LINK, 2, words_at_fault(b"invalid value 'x' for '--blocks <N>': invalid digit found in string", LIVE)),
    (
        ["live", "--blocks", "524289"],
        LINK,
        2,
        words_at_fault(b"invalid value '524289' for '--blocks <N>': 524289 is not in 0..=524288", LIVE),
    ),
    (["live", "--blocks"], LINK, 2, words_at_fault(b"a value is required for '--blocks <N>' but none was supplied", LIVE)),
    (["live", "--quantum", "-1"], LINK, 2, words_at_fault(b"unexpected argument '-1' found", LIVE)),
    (["live", "--group", "65536"], LINK, 2, words_at_fault(b"invalid value '65536' for '--group <N>': 65536 is not in 0..=65535", LIVE)),
    (["live", "--group", "-1"], LINK, 2, words_at_fault(b"unexpected argument '-1' found", LIVE)),
    (["live", "--group", "x"], LINK, 2, words_at_fault(b"invalid value 'x' for '--group <N>': invalid digit found in string", LIVE)),
    (["live", "--group"], LINK, 2, words_at_fault(b"a value is required for '--group <N>' but none was supplied", LIVE)),
    (["live", "--group", "1", "--group", "2"], LINK, 2, words_at_fault(b"the argument '--group <N>' cannot be used multiple times", LIVE)),
    (["live", "--event", "5"], LINK, 2, words_at_fault(b"unexpected argument '--event' found", LIVE)),
    (["live", "--bogus"], LINK, 2, words_at_fault(b"unexpected argument '--bogus' found", LIVE)),
    (["live", "x"], LINK, 2, words_at_fault(b"unexpected argument 'x' found", LIVE)),
    (["live", "--record", "x"], LINK, 2, words_at_fault(b"unexpected argument 'x' found", LIVE)),
    (["live", "--record", "--record"], LINK, 2, words_at_fault(b"the argument '--record' cannot be used multiple times", LIVE)),
    (["control"], LINK, 2, words_at_fault(b"the following required arguments were not provided:\n  <ENDPOINT>", CONTROL)),
    (["control", "--help"], LINK, 2, words_at_fault(b"control listens at ENDPOINT for a client that drives a node line by line", CONTROL)),
    (["control", CLIENT, "x"], LINK, 2, words_at_fault(b"unexpected argument 'x' found", CONTROL)),
    (["control", CLIENT, "--record"], LINK, 2, words_at_fault(b"unexpected argument '--record' found", CONTROL)),
    (["control", CLIENT, "--blocks", "1"], LINK, 2, words_at_fault(b"unexpected argument '--blocks' found", CONTROL)),
    (["control", "--events", "0", CLIENT], LINK, 2, words_at_fault(b"invalid value '0' for '--events <N>': 0 is not in 1..=524288", CONTROL)),
    (["control", CLIENT, "--group", "65536"], LINK, 2, words_at_fault(b"invalid value '65536' for '--group <N>': 65536 is not in 0..=65535", CONTROL)),
    *((["control", word], LINK, 2, words_at_fault(no_endpoint(word), CONTROL)) for word in NO_ENDPOINTS),
    (["replay"], b"", 8, at_fault(1, 1, VERSION, TEXT_END)),
    (["replay"], b"replay 3\n", 8, at_fault(1, 8, VERSION, b'"3"')),
    (["replay"], b"replay 02\n", 8, at_fault(1, 8, VERSION, b'"02"')),
    (["replay"], b"replay\n", 8, at_fault(1, 7, VERSION, LINE_END)),
    (["replay"], b"replay 2 \n", 8, at_fault(1, 10, LINE_END, NO_WORD)),
    (["replay"], b"replay 2\r\n", 8, at_fault(1, 9, VERSION, CARRIAGE_RETURN)),
    (["replay"], b"replay 2\n", 8, at_fault(2, 1, NODE_LINE, TEXT_END)),
    (["replay"], b"replay 1\n", 8, at_fault(2, 1, NODE_LINE, TEXT_END)),
    # The lines of the group and of the quantum: none, others, wrong words and too many.
    (["replay"], FRONT, 8, at_fault(3, 1, GROUP_LINE, TEXT_END)),
    (["replay"], FRONT + GATE, 8, at_fault(3, 1, GROUP_LINE, b'"gate"')),
    (["replay"], FRONT + b"quantum 4000000\n", 8, at_fault(3, 1, GROUP_LINE, b'"quantum"')),
    (["replay"], FRONT + b"group\n", 8, at_fault(3, 6, GROUP, LINE_END)),
    (["replay"], FRONT + b"group  1\n", 8, at_fault(3, 7, GROUP, NO_WORD)),
    (["replay"], FRONT + b"group 65536\nquantum 4000000\n" + GATE, 8, at_fault(3, 7, GROUP, b'"65536"')),
    (["replay"], FRONT + b"group 01\n", 8, at_fault(3, 7, GROUP, b'"01"')),
    (["replay"], FRONT + b"group -1\n", 8, at_fault(3, 7, GROUP, b'"-1"')),
    (["replay"], FRONT + b"group 1 1\n", 8, at_fault(3, 9, LINE_END, b'"1"')),
    (["replay"], FRONT + b"group 1\r\n", 8, at_fault(3, 8, GROUP, CARRIAGE_RETURN)),
    (["replay"], FRONT + b"group 1\n", 8, at_fault(4, 1, QUANTUM_LINE, TEXT_END)),
    (["replay"], FRONT + b"group 1\n" + GATE, 8, at_fault(4, 1, QUANTUM_LINE, b'"gate"')),
    (["replay"], FRONT + b"group 1\ngroup 1\n", 8, at_fault(4, 1, QUANTUM_LINE, b'"group"')),
    (["replay"], FRONT + b"group 1\n# too much\nquantum 1099511627777\n" + GATE, 8, at_fault(5, 9, QUANTUM, b'"1099511627777"')),
    (["replay"], FRONT + b"group 1\nquantum +4000000\n", 8, at_fault(4, 9, QUANTUM, b'"+4000000"')),
    (["replay"], FRONT + b"group 1\nquantum 4000000 \n", 8, at_fault(4, 17, LINE_END, NO_WORD)),
    (["replay"], HEAD_2[: -len(GATE)], 8, at_fault(5, 1, GATE_LINE, TEXT_END)),
    (["replay"], HEAD_2[: -len(GATE)] + b"quantum 4000000\n", 8, at_fault(5, 1, GATE_LINE, b'"quantum"')),
    (["replay"], HEAD_2 + b"group 1\n", 8, at_fault(6, 1, GATE_TO_OR_EVENT, b'"group"')),
    (["replay"], HEAD_2 + b"tick 5\nquantum 5\n", 8, at_fault(7, 1, EVENT, b'"quantum"')),
    (["replay"], HEAD_2 + b"rx 0 1 127.0.0.1:1 00\n", 8, at_fault(6, 6, b"0, the number of the only gate", b'"1"')),
    (["replay"], b"replay 1\n" + NODE + b"group 0\n", 8, at_fault(3, 1, GATE_LINE, b'"group"')),
    (["replay"], HEAD.replace(b"500000", b"60059"), 8, at_fault(2, 17, TEMPO, b'"60059"')),
    (["replay"], b"# a comment\n\n" + HEAD.replace(b":20809", b""), 8, at_fault(5, 6, b"an endpoint as in 127.0.0.1:20808", b'"127.0.0.1"')),
    (["replay"], HEAD.replace(b":20809", b""), 8, at_fault(3, 6, b"an endpoint as in 127.0.0.1:20808", b'"127.0.0.1"')),
    (["replay"], HEAD + b"# twice\nend 1\nend\n", 8, at_fault(6, 4, MOMENT, b"the end of the line")),
    (["replay"], HEAD + b"tick 5\nwait 5\n", 8, at_fault(5, 1, EVENT, b'"wait"')),
    (["replay"], HEAD + b"rx 0 1 127.0.0.1:1 00\n", 8, at_fault(4, 6, b"0, the number of the only gate", b'"1"')),
    (["replay"], HEAD + GATE + b"rx 0 2 127.0.0.1:1 00\n", 8, at_fault(5, 6, b"0 or 1, the number of a gate", b'"2"')),
    (["replay"], HEAD + GATE * 2 + b"rx 0 3 127.0.0.1:1 00\n", 8, at_fault(6, 6, b"the number of a gate from 0 to 2", b'"3"')),
    (["replay"], HEAD + GATE * 3 + b"rx 0 4 127.0.0.1:1 00\n", 8, at_fault(7, 6, b"the number of a gate from 0 to 3", b'"4"')),
    (["replay"], HEAD + b"tick 5\r\n", 8, at_fault(4, 7, MOMENT, b"a carriage return (lines end in line feeds alone)")),
    # The parts of a commit, of which version 1 has no quantum.
    (["replay"], HEAD + b"app 0 0 x\n", 8, at_fault(4, 9, PARTS, b'"x"')),
    (["replay"], HEAD + b"app 0 0 t 500000 0 0 x\n", 8, at_fault(4, 22, START, b'"x"')),
    (["replay"], HEAD + b"app 0 0 s 1 0 0 x\n", 8, at_fault(4, 17, LINE_END, b'"x"')),
    (["replay"], HEAD + b"app 0 0 q 3000000\n", 8, at_fault(4, 9, NO_QUANTUM, b'"q"')),
    (["replay"], HEAD + b"# twice\naudio 0 1 0\naudio 0 2 0 q 5\n", 8, at_fault(6, 13, NO_QUANTUM, b'"q"')),
    (["replay"], HEAD + b"app 0 0 t 500000 0 0 q 5\n", 8, at_fault(4, 22, NO_QUANTUM, b'"q"')),
    (["replay"], HEAD + b"app 0 0 s 1 0 0 q 5\n", 8, at_fault(4, 17, NO_QUANTUM, b'"q"')),
    (["replay"], HEAD_2 + b"app 0 0 x\n", 8, at_fault(6, 9, PARTS_2, b'"x"')),
    (["replay"], HEAD_2 + b"app 0 0 t 500000 0 0 x\n", 8, at_fault(6, 22, START_2, b'"x"')),
    (["replay"], HEAD_2 + b"app 0 0 s 1 0 0 x\n", 8, at_fault(6, 17, QUANTUM_PART, b'"x"')),
    (["replay"], HEAD_2 + b"app 0 0 q\n", 8, at_fault(6, 10, QUANTUM, LINE_END)),
    (["replay"], HEAD_2 + b"app 0 0 q 5\napp 0 0 q 1099511627777\n", 8, at_fault(7, 11, QUANTUM, b'"1099511627777"')),
    (["replay"], HEAD_2 + b"audio 0 1 0 q -1\n", 8, at_fault(6, 15, QUANTUM, b'"-1"')),
    (["replay"], HEAD_2 + b"app 0 0 q 5 5\n", 8, at_fault(6, 13, LINE_END, b'"5"')),
    (["replay"], HEAD_2 + b"app 0 0 q 5 s 1 0 0\n", 8, at_fault(6, 13, LINE_END, b'"s"')),
    (["replay"], HEAD_2 + b"app 0 0 q 5\r\n", 8, at_fault(6, 12, QUANTUM, CARRIAGE_RETURN)),
    # A gate has 32 destinations, and a node four gates.
    (["replay"], HEAD + TO * 33, 8, at_fault(36, 1, GATE_OR_EVENT, b'"to"')),
    (["replay"], HEAD + TO * 32 + b"look\n", 8, at_fault(36, 1, GATE_OR_EVENT, b'"look"')),
    (["replay"], HEAD + TO * 32 + GATE + b"look\n", 8, at_fault(37, 1, GATE_TO_OR_EVENT, b'"look"')),
    (["replay"], HEAD + TO * 31 + b"look\n", 8, at_fault(35, 1, GATE_TO_OR_EVENT, b'"look"')),
    (["replay"], HEAD + GATE * 4, 8, at_fault(7, 1, TO_OR_EVENT, b'"gate"')),
    (["replay"], HEAD + GATE * 2 + b"look\n", 8, at_fault(6, 1, GATE_TO_OR_EVENT, b'"look"')),
    (["replay"], HEAD + GATE * 3 + TO * 33, 8, at_fault(39, 1, EVENT, b'"to"')),
    (["live"], LINK + TO * 33, 8, at_fault(36, 1, b"`gate` or a command" + FULL_GATE + b": `at` or `block`", b'"to"')),
    (["live"], LINK + GATE * 4, 8, at_fault(7, 1, b"`to` or a command, as there are four gates: `at` or `block`", b'"gate"')),
    (["live"], LINK + GATE * 3 + TO * 33, 8, at_fault(39, 1, b"a command: `at` or `block`", b'"to"')),
    (["control", CLIENT], LINK + TO * 33, 8, at_fault(36, 1, b"`gate` or the end of the script" + FULL_GATE, b'"to"')),
    (["control", CLIENT], LINK + GATE * 3 + TO * 33, 8, at_fault(39, 1, b"the end of the script", b'"to"')),
    # The words of a node behind its id, a beat, and the number of an audio commit.
    (["replay"], HEAD.replace(b" 1 500000", b" x 500000"), 8, at_fault(2, 15, b"a number from 0 to 18446744073709551615", b'"x"')),
    (["replay"], HEAD.replace(b"500000 1", b"500000 2"), 8, at_fault(2, 24, b"1 or 0", b'"2"')),
    (["replay"], HEAD.replace(b"1000000", b"x"), 8, at_fault(2, 26, MOMENT, b'"x"')),
    (["replay"], HEAD + b"audio 0 1152921504606846976 0\n", 8, at_fault(4, 9, AUDIO_NUMBER, b'"1152921504606846976"')),
    (["replay"], HEAD + b"audio 0 0 0\n", 8, at_fault(4, 9, AUDIO_NUMBER, b'"0"')),
    (["live"], LINK + b"at 0 request x\n", 8, at_fault(4, 14, BEAT, b'"x"')),
    (["live"], LINK + b"at 0 force\n", 8, at_fault(4, 11, BEAT, LINE_END)),
    # The first lines of a replay script.
    (["replay"], b"link 1", 8, at_fault(1, 1, VERSION, b'"link"')),
    (["replay"], b"replay", 8, at_fault(1, 7, VERSION, LINE_END)),
    (["replay"], b"replay 2 1", 8, at_fault(1, 10, LINE_END, b'"1"')),
    (["replay"], b"replay 1 \n", 8, at_fault(1, 10, LINE_END, NO_WORD)),
    (["replay"], b"replay 1\r\n", 8, at_fault(1, 9, VERSION, CARRIAGE_RETURN)),
    (["replay"], b"replay 1\n#\n", 8, at_fault(3, 1, NODE_LINE, TEXT_END)),
    (["replay"], b"replay 1\nnode ABC", 8, at_fault(2, 6, NODE_ID, b'"ABC"')),
    (["replay"], b"replay 2\nnode ABC", 8, at_fault(2, 6, NODE_ID, b'"ABC"')),
    (["replay"], b"replay 1\nnode ABCDEFGH 7 1", 8, at_fault(2, 17, TEMPO, b'"1"')),
    (["replay"], FRONT + b"group 1\n#\n" + GATE, 8, at_fault(5, 1, QUANTUM_LINE, b'"gate"')),
    (["replay"], FRONT + b"group 1\nquantum 0\ntick 0", 8, at_fault(5, 1, GATE_LINE, b'"tick"')),
    (["replay"], HEAD_2 + b"quantum 0", 8, at_fault(6, 1, GATE_TO_OR_EVENT, b'"quantum"')),
    (["replay"], FRONT + b"group 1\nquantum -1", 8, at_fault(4, 9, QUANTUM, b'"-1"')),
    (["replay"], HEAD + b"to 1.2.3.4", 8, at_fault(4, 4, ENDPOINT, b'"1.2.3.4"')),
    # The words of an event, and how what stands there is shown.
    (["replay"], HEAD + b"tick", 8, at_fault(4, 5, MOMENT, LINE_END)),
    (["replay"], HEAD + b"tick 07", 8, at_fault(4, 6, MOMENT, b'"07"')),
    (["replay"], HEAD + b"tick 0 x", 8, at_fault(4, 8, LINE_END, b'"x"')),
    (["replay"], HEAD + b"tick  0", 8, at_fault(4, 6, MOMENT, NO_WORD)),
    (["replay"], HEAD + b"rx 0 0 127.0.0.1 00", 8, at_fault(4, 8, ENDPOINT, b'"127.0.0.1"')),
    (["replay"], HEAD + b"rx 0 0 1.2.3.4:5 0g", 8, at_fault(4, 18, HEX, b'"0g"')),
    (["replay"], HEAD + b"app 0 0 t 500000 0", 8, at_fault(4, 19, LIMITED, LINE_END)),
    (["replay"], HEAD + b"audio 0 1 0\naudio 0 1 0", 8, at_fault(5, 9, b"a greater number than that of the last audio commit", b'"1"')),
    (["replay"], HEAD_2 + b"audio 0 1 0 s 1 0 0 t", 8, at_fault(6, 21, QUANTUM_PART, b'"t"')),
    (["replay"], HEAD + b"foo\tbar", 8, at_fault(4, 1, GATE_TO_OR_EVENT, b'"foo\\tbar"')),
    (["replay"], HEAD + b'\x1b"', 8, at_fault(4, 1, GATE_TO_OR_EVENT, b'"\\x1b\\""')),
    (["replay"], HEAD + b"abcdefghij" * 4 + b"abcde", 8, at_fault(4, 1, GATE_TO_OR_EVENT, b'"' + b"abcdefghij" * 4 + b'"...')),
    (["replay"], HEAD + b"tick 0\nto 1.2.3.4:5", 8, at_fault(5, 1, EVENT, b'"to"')),
    # The head of a live script, and its commands.
    (["live"], b"link 2", 8, at_fault(1, 6, b"`link 1`", b'"2"')),
    (["live"], b"link 1\n#\nnode A", 8, at_fault(3, 1, SETUP_LINE, b'"node"')),
    (["live"], b"link 1\nsetup 60059 1", 8, at_fault(2, 7, TEMPO, b'"60059"')),
    (["live"], b"link 1\nsetup 60060", 8, at_fault(2, 12, b"1 or 0", LINE_END)),
    (["live"], b"link 1\nsetup 60060 1\nat 0 play", 8, at_fault(3, 1, GATE_LINE, b'"at"')),
    (["live"], LINK + b"tick 0", 8, at_fault(4, 1, GATE_OR_COMMAND, b'"tick"')),
    (["live"], LINK + b"at 0 play\nto 1.2.3.4:5", 8, at_fault(5, 1, b"a command: `at` or `block`", b'"to"')),
    (["live"], LINK + b"at -1 play", 8, at_fault(4, 4, MOMENT, b'"-1"')),
    (["live"], LINK + b"at 0 force x", 8, at_fault(4, 12, BEAT, b'"x"')),
    (["live"], LINK + b"at 0 look x", 8, at_fault(4, 11, LINE_END, b'"x"')),
    (["live"], LINK + b"at 0 tempo 1", 8, at_fault(4, 12, TEMPO, b'"1"')),
    (["live"], LINK + b"at 0 quantum -1", 8, at_fault(4, 14, QUANTUM, b'"-1"')),
    (["live"], LINK + b"at 0 play\r", 8, at_fault(4, 10, ACT, CARRIAGE_RETURN)),
    (["live"], LINK + b"block 524289 play", 8, at_fault(4, 7, BLOCK, b'"524289"')),
    (["live"], LINK + b"block 1 quantum", 8, at_fault(4, 16, QUANTUM, LINE_END)),
    (["live"], LINK + b"block 1 stop 2", 8, at_fault(4, 14, LINE_END, b'"2"')),
    (["control", CLIENT], LINK + b"to 1.2.3.4:5\n#\nblock 1 play", 8, at_fault(6, 1, NO_COMMAND, b'"block"')),
    (["control", CLIENT], LINK + b"tick 0", 8, at_fault(4, 1, b"`gate`, `to` or the end of the script", b'"tick"')),
    (["control", CLIENT], LINK + b"to 1.2.3.4", 8, at_fault(4, 4, ENDPOINT, b'"1.2.3.4"')),
    (["control", CLIENT], b"link 1\nsetup 500000 1\nat 0 look", 8, at_fault(3, 1, GATE_LINE, b'"at"')),
    (["control", CLIENT], b"link 1\nsetup 500000 1\n#", 8, at_fault(4, 1, GATE_LINE, TEXT_END)),
    # The greatest words, one that begins with a plus, and no block: the whole script is read in any case.
    (["midi", "1000000", "524288"], b"", 8, at_fault(1, 1, VERSION, TEXT_END)),
    (["midi", "+5", "1"], HEAD + b"app 0 0 q 3000000\n", 8, at_fault(4, 9, NO_QUANTUM, b'"q"')),
    (["midi", "1", "0"], HEAD + b"# twice\nend 1\nend\n", 8, at_fault(6, 4, MOMENT, LINE_END)),
    (["live"], b"", 8, at_fault(1, 1, b"`link 1`", TEXT_END)),
    (["live"], b"replay 1\n", 8, at_fault(1, 1, b"`link 1`", b'"replay"')),
    (["live"], b"link 1\nat x tempo\n", 8, at_fault(2, 1, b"`setup` and a tempo and a sync", b'"at"')),
    (["live"], LINK + b"# a comment\n\nlook\n", 8, at_fault(6, 1, GATE_OR_COMMAND, b'"look"')),
    (["live"], LINK + b"at 0 spring\n", 8, at_fault(4, 6, ACT, b'"spring"')),
    (["live"], LINK + b"at 0\n", 8, at_fault(4, 5, ACT, LINE_END)),
    # A commit that says no tempo, behind a line that is right.
    (["live"], LINK + LOOK + b"at 0 tempo\n", 8, at_fault(5, 11, TEMPO, LINE_END)),
    (["live"], LINK + b"at 0 quantum\n", 8, at_fault(4, 13, QUANTUM, LINE_END)),
    (["live"], LINK + b"at 0 quantum 0\nat 0 quantum 1099511627777\n", 8, at_fault(5, 14, QUANTUM, b'"1099511627777"')),
    (["live"], LINK + b"at 0 quantum 5 5\n", 8, at_fault(4, 16, LINE_END, b'"5"')),
    (
        ["live"],
        LINK + b"at 0 quantum 0\nat 0 quantum 1099511627776\nblock 1 quantum 0\nblock 1 quantum 1099511627776\nat 0 quantum 1099511627777\n",
        8,
        at_fault(8, 14, QUANTUM, b'"1099511627777"'),
    ),
    (["live"], LINK + b"block 1 quantum 1\nblock 1 quantum\n", 8, at_fault(5, 16, QUANTUM, LINE_END)),
    (["live"], LINK + b"block 1 quantum -1\n", 8, at_fault(4, 17, QUANTUM, b'"-1"')),
    (["live"], LINK + b"block 1 quantum 5\nblock 1 request 5\n", 8, at_fault(5, 9, BLOCK_ACT, b'"request"')),
    (["live"], LINK + LOOK + b"block 1 look\n", 8, at_fault(5, 9, BLOCK_ACT, b'"look"')),
    (["live"], LINK + b"block 0 play\n", 8, at_fault(4, 7, b"the number of a block from 1 to 524288", b'"0"')),
    (["live"], LINK + LOOK * 4097, 10, TOO_MANY),
    (["live"], LINK + b"#" * 16_777_216, 10, TOO_LONG),
    (["control", CLIENT], b"", 8, at_fault(1, 1, b"`link 1`", TEXT_END)),
    (["control", CLIENT], b"link 1\n", 8, at_fault(2, 1, b"`setup` and a tempo and a sync", TEXT_END)),
    (["control", CLIENT], LINK + LOOK, 8, at_fault(4, 1, NO_COMMAND, b'"at"')),
    (["control", CLIENT], LINK + b"# a comment\n\nblock 1 play\n", 8, at_fault(6, 1, NO_COMMAND, b'"block"')),
    (["control", CLIENT], LINK + b"look\n", 8, at_fault(4, 1, b"`gate`, `to` or the end of the script", b'"look"')),
    (["control", CLIENT], LINK + b"gate 127.0.0.1:0\n" * 4, 8, at_fault(7, 1, b"`to` or the end of the script, as there are four gates", b'"gate"')),
    (["control", CLIENT], LINK + LOOK * 4097, 10, TOO_MANY),
    (["control", CLIENT], b"at 0\n" * 4097, 10, TOO_MANY),
    (["control", CLIENT], LINK + b"#" * 16_777_216, 10, TOO_LONG),
    (["decode"], b"00\n000", 8, at_fault(2, 4, b"a second hex digit for the last byte", b"the end of the line")),
    (["decode"], b"0\n", 8, at_fault(1, 2, b"a second hex digit for the last byte", b"the end of the line")),
    (["decode"], b"00\n\n0g\n", 8, at_fault(3, 2, b"a hex digit", b'"g"')),
    (["decode"], b"00\n0\xff00\n", 8, at_fault(2, 2, b"a hex digit", b'"\\xff"')),
    (["decode"], b"00" * 8_388_608 + b"\n", 10, TOO_LONG),
    # A line without a word, and words that are no numbers.
    (["filter"], b"\n", 8, at_fault(1, 1, SAMPLE, LINE_END)),
    (["filter"], b"0 0\n\n1 1\n", 8, at_fault(2, 1, SAMPLE, LINE_END)),
    (["filter"], b" 0 0\n", 8, at_fault(1, 1, SAMPLE, NO_WORD)),
    (["filter"], b"# a comment\n", 8, at_fault(1, 1, SAMPLE, b'"#"')),
    (["filter"], b"x 0\n", 8, at_fault(1, 1, SAMPLE, b'"x"')),
    (["filter"], b"0 0\n-0 0", 8, at_fault(2, 1, SAMPLE, b'"-0"')),
    (["filter"], b"0\t0\n", 8, at_fault(1, 1, SAMPLE, b'"0\\t0"')),
    (["filter"], b"1152921504606846977 0\n", 8, at_fault(1, 1, SAMPLE, b'"1152921504606846977"')),
    (["filter"], b"9" * 40 + b" 0\n", 8, at_fault(1, 1, SAMPLE, b'"' + b"9" * 40 + b'"')),
    (["filter"], b"9" * 41 + b" 0\n", 8, at_fault(1, 1, SAMPLE, b'"' + b"9" * 40 + b'"...')),
    (["filter"], b"\r\n", 8, at_fault(1, 1, SAMPLE, CARRIAGE_RETURN)),
    (["filter"], b"0\n", 8, at_fault(1, 2, HOST, LINE_END)),
    (["filter"], b"0 \n", 8, at_fault(1, 3, HOST, NO_WORD)),
    (["filter"], b"0  0\n", 8, at_fault(1, 3, HOST, NO_WORD)),
    (["filter"], b"0 0\n512 11610\n1024 +5\n0\n", 8, at_fault(3, 6, HOST, b'"+5"')),
    (["filter"], b"5 -1152921504606846977", 8, at_fault(1, 3, HOST, b'"-1152921504606846977"')),
    (["filter"], b"0 \xff\n", 8, at_fault(1, 3, HOST, b'"\\xff"')),
    (["filter"], b"0 0\r\n", 8, at_fault(1, 4, HOST, CARRIAGE_RETURN)),
    (["filter"], b"0 0 \n", 8, at_fault(1, 5, LINE_END, NO_WORD)),
    (["filter"], b"0 0\n1 1 1\n", 8, at_fault(2, 5, LINE_END, b'"1"')),
    (["filter"], b"0 0 \r\n", 8, at_fault(1, 5, LINE_END, CARRIAGE_RETURN)),
    (["filter"], b"0 0\n" * 4_194_304 + b"x", 10, TOO_LONG),
]


# Behind the head of a live script, texts and the first line at fault; 0 where there is none, and then it is a line behind them.
COMMAND_LINES = [
    *((b"at 0 " + act, 4) for act in (b"tempo 60059", b"tempo 3000001", b"quantum 1099511627777", b"quantum -1", b"quantum -0", b"force -0")),
    *((b"at 0 %s %d" % (act, beat), 4) for act in (b"force", b"request") for beat in (-(2**60) - 1, 2**60 + 1)),
    *((b"at %s play" % moment, 4) for moment in (b"-1", b"36028797018963969", b"00", b"-0")),
    *((b"block %s play" % block, 4) for block in (b"0", b"524289", b"-1")),
    *((b"block 1 " + act, 4) for act in (b"tempo 60059", b"tempo 3000001", b"quantum 1099511627777", b"quantum -1")),
    *((b"block 1 " + act, 4) for act in (b"look", b"force 0", b"request 0")),
    *((b"at 0 " + act, 0) for act in (b"tempo 60060", b"tempo 3000000", b"quantum 0", b"quantum 1099511627776")),
    *((b"at 0 %s %d" % (act, beat), 0) for act in (b"force", b"request") for beat in (-(2**60), 2**60)),
    *((b"block 1 " + act, 0) for act in (b"tempo 60060", b"tempo 3000000", b"quantum 0", b"quantum 1099511627776", b"stop")),
    *((line, 0) for line in (b"at 36028797018963968 play", b"at 0 stop", b"at 0 look", b"block 524288 play")),
    # Words too few or too many, or not parted by single spaces.
    *((line, 4) for line in (b"at", b"at 0", b"at 0 ", b"at 0 tempo", b"at 0 force", b"at 0 request ", b"at play", b"at 0 quantum", b"at 0 quantum 1 2")),
    *((line, 4) for line in (b"block", b"block 1", b"block 1 ", b"block 1 tempo", b"block 1 quantum ", b"block play")),
    *((line, 4) for line in (b"at 0  play", b"at  0 play", b" at 0 play", b"at 0 play ", b"at 0 play 1", b"at 0 tempo 500000 1", b"at 0 force 1 1")),
    *((line, 4) for line in (b"at 0 play\r\n", b"At 0 play", b"at 0 Play", b"tick 0", b" ", b"link 1", b"setup 500000 1")),
    # Lines in another order, and how many there may be.
    (b"", 0),
    (b"\n#\n\nat 0 play\n\n#", 0),
    (b"to 1.2.3.4:5\nat 0 play", 0),
    (b"gate 1.2.3.4:5\n" * 3 + b"at 0 play", 0),
    (TO * 32 + b"at 0 play", 0),
    (b"at 0 play\n\n#\nat 0\nat", 7),
    (b"at 0 play\nto 1.2.3.4:5", 5),
    (b"at 0 play\ngate 1.2.3.4:5", 5),
    (b"to 1.2.3.4", 4),
    (b"gate 1.2.3.4:65536", 4),
    (b"gate 1.2.3.4:5\n" * 4, 7),
    (LOOK * 4096, 0),
    (b"#at 0 \n" * 4097, 0),
]
# The same of a head without commands, for `control`.
HEAD_LINES = [
    (b"", 0),
    (b"\n#\n\n# at 0 look\n", 0),
    (b"to 1.2.3.4:5", 0),
    (TO * 32, 0),
    (b"gate 1.2.3.4:5\n" * 3, 0),
    (b"#at 0 \n" * 4097, 0),
    (b"at 0 look", 4),
    (b"block 1 play\n", 4),
    (b"\n#\nat 0 look\n", 6),
    (b"to 1.2.3.4:5\nat 0 look\nat 0", 5),
    (b"at 0 look\nto 1.2.3.4:5", 4),
    (b"to 1.2.3.4\nat 0 look", 4),
    (b"gate 1.2.3.4:65536\nat 0 look", 4),
    (b"at", 4),
    (b"link 1", 4),
    (b" ", 4),
    (LOOK * 4096, 4),
]
# Whole texts of either command, and the first line at fault; 0 where there are too many commands.
HEAD_FAULTS = [
    (b"", 1),
    (b"\n", 2),
    (b"#", 2),
    (b"\n#", 3),
    (b"link 1", 2),
    (b"link 1\n", 2),
    (b"\n#a\nlink 1\n\n", 5),
    (b"link 2\n", 1),
    (b"link 1 \n", 1),
    (b"link 01\n", 1),
    (b"link 1\r\nsetup 500000 1\r\n", 1),
    (b"replay 1\n", 1),
    (b"at 0 look\nlink 1", 1),
    *((b"link 1\n" + line, 2) for line in (b"setup 60059 1", b"setup 3000001 0", b"setup 500000 2", b"setup 500000", b"setup 500000 1 0", b"setup")),
    *((b"link 1\n" + line, 2) for line in (b"node ABCDEFGH 7 500000 1 0", b"gate 1.2.3.4:5", b"at 0 play")),
    *((b"link 1\n" + line, 3) for line in (b"setup 60060 1", b"setup 3000000 0", b"#\nsetup 60059 1\nat 0 look")),
    *((b"link 1\nsetup 500000 1\n" + line, 3) for line in (b"", b"to 1.2.3.4:5", b"at 0 play")),
    (b"link 1\nsetup 500000 1\n#\nat 0 look", 4),
    (b"link 1\nsetup 500000 1\n\n#\ngate", 5),
    # What begins as a command counts as one, whatever else is at fault.
    (b"at \n" * 4096, 1),
    (b"at \n" * 4097, 0),
    (b"block \n" * 4097, 0),
    (b"block\n" * 4097, 1),
    (b"at\n" * 4097, 1),
    (b"link 2\n" + LOOK * 4096, 1),
    (b"link 2\n" + LOOK * 4097, 0),
]


# Words that set up no live run, whatever is told of each.
NO_LIVE_RUN = [
    [],
    [""],
    ["load"],
    ["lives"],
    ["LIVE"],
    ["--record", "live"],
    ["live", "--events", "0"],
    ["live", "--events", "524289"],
    ["live", "--events", "18446744073709551616"],
    ["live", "--blocks", "524289"],
    ["live", "--quantum", "1099511627777"],
    ["live", "--group", "65536"],
    ["live", "--group", "18446744073709551616"],
    ["live", "--group="],
    ["live", "--group=-0"],
    ["live", "--group", "1.0"],
    ["live", "--group", "1", "--group", "1"],
    ["live", "--group=1", "--quantum=1", "--group=1"],
    ["live", "--groups", "1"],
    ["live", "--events", "7", "--events", "8"],
    ["live", "--events=7", "--events=7"],
    ["live", "--quantum", "1", "--blocks", "2", "--quantum", "1"],
    ["live", "--events"],
    ["live", "--events="],
    ["live", "--events", ""],
    ["live", "--events", "--blocks", "5"],
    ["live", "--events", "--"],
    ["live", "--events", "--", "5"],
    ["live", "--events", "-5"],
    ["live", "--events=-5"],
    ["live", "--quantum=-0"],
    ["live", "--events", "five"],
    ["live", "--events", "1e3"],
    ["live", "--events", "0x7"],
    ["live", "--events", "7.0"],
    ["live", "--events", "1_000"],
    ["live", "--events", " 7"],
    ["live", "--events", "5", "6"],
    ["live", "x"],
    ["live", "live"],
    ["live", ""],
    ["live", "-"],
    ["live", "--", "x"],
    ["live", "--", "--record"],
    ["live", "--record", "--record"],
    ["live", "--record=x"],
    ["live", "--record=true"],
    ["live", "--event", "7"],
    ["live", "--bogus"],
    ["live", "--help"],
    ["live", "-V"],
]


# Words that set up a live run, and what is told of it: its blocks, events, quantum and group.
HOURS = b"at most 262144 blocks of 20 milliseconds (1 hour 27 minutes)"
ROOM, BARS = b"room for 262144 events", b"bars of 4 beats"
LIVE_RUNS = [
    (["live"], HOURS, ROOM, BARS),
    (["live", "--"], HOURS, ROOM, BARS),
    (["live", "--events", "1"], HOURS, b"room for 1 event", BARS),
    (["live", "--events", "524288"], HOURS, b"room for 524288 events", BARS),
    (["live", "--events", "262144"], HOURS, ROOM, BARS),
    (["live", "--events=7"], HOURS, b"room for 7 events", BARS),
    (["live", "--events", "+5"], HOURS, b"room for 5 events", BARS),
    (["live", "--events=007"], HOURS, b"room for 7 events", BARS),
    (["live", "--blocks", "0"], b"no blocks", ROOM, BARS),
    (["live", "--blocks", "1"], b"at most 1 block of 20 milliseconds (0.02 seconds)", ROOM, BARS),
    (["live", "--blocks", "50"], b"at most 50 blocks of 20 milliseconds (1 second)", ROOM, BARS),
    (["live", "--blocks", "150"], b"at most 150 blocks of 20 milliseconds (3 seconds)", ROOM, BARS),
    (["live", "--blocks", "5999"], b"at most 5999 blocks of 20 milliseconds (119.98 seconds)", ROOM, BARS),
    (["live", "--blocks", "6000"], b"at most 6000 blocks of 20 milliseconds (2 minutes)", ROOM, BARS),
    (["live", "--blocks", "179999"], b"at most 179999 blocks of 20 milliseconds (59 minutes)", ROOM, BARS),
    (["live", "--blocks", "180000"], b"at most 180000 blocks of 20 milliseconds (1 hour)", ROOM, BARS),
    (["live", "--blocks", "363000"], b"at most 363000 blocks of 20 milliseconds (2 hours 1 minute)", ROOM, BARS),
    (["live", "--blocks=524288"], b"at most 524288 blocks of 20 milliseconds (2 hours 54 minutes)", ROOM, BARS),
    (["live", "--quantum", "0"], HOURS, ROOM, b"no bars"),
    (["live", "--quantum=+0"], HOURS, ROOM, b"no bars"),
    (["live", "--quantum=1"], HOURS, ROOM, b"bars of 0.000001 beats, so every click is an accent"),
    (["live", "--quantum", "4"], HOURS, ROOM, b"bars of 0.000004 beats, so every click is an accent"),
    (["live", "--quantum", "999999"], HOURS, ROOM, b"bars of 0.999999 beats, so every click is an accent"),
    (["live", "--quantum", "1000000"], HOURS, ROOM, b"bars of 1 beat"),
    (["live", "--quantum", "1500000"], HOURS, ROOM, b"bars of 1.5 beats"),
    (["live", "--quantum", "3000001"], HOURS, ROOM, b"bars of 3.000001 beats"),
    (["live", "--quantum", "4010000"], HOURS, ROOM, b"bars of 4.01 beats"),
    (["live", "--quantum", "10000000"], HOURS, ROOM, b"bars of 10 beats"),
    (["live", "--quantum", "1099511627776"], HOURS, ROOM, b"bars of 1099511.627776 beats"),
    (["live", "--group", "0"], HOURS, ROOM, BARS),
    (["live", "--group=1"], HOURS, ROOM, BARS + b", group 1"),
    (["live", "--group", "65535"], HOURS, ROOM, BARS + b", group 65535"),
    (["live", "--group=+007"], HOURS, ROOM, BARS + b", group 7"),
    (["live", "--record", "--"], HOURS, ROOM, BARS),
    (["live", "--record", "--events", "9"], HOURS, b"room for 9 events", BARS),
    (["live", "--events=9", "--record"], HOURS, b"room for 9 events", BARS),
    (
        ["live", "--group", "5", "--quantum", "2000000", "--blocks=3", "--record", "--events", "4"],
        b"at most 3 blocks of 20 milliseconds (0.06 seconds)",
        b"room for 4 events",
        b"bars of 2 beats, group 5",
    ),
]

# Words that set up a run under control, at addresses that are no machine's own, the endpoint, and what is told of the run.
CONTROL_RUNS = [
    (["192.0.2.1:5"], b"192.0.2.1:5", ROOM, BARS),
    (["--", "198.51.100.2:65535"], b"198.51.100.2:65535", ROOM, BARS),
    (["192.0.2.1:5", "--events", "1"], b"192.0.2.1:5", b"room for 1 event", BARS),
    (["--events=524288", "203.0.113.254:20900"], b"203.0.113.254:20900", b"room for 524288 events", BARS),
    (["--quantum", "0", "192.0.2.1:5", "--group", "65535"], b"192.0.2.1:5", ROOM, b"no bars, group 65535"),
    (
        ["--group=7", "--events", "9", "--quantum=1099511627776", "192.0.2.1:5"],
        b"192.0.2.1:5",
        b"room for 9 events",
        b"bars of 1099511.627776 beats, group 7",
    ),
]


def allowed(count):
    """What a process calls before it begins, to have so many descriptors at most."""
    return lambda: resource.setrlimit(resource.RLIMIT_NOFILE, (count, count))


def no_live_runs(program):
    """Words behind which nothing is read or written, and something is told."""
    for words in NO_LIVE_RUN:
        status, output, error = common.ended([program, *words], LINK + LOOK)
        yield f"{words}", (status, output, error[:10], b"\n\nUsage: jorazhil " in error), (2, b"", b"jorazhil: ", True)


def live_runs(program):
    """What is told first of the run that words set up, which is ended then; and whether a short one writes a record, with which quantum."""
    for words, *told in LIVE_RUNS:
        child = subprocess.Popen([program, *words], stdin=subprocess.PIPE, stdout=subprocess.DEVNULL, stderr=subprocess.PIPE)
        with child.stdin, child.stderr:
            child.stdin.write(LINK + b"at 36028797018963968 look\n")
            child.stdin.close()
            # One that tells nothing would be waited for for ever.
            late = threading.Timer(60, child.kill)
            late.start()
            line = child.stderr.readline()
            late.cancel()
            child.kill()
            child.wait()
        yield f"{words}", line, b"jorazhil: live at 127.0.0.1:0; %s\n" % b", ".join(told)
    recorded = ((["--record"], 4_000_000), (["--record", "--"], 4_000_000), (["--events", "9", "--record"], 4_000_000))
    for words, quantum in (([], None), *recorded, (["--record", "--quantum=2"], 2), (["--quantum", "0", "--record"], 0)):
        status, output, _ = common.ended([program, "live", "--blocks", "0", *words], LINK + LOOK)
        found = b"\nreplay 2\n" in output, [line for line in output.splitlines() if line.startswith(b"quantum ")]
        wanted = (False, []) if quantum is None else (True, [b"quantum %d" % quantum])
        yield f"the record of live {words}", (status, *found), (0, *wanted)


def control_runs(program):
    """What is told of a run under control that can't listen where it is told to, and so ends. Its number of events hangs on the clock."""
    for words, at, *told in CONTROL_RUNS:
        status, _, error = common.ended([program, "control", *words], LINK)
        journal = b"the journal took "
        found = [line if not line.startswith(b"jorazhil: " + journal) else journal for line in error.splitlines(True)]
        yield (
            f"control {words}",
            (status, found),
            (11, [
                b"jorazhil: control at 127.0.0.1:0; %s\n" % b", ".join(told),
                b"jorazhil: listening for a client at %s failed: %s\n" % (at, NOT_HERE),
                journal,
                b"jorazhil: the run took 0 of at most 4096 lines of its client\n",
                UNSERVED,
            ]),
        )


def lines_at_fault(program):
    """Scripts of live runs and of runs under control whose first line at fault is known, and a text that has none with one more line."""
    runs = [(["live"], LINK, rows) for rows in (COMMAND_LINES,)] + [(["control", CLIENT], LINK, HEAD_LINES)]
    texts = [(words, head + (text if line else text + b"\nwait"), line) for words, head, rows in runs for text, line in rows]
    texts += [(words, text, line) for words in (["live"], ["control", CLIENT]) for text, line in HEAD_FAULTS]
    for words, text, line in texts:
        line = line or 1 + text.count(b"\n")
        status, output, error = common.ended([program, *words], text)
        if text.count(b"at ") + text.count(b"block ") > 4096 and b"#" not in text:
            yield f"{words} on {text[-40:]!r}", (status, output, error), (10, b"", TOO_MANY)
        else:
            named = b"jorazhil: line %d, column " % line
            yield f"{words} on {text[-40:]!r}", (status, output, error[: len(named)]), (8, b"", named)


def read_failures(program):
    """A standard input that can't be read: a directory, and one that is closed."""
    for words in (["replay"], ["decode"], ["filter"], ["midi", "1", "1"], ["live"], ["control", "127.0.0.1:0"]):
        directory = os.open("/", os.O_RDONLY)
        found = common.ended([program, *words], stdin=directory)
        os.close(directory)
        yield f"{words[0]} of a directory", found, (5, b"", INPUT % DIRECTORY)
    found = common.ended(["/bin/sh", "-c", 'exec "$0" replay <&-', program])
    yield "replay of a closed input", found, (5, b"", INPUT % DESCRIPTOR)


def write_failures(program):
    """A standard output that can't be written: a full device, and a file that may hold no more than a part."""
    lived = LIVE_AT % (b"127.0.0.1:0", b"262144 events") + JOURNAL % (2, b"262144 events")
    for words, text, told in (
        (["replay"], HEAD, b""),
        (["decode"], b"00\n", b""),
        (["filter"], b"0 0\n", b""),
        (["midi", "1", "1"], HEAD, b""),
        (["load", "7", "40"], b"", b""),
        (["live", "--blocks", "0"], LINK + LOOK, lived),
    ):
        if os.path.exists("/dev/full"):
            with open("/dev/full", "wb") as full:
                status, _, error = common.ended([program, *words], text, stdout=full)
            yield f"{words[0]} to a full device", (status, error), (7, told + SINK % FULL)
    found = common.ended(["/bin/sh", "-c", 'exec "$0" replay >&-', program], HEAD)
    yield "replay to a closed output", found, (7, b"", SINK % DESCRIPTOR)


def live_failures(program):
    """A live run goes on without the port or the device that failed, and past a full journal, and tells how much there was."""

    def begins(name, script, words, wanted, **streams):
        status, output, error = common.ended([program, "live", *words], script, **streams)
        return f"live {name}", (status, output[: len(wanted[1])], error), wanted

    # No event but the opening tick and the end, and no block.
    ended = JOURNAL % (2, b"262144 events")

    def without_port(unbound, reason):
        return 3, b"# live 2 1 0 1 0 0 0 0\n# state 0 500000 0 ", UNBOUND % (unbound, reason) + ended + PORT

    with socket.socket(socket.AF_INET, socket.SOCK_DGRAM) as held:
        held.bind(("127.0.0.1", 0))
        gate = b"127.0.0.1:%d" % held.getsockname()[1]
        taken = LINK.replace(b"127.0.0.1:0", gate)
        yield begins("on a port in use", taken + LOOK, ["--blocks", "0"], without_port(b"gate " + gate, IN_USE))
        # The second of two gates is told.
        first = LINK + b"gate " + gate + b"\n"
        yield begins("whose second gate's port is in use", first + LOOK, ["--blocks", "0"], without_port(b"gate " + gate, IN_USE))
        if os.path.exists("/dev/full"):
            # Of two causes the network's comes first.
            with open("/dev/full", "wb") as full:
                found = common.ended([program, "live", "--blocks", "0"], taken + LOOK, stdout=full)
            yield "live on a port in use, to a full device", found, (3, None, without_port(b"gate " + gate, IN_USE)[2])
    # Nobody holds that port any more but the run's own first gate.
    twice = taken + b"gate " + gate + b"\n"
    yield begins("with two gates of one port", twice + LOOK, ["--blocks", "0"], without_port(b"gate " + gate, IN_USE))
    # An address that is set aside for documentation, and so is no machine's own.
    elsewhere = LINK.replace(b"127.0.0.1:0", b"192.0.2.1:17000")
    yield begins("at another's address", elsewhere + LOOK, ["--blocks", "0"], without_port(b"gate 192.0.2.1:17000", NOT_HERE))
    # Behind the three that it is given a run opens a descriptor to wait by; a bind opens another one, and then one for each gate.
    for count, unbound in ((4, b"gates"), (5, b"gate 127.0.0.1:0")):
        wanted = without_port(unbound, b"Too many open files (os error 24)")
        yield begins(f"with {count} descriptors", LINK + LOOK, ["--blocks", "0"], wanted, preexec_fn=allowed(count))
    most = LIVE_AT % (b"127.0.0.1:0", b"524288 events") + JOURNAL % (2, b"524288 events")
    yield begins("with the most room", LINK + LOOK, ["--blocks", "0", "--events", "524288"], (0, b"# live 2 1 0 1 0 0 0 0\n# state 0 ", most))
    full_journal = LIVE_AT % (b"127.0.0.1:0", b"1 event") + JOURNAL % (1, b"1 event") + EVENTS
    yield begins("with a full journal", LINK + LOOK, ["--blocks", "0", "--events", "1"], (6, b"# live 1 1 0 1 0 0 0 0\n# state 0 ", full_journal))
    status, output, error = common.ended([program, "live", "--blocks", "0"], LINK + b"gate 127.0.0.1:0\n")
    both = LIVE_AT % (b"127.0.0.1:0 and 127.0.0.1:0", b"262144 events")
    took = JOURNAL % (int((output.split() + [b"0"] * 3)[2]), b"262144 events")
    yield "live without an at command", (status, error), (0, both + took + NO_AT)


def full_pipe():
    """The ends of a pipe without room, in which a write that finds none fails, and how many bytes are in it."""
    reader, writer = os.pipe()
    os.set_blocking(writer, False)
    count = 0
    while True:
        try:
            count += os.write(writer, b"." * 4096)
        except BlockingIOError:
            return reader, writer, count


def clicks_without_room(program):
    """A live run whose first click comes at once and can't be told, with which its blocks end. At its goodbye, behind which it waits for
    room in standard output, standard error gets room again: so it tells how it ended."""
    (out, out_end, in_out), (error, error_end, in_error) = full_pipe(), full_pipe()
    os.set_blocking(out_end, True)
    with socket.socket(socket.AF_INET, socket.SOCK_DGRAM) as peer, open(out, "rb") as output, open(error, "rb") as told:
        peer.bind(("127.0.0.1", 0))
        peer.settimeout(60)
        script = LINK.replace(b"500000", b"60060") + b"to 127.0.0.1:%d\nat 0 play\n" % peer.getsockname()[1]
        child = subprocess.Popen([program, "live", "--blocks", "500"], stdin=subprocess.PIPE, stdout=out_end, stderr=error_end)
        os.close(out_end)
        os.close(error_end)
        child.stdin.write(script)
        child.stdin.close()
        while peer.recv(513)[:9] != b"_asdp_v\x01\x03":
            pass
        told.read(in_error)
        output.read(in_out)
        summary, ended = output.read(), told.read()
        status = child.wait(timeout=60)
    words = summary.split() + [b"0"] * 10
    events, reads, plays = (int(words[k]) for k in (2, 4, 8))
    wanted = 4, b"# live ", reads - 1, JOURNAL % (events, b"262144 events") + AUDIO
    return "live whose clicks can't be told", (status, summary[:7], plays, ended), wanted


def pipe_closed_after(program, count):
    """The output goes into a pipe whose reader leaves after so many bytes: what it got is the front of the output."""
    lines = 20_000
    told = b"fault short 1\n"
    child = subprocess.Popen([program, "decode"], stdin=subprocess.PIPE, stdout=subprocess.PIPE, stderr=subprocess.PIPE)
    child.stdin.write(b"00\n" * lines)
    child.stdin.close()
    front = child.stdout.read(count)
    child.stdout.close()
    error = child.stderr.read()
    status = child.wait(timeout=60)
    # That a reader leaves is no news.
    return "decode to a pipe whose reader leaves", (status, front, error), (7, (told * lines)[:count], b"")


def name_of_no_text(program):
    """The program under a name that is no UTF-8, which is none of its words."""
    found = common.ended([b"\xff", b"replay"], HEAD, executable=program)
    return "replay under a name that is no text", found, (0, OPENING + b"done 0 1 0\n", b"")


def main(program):
    tally = common.Tally()
    for words, text, status, error in TEXTS:
        tally.compare(f"{words} on {text[-40:]!r}", common.ended([program, *words], text), (status, b"", error))
    for part in (no_live_runs, live_runs, control_runs, lines_at_fault, read_failures, write_failures, live_failures):
        for row in part(program):
            tally.compare(*row)
    tally.compare(*clicks_without_room(program))
    tally.compare(*pipe_closed_after(program, 1000))
    tally.compare(*name_of_no_text(program))
    return tally.end()


if __name__ == "__main__":
    common.begin(main, __doc__)
