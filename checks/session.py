#!/usr/bin/env python3
"""Compares what tools/session.py tells of recordings, over the built program, with what is written here: checks/session.py PROGRAM.

Each examples/NAME.script is told as examples/NAME.told has it, by the program's own run and by stored output; docs/session.svg is the
picture of three-peers.script. The marks that the tool puts between events change nothing: without the pongs to them the output is
examples/NAME.expected. Then scripts made here: events of one moment, a ping that carries a session, ids that aren't text, a record with its
summary, moments that fall, a session that is joined where nothing else changes, two gates, bars that change. Of pictures it is looked at
whether they are XML, and how many steps, marks and bands they have. Input that can't be told has to end with status 2 and one sentence on
standard error.
The last line is 'N passed, N failed'.
"""
import os
import re
import subprocess
import sys
import xml.etree.ElementTree as ElementTree

sys.dont_write_bytecode = True
import common  # noqa: E402
import node  # noqa: E402
from common import EXAMPLES, HERE, read, write  # noqa: E402

TOOL = os.path.join(HERE, "tools", "session.py")
SVG = "{http://www.w3.org/2000/svg}"

NODE = "node QRSTUVWX 1 500000 1 1000000\n"
GATE = "gate 127.0.0.1:20809\nto 127.0.0.1:20808\n"
HEAD = "replay 1\n" + NODE + GATE


def head_of(group):
    """A head of version 2."""
    return f"replay 2\n{NODE}group {group}\nquantum 4000000\n{GATE}"


OWN, SLOW, FAST = b"QRSTUVWX", node.Timeline(500_000, 0, 0), node.Timeline(400_000, 600_000, 300_000)
PLACE = node.endpoint_of("127.0.0.1:20808")
OPENS = (
    "0:00.000  QRSTUVWX opens alone: 120.00 beats per minute, 500000 microseconds per beat, beat 0.000000 is at 0:00.000000, not playing, "
    "starts are shared\n"
)


def response(now, sender, session=OWN, line=SLOW, start=node.STOPPED, group=0):
    return f"rx {now} 0 127.0.0.1:20808 {node.write_state(2, group, sender, session, line, start, PLACE).hex()}\n"


def bye(now, sender, group=0):
    return f"rx {now} 0 127.0.0.1:20808 {node.write_bye(group, sender).hex()}\n"


def pong(now, session):
    """Of a session whose ghost time is that of a node that opens at a second."""
    times = ((b"__gt", now - 1_000_000), (b"__ht", now), (b"_pgt", now - 1_000_000))
    parts = b"".join(node.entry(key, node.eight(time)) for key, time in times)
    return f"rx {now} 0 127.0.0.1:20808 {(b'_link_v' + bytes([1, 2]) + node.entry(b'sess', session) + parts).hex()}\n"


def ping(now, payload):
    return f"rx {now} 0 127.0.0.1:20808 {(b'_link_v' + bytes([1, 1]) + payload).hex()}\n"


# A name, a script, and the lines behind the opening one.
SCRIPTS = [
    (
        "datagrams of two peers at one moment, of which one brings a tempo",
        response(1_100_000, b"ABCDEFGH") + response(1_300_000, b"ABCDEFGH", line=FAST) + response(1_300_000, b"IJKLMNOP", b"IJKLMNOP"),
        "0:00.100  ABCDEFGH at 127.0.0.1:20808 comes: 1 peer\n"
        "0:00.300  the tempo is now 150.00 beats per minute, 400000 microseconds per beat (peer ABCDEFGH at 127.0.0.1:20808)\n"
        "0:00.300  the beat moves: beat 0.000000 is now at 0:00.060000, and this moment is beat 0.600, as before "
        "(peer ABCDEFGH at 127.0.0.1:20808)\n"
        "0:00.300  the recording ends: 3 events, 3 states shown, 0 datagrams sent\n",
    ),
    (
        "the same, each with a state of its own",
        response(1_100_000, b"ABCDEFGH") + response(1_100_000, b"IJKLMNOP"),
        "0:00.100  ABCDEFGH at 127.0.0.1:20808 comes: 1 peer\n"
        "0:00.100  IJKLMNOP at 127.0.0.1:20808 comes: 2 peers\n"
        "0:00.100  the recording ends: 2 events, 3 states shown, 0 datagrams sent\n",
    ),
    (
        "a tick and a goodbye at one moment, and commits between datagrams",
        response(1_100_000, b"ABCDEFGH")
        + response(1_100_000, b"IJKLMNOP")
        + "tick 1200000\n"
        + bye(1_200_000, b"ABCDEFGH")
        + "app 1200000 1200000 s 1 6000000 1200000\naudio 1200000 4 1200000 s 0 1200000 1200001\n"
        + response(1_200_000, b"ABCDEFGH"),
        "0:00.100  ABCDEFGH at 127.0.0.1:20808 comes: 1 peer\n"
        "0:00.100  IJKLMNOP at 127.0.0.1:20808 comes: 2 peers\n"
        "0:00.200  ABCDEFGH at 127.0.0.1:20808 says goodbye: 1 peer is left\n"
        "0:00.200  starts to play as of 0:05.000 (application)\n"
        "0:00.200  stops as of 0:00.200 (audio thread)\n"
        "0:00.200  ABCDEFGH at 127.0.0.1:20808 comes: 2 peers\n"
        "0:00.200  the recording ends: 7 events, 7 states shown, 1 datagram sent\n",
    ),
    (
        "a ping whose payload tells a session, which its pong gives back, and one that is cut",
        ping(1_100_000, node.entry(b"sess", b"OTHERONE")) + ping(1_200_000, b"\1\2\3"),
        "0:00.200  the recording ends: 2 events, 1 state shown, 2 datagrams sent\n",
    ),
    (
        "an empty ping, from where the tool's marks come else",
        "rx 1100000 0 127.0.0.1:1 5f6c696e6b5f760101\n",
        "0:00.100  the recording ends: 1 event, 1 state shown, 1 datagram sent\n",
    ),
    (
        "an id that is no text, a peer that goes over to its own session, and silence",
        response(1_100_000, b"\0\1<&\"'>\xff", OWN)
        + response(1_200_000, b"IJKLMNOP")
        + response(1_300_000, b"IJKLMNOP", b"IJKLMNOP")
        + "tick 9000000\n",
        "0:00.100  0x00013c2622273eff at 127.0.0.1:20808 comes: 1 peer\n"
        "0:00.200  IJKLMNOP at 127.0.0.1:20808 comes: 2 peers\n"
        "0:00.300  IJKLMNOP at 127.0.0.1:20808 goes over to the session of IJKLMNOP: 1 peer is left\n"
        "0:08.000  1 peer is heard no more: no peer is left\n"
        "0:08.000  a session of the new id >pz1+Yoc is founded\n"
        "0:08.000  the recording ends: 4 events, 5 states shown, 1 datagram sent\n",
    ),
    (
        "moments that fall, a start that a peer tells, and one that moves",
        response(2_000_000, b"ABCDEFGH", start=node.Start(1, 1_000_000, 900_000))
        + "app 1500000 1500000 s 1 1900000 1950000\nend 1000000\n# state of a record\n\nend 2000000\n",
        "0:01.000  ABCDEFGH at 127.0.0.1:20808 comes: 1 peer\n"
        "0:01.000  starts to play as of 0:00.500 (peer ABCDEFGH at 127.0.0.1:20808)\n"
        "0:01.000  plays on, now as of 0:00.900 (application)\n"
        "0:01.000  the node says goodbye to 127.0.0.1:20808\n"
        "0:01.000  the node says goodbye to 127.0.0.1:20808\n"
        "0:01.000  the recording ends: 4 events, 3 states shown, 2 datagrams sent\n",
    ),
    (
        "a session of the same timeline, clock and number of peers, which is joined",
        response(1_100_000, b"IJKLMNOP")
        + response(1_200_000, b"ABCDEFGH", b"ABCDEFGH")
        + "tick 1300000\n"
        + pong(1_400_000, b"ABCDEFGH") * 51
        + "tick 1700000\n",
        "0:00.100  IJKLMNOP at 127.0.0.1:20808 comes: 1 peer\n"
        "0:00.400  the session of ABCDEFGH is joined\n"
        "0:00.700  the recording ends: 55 events, 3 states shown, 53 datagrams sent\n",
    ),
]

# In version 2, where the states tell their session: one that is joined at the moment of a datagram that brought nothing.
JOINED_TEXT = (
    head_of(0)
    + response(1_100_000, b"ABCDEFGH", b"ABCDEFGH", FAST)
    + "tick 1300000\n"
    + pong(1_400_000, b"ABCDEFGH") * 50
    + response(1_400_000, b"IJKLMNOP", b"IJKLMNOP")
    + pong(1_400_000, b"ABCDEFGH")
    + "end 1500000\n"
)
MEASURED = "(the session of ABCDEFGH was measured)\n"
JOINED_TOLD = (
    OPENS + f"0:00.400  1 peer is in the session now {MEASURED}"
    "0:00.400  the session of ABCDEFGH is joined\n"
    f"0:00.400  the tempo is now 150.00 beats per minute, 400000 microseconds per beat {MEASURED}"
    f"0:00.400  the beat moves: beat -0.050000 is now at 0:00.060000, and this moment is beat 0.800, as before {MEASURED}"
    "0:00.500  the node says goodbye to 127.0.0.1:20808\n"
    "0:00.500  the recording ends: 55 events, 2 states shown, 53 datagrams sent\n"
)
# In version 2, bars that change: with a start, to none and to one beat, and once with nothing else but the count of commits.
BARS_TEXT = (
    head_of(0)
    + "app 1200000 1200000 q 3000000\naudio 1300000 1 1300000 s 1 1300000 1300000 q 0\n"
    + "app 1400000 1400000 q 1000000\napp 1500000 1500000 q 1000000\naudio 1550000 2 1550000 q 4\nend 1600000\n"
)
BARS_TOLD = (
    OPENS + "0:00.200  the bars change from 4 beats to 3 beats (application)\n"
    "0:00.300  the bars change from 3 beats to none (audio thread)\n"
    "0:00.300  starts to play as of 0:00.300 (audio thread)\n"
    "0:00.400  the bars change from none to 1 beat (application)\n"
    "0:00.550  the bars change from 1 beat to 0.000004 beats (audio thread)\n"
    "0:00.600  the node says goodbye to 127.0.0.1:20808\n"
    "0:00.600  the recording ends: 6 events, 6 states shown, 1 datagram sent\n"
)

# Of two gates, at each of which a peer comes; the second one's brings a tempo.
GATES_TEXT = (
    head_of(0)
    + "gate 10.8.0.1:17001\nto 10.8.0.2:17001\n"
    + response(1_100_000, b"ABCDEFGH")
    + response(1_200_000, b"IJKLMNOP").replace(" 0 127.0.0.1:20808 ", " 1 10.8.0.2:17001 ")
    + response(1_300_000, b"IJKLMNOP", line=FAST).replace(" 0 127.0.0.1:20808 ", " 1 10.8.0.2:17001 ")
    + "end 1500000\n"
)
ON_GATE = "IJKLMNOP at 10.8.0.2:17001 on the gate 10.8.0.1:17001"
GATES_TOLD = (
    OPENS.replace(" alone:", " alone at the gates 127.0.0.1:20809 and 10.8.0.1:17001:")
    + "0:00.100  ABCDEFGH at 127.0.0.1:20808 on the gate 127.0.0.1:20809 comes: 1 peer\n"
    f"0:00.200  {ON_GATE} comes: 2 peers\n"
    f"0:00.300  the tempo is now 150.00 beats per minute, 400000 microseconds per beat (peer {ON_GATE})\n"
    f"0:00.300  the beat moves: beat 0.000000 is now at 0:00.060000, and this moment is beat 0.600, as before (peer {ON_GATE})\n"
    "0:00.500  the node says goodbye to 127.0.0.1:20808, 10.8.0.2:17001\n"
    "0:00.500  the recording ends: 4 events, 4 states shown, 2 datagrams sent\n"
)

# In the group 258, with messages of other groups at the moments of those that are heard: none of them brought anything.
GROUP_TEXT = (
    head_of(258)
    + response(1_100_000, b"ABCDEFGH", group=258)
    + response(1_300_000, b"IJKLMNOP", b"IJKLMNOP")
    + response(1_300_000, b"ABCDEFGH", line=FAST, group=258)
    + response(1_300_000, b"RSTUVWXY", b"IJKLMNOP", group=513)
    + "tick 1350000\n"
    + bye(1_400_000, b"ABCDEFGH", 513)
    + bye(1_400_000, b"ABCDEFGH", 258)
    + bye(1_400_000, b"ABCDEFGH")
    + "end 1500000\n"
)
GROUP_TOLD = (
    OPENS.replace(" alone:", " alone in the group 258:")
    + "0:00.100  ABCDEFGH at 127.0.0.1:20808 comes: 1 peer\n"
    "0:00.300  the tempo is now 150.00 beats per minute, 400000 microseconds per beat (peer ABCDEFGH at 127.0.0.1:20808)\n"
    "0:00.300  the beat moves: beat 0.000000 is now at 0:00.060000, and this moment is beat 0.600, as before (peer ABCDEFGH at 127.0.0.1:20808)\n"
    "0:00.400  ABCDEFGH at 127.0.0.1:20808 says goodbye: no peer is left\n"
    "0:00.400  a session of the new id >pz1+Yoc is founded\n"
    "0:00.500  the node says goodbye to 127.0.0.1:20808\n"
    "0:00.500  the recording ends: 9 events, 4 states shown, 2 datagrams sent\n"
)

# Of the pictures of examples: tempo steps, peer steps, bar steps, spans in which it plays, sessions, offsets told, and marks with those of
# the legend.
PICTURES = {
    "one-alive": (0, 0, 0, 0, 1, 0, 0),
    "several-peers": (0, 0, 0, 0, 1, 0, 0),
    "two-peers": (1, 2, 0, 1, 2, 1, 3 + 2),
    "three-peers": (4, 6, 0, 2, 3, 3, 4 + 5 + 4 + 4),
    "two-groups": (0, 2, 0, 0, 2, 1, 0),
    "waltz": (1, 2, 3, 1, 2, 0, 6 + 2),
    "midi": (1, 0, 0, 2, 1, 0, 7 + 2),
}


def tell(words, text=b"", tool=TOOL):
    """Status, standard output and standard error of the tool."""
    status, output, error = common.of_tool(tool, words, text)
    return status, output.decode(), error


def parts_of(text):
    """The parts of a picture by their classes; an error where it isn't XML, asks for something else, or has no title."""
    root = ElementTree.fromstring(text)
    if root.tag != SVG + "svg" or root[0].tag != SVG + "title" or not root[0].text or re.search("href|url\\(|<script|<style", text):
        raise ValueError("it is no picture of its own with a title")
    by_class = {}
    for part in root.iter():
        by_class.setdefault(part.get("class"), []).append(part)
    return by_class


def counted(text):
    """How much there is in a picture of a session."""
    by_class = parts_of(text)
    steps = [by_class[name][0].get("d").count("V") for name in ("tempo", "peers")]
    steps.append(sum(part.get("d").count("V") for part in by_class.get("bars", [])))
    return (*steps, *(len(by_class.get(name, [])) for name in ("playing", "session", "offset", "mark")))


def examples(program, folder):
    names = sorted(name[:-7] for name in os.listdir(EXAMPLES) if name.endswith(".script"))
    for name in names:
        script, drawn = os.path.join(EXAMPLES, name + ".script"), os.path.join(folder, name + ".svg")
        told = read(EXAMPLES, name + ".told") if os.path.exists(os.path.join(EXAMPLES, name + ".told")) else None
        yield name, tell(["--program", program, "--svg", drawn, script]), (0, told, "")
        yield f"the picture of {name}", counted(read(drawn)), PICTURES.get(name, counted(read(drawn)))
        # Without the program, but for its runs in between, and over standard input.
        text = read(script).encode()
        marked = replayed(program, text)
        yield f"{name} with marks", unmarked(marked), read(EXAMPLES, name + ".expected")
        output = ["--output", write(folder, "output", marked), "--program", os.path.join(folder, "none")]
        status, digits, error = tell([*output, "--datagrams"], text)
        _, decoded, _ = common.ended([program, "decode"], digits.encode())
        stored = tell([*output, "--decoded", write(folder, "decoded", decoded), "-"], text)
        yield f"{name} of stored output", (status, error, stored), (0, "", (0, told, ""))
    yield "docs/session.svg", read(folder, "three-peers.svg") == read(HERE, "docs", "session.svg"), True


def replayed(program, text):
    """What the program writes for the recording with its marks."""
    _, marked, _ = tell(["--marked"], text)
    return common.ended([program, "replay"], marked.encode("latin-1"))[1].decode()


def unmarked(output):
    """That without the pongs to the marks, which go to the port 1 in what is told here."""
    lines = output.splitlines(keepends=True)
    kept = [line for line in lines if not re.match(r"tx -?[0-9]+ 0 127\.0\.0\.1:1 ", line)]
    events, states, sent = map(int, kept[-1].split(" ")[1:])
    marks = len(lines) - len(kept)
    return "".join(kept[:-1]) + f"done {events - marks} {states} {sent - marks}\n"


def made_here(program, folder):
    run = ["--program", program, "--svg", os.path.join(folder, "made.svg")]
    for head in (HEAD, head_of(0)):
        for name, events, lines in SCRIPTS:
            text = "# live 1 2 3 4 5 6 7 8\n# state 0 500000\n" + head + events
            yield f"{name}, behind `{head[:8]}`", tell(run, text.encode()), (0, OPENS + lines, "")
            counted(read(folder, "made.svg"))
    yield "messages of other groups", tell(run, GROUP_TEXT.encode()), (0, GROUP_TOLD, "")
    yield "a session that is joined beside a datagram", tell(run, JOINED_TEXT.encode()), (0, JOINED_TOLD, "")
    yield "two gates", tell(run, GATES_TEXT.encode()), (0, GATES_TOLD, "")
    yield "bars that change", tell(run, BARS_TEXT.encode()), (0, BARS_TOLD, "")
    # Five marks, and two in the legend.
    yield "their picture", counted(read(folder, "made.svg")), (0, 0, 4, 1, 1, 0, 5 + 2)
    # An id of signs that mean something in XML, a gate without a place, and starts that aren't shared.
    name = "<&\"'>abc"
    text = f"replay 1\nnode {name} 1 2999999 0 7\ngate 127.0.0.1:20809\ntick 8\nend 3600000007\n"
    told = (
        f" 0:00.000  {name} opens alone: 20.00 beats per minute, 2999999 microseconds per beat, beat 0.000000 is at 0:00.000000, not playing, "
        "starts aren't shared\n60:00.000  the node ends\n60:00.000  the recording ends: 2 events, 1 state shown, 0 datagrams sent\n"
    )
    drawn = os.path.join(folder, "made.svg")
    yield "an id of signs of XML", tell(["--program", program, "--svg", drawn], text.encode()), (0, told, "")
    yield "its title", ElementTree.parse(drawn).getroot()[0].text, f"A session as {name} is shown it, 60:00.000 long"
    yield "--help", tell(["--help"])[::2], (0, "")


def refused(program, folder):
    """The words, the input, and what has to stand on standard error."""
    two_peers, none = os.path.join(EXAMPLES, "two-peers.script"), os.path.join(folder, "none")
    one_output, several_output, two_output = (
        write(folder, f"{name}.output", replayed(program, read(EXAMPLES, f"{name}.script").encode()))
        for name in ("one-alive", "several-peers", "two-peers")
    )
    output = read(two_output).splitlines(keepends=True)
    opening = "state 0 500000 0 1000000 0 0 0 1 0 1000000 0 0\n"
    pong_line = "tx 1000000 0 127.0.0.1:1 5f6c696e6b5f760102\n"
    run = ["--program", program]
    stored = lambda text: ["--output", write(folder, "output", text)]  # noqa: E731
    path = os.path.join(folder, "output")
    cases = [
        ([], b"", "line 1: expected `replay 1` or `replay 2`, found the end of the text"),
        ([], b"# nothing\n\n", "line 3: expected `replay 1` or `replay 2`, found the end of the text"),
        (
            [],
            b"link 1\nsetup 500000 1\n",
            "line 1: expected `replay 1` or `replay 2`, found `link 1`, a live script; what `live --record` writes of its run can be told",
        ),
        ([], b"\xff\xfer\0e\0p\0", 'line 1: expected `replay 1` or `replay 2`, found "\\xff\\xfer\\x00e\\x00p\\x00"'),
        (
            [],
            HEAD.replace("\n", "\r\n").encode(),
            "line 1: expected a line feed alone at the end of the line, found a carriage return before it",
        ),
        (
            [],
            HEAD.replace("STUVWX", "").encode(),
            "line 2: expected `node` and a node's id, seed, tempo, sync and opening moment, found \"node QR 1 500000 1 1000000\"",
        ),
        ([], b"replay 3\n", 'line 1: expected `replay 1` or `replay 2`, found "replay 3"'),
        ([], b"replay 2\n", "line 2: expected `node` and a node's id, seed, tempo, sync and opening moment, found the end of the text"),
        ([], b"replay 2\n" + NODE.encode(), "line 3: expected `group` and a number from 0 to 65535, found the end of the text"),
        ([], HEAD.replace("1", "2", 1).encode(), 'line 3: expected `group` and a number from 0 to 65535, found "gate 127.0.0.1:20809"'),
        ([], head_of(65_536).encode(), 'line 3: expected `group` and a number from 0 to 65535, found "group 65536"'),
        ([], head_of("01").encode(), 'line 3: expected `group` and a number from 0 to 65535, found "group 01"'),
        (
            [],
            head_of(1).replace("quantum 4000000\n", "").encode(),
            'line 4: expected `quantum` and a number from 0 to 1099511627776, found "gate 127.0.0.1:20809"',
        ),
        (
            [],
            head_of(1).replace("4000000", "1099511627777").encode(),
            'line 4: expected `quantum` and a number from 0 to 1099511627776, found "quantum 1099511627777"',
        ),
        ([], head_of(1)[: -len(GATE)].encode(), "line 5: expected `gate` and an endpoint, found the end of the text"),
        ([], head_of(1).replace("2", "1", 1).encode(), 'line 3: expected `gate` and an endpoint, found "group 1"'),
        ([], HEAD[:41].encode() + b"\n", "line 3: expected `gate` and an endpoint, found the end of the text"),
        ([], HEAD.encode() + b"tick 5\nwait 5\n", 'line 6: expected an event: `rx`, `tick`, `app`, `audio` or `end`, found "wait 5"'),
        ([], HEAD.encode() + b"tick 05\n", 'line 5: expected `tick` and a moment, found "tick 05"'),
        ([], HEAD.encode() + b"rx 5 1 127.0.0.1:20808 00\n", 'line 5: expected a gate below 1, found "1"'),
        (
            [],
            HEAD.encode() + b"rx 5 0 127.0.0.1:20808 000\n",
            "line 5: expected two hex digits for each byte, of 513 bytes at most, found 3 digits",
        ),
        ([folder], b"", f"{folder} could not be read: Is a directory"),
        (["--output", folder, two_peers], b"", f"{folder} could not be read: Is a directory"),
        ([none], b"", f"{none} could not be read: No such file or directory"),
        (["--svgs", "x"], b"", "unrecognized arguments: --svgs; --help tells all"),
        (["--program", none, two_peers], b"", f"{none} could not be run: No such file or directory"),
        ([*stored(b""), two_peers], b"", f"{path}: line 1: expected the opening state, found the end of the text"),
        (
            ["--output", one_output, two_peers],
            b"",
            f'{one_output}: line 3: expected the pong to the mark behind line 11 of the recording, found "tx 1000100 0 127.0.0.1:1 5f6c696e6b5f760" and more',
        ),
        (
            ["--output", several_output, two_peers],
            b"",
            f"{several_output}: line 1: expected the opening state of this recording's node, "
            'found "state 0 666667 0 1000000 0 0 0 1 0 10000" and more',
        ),
    ]
    for words, text, sentence in cases:
        yield f"{words} on {text[-40:]!r}", tell(words, text), (2, "", f"session: {sentence}\n")
    # Of the output: each written anew, since all have one path.
    whole = "".join(output)
    for name, text, events, sentence in [
        ("without its end", "".join(output[:-1]), None, "line 25: expected `done` and three counts, found the end of the text"),
        ("with lines behind", whole + "done\n", None, 'line 26: expected nothing behind the line `done`, found "done"'),
        (
            "without a datagram",
            "".join(output[:1] + output[2:]),
            None,
            'line 24: expected `done 20 5 18` behind these lines, found "done 20 5 19"',
        ),
        (
            "with a datagram of another moment",
            whole.replace("tx 1200000", "tx 1200001"),
            None,
            'line 12: expected the pong to the mark behind line 23 of the recording, found "tx 1200001 0 127.0.0.1:1 5f6c696e6b5f760" and more',
        ),
        (
            "with a state behind the last mark",
            opening + pong_line + opening.replace("state 0", "state 1") + "done 2 2 1\n",
            "tick 1000000\n",
            'line 3: expected `done 2 1 1` behind these lines, found "state 1 500000 0 1000000 0 0 0 1 0 10000" and more',
        ),
        (
            "of the recording without marks",
            opening + "done 1 1 0\n",
            "tick 1000000\n",
            'line 2: expected the pong to the mark behind line 5 of the recording, found "done 1 1 0"',
        ),
        (
            "with a ping to a mark",
            opening + pong_line.replace("0102", "0101") + "done 2 1 1\n",
            "tick 1000000\n",
            'line 2: expected the pong to the mark behind line 5 of the recording, found "tx 1000000 0 127.0.0.1:1 5f6c696e6b5f760" and more',
        ),
        (
            "that says something else",
            opening + "click 5 plain\n",
            "end 5\n",
            'line 2: expected a line that `replay` writes: `state`, `tx` or `done`, found "click 5 plain"',
        ),
    ]:
        words = [*stored(text), *run, two_peers if events is None else "-"]
        found = tell(words, (HEAD + (events or "")).encode())
        yield f"an output {name}", found, (2, "", f"session: {path}: {sentence}\n")
    # States of another version, session or quantum than the recording's.
    first, found = opening[:-1], '"state 0 500000 0 1000000 0 0 0 1 0 10000" and more'
    for head, more, expected in [
        (head_of(0), "", "a state with a session and a quantum, as version 2 has it"),
        (HEAD, " 5152535455565758 4000000", "a state without a session, as version 1 has it"),
        (head_of(0), " 5152535455565759 4000000", "the opening state of this recording's node"),
        (head_of(0), " 5152535455565758 4000001", "the opening state of this recording's node"),
        (head_of(0), " 5152535455565758", "a line that `replay` writes: `state`, `tx` or `done`"),
        (head_of(0), " 51525354 4000000", "a line that `replay` writes: `state`, `tx` or `done`"),
    ]:
        words = [*stored(f"{first}{more}\ndone 0 1 0\n"), *run, "-"]
        yield f"an opening state with {more!r}", tell(words, head.encode()), (2, "", f"session: {path}: line 1: expected {expected}, found {found}\n")
    decoded = write(folder, "decoded", "bye 4142434445464748 0 0\n")
    sentence = f"session: {decoded}: line 2: expected a line for each of the 16 datagrams of this recording, found 1\n"
    yield "decoded datagrams of something else", tell(["--output", two_output, "--decoded", decoded, two_peers]), (2, "", sentence)
    # What replay has to say is handed on.
    status, told, error = tell(run, HEAD.replace("500000", "60059").encode())
    sentences = [
        'jorazhil: line 2, column 17: expected a tempo from 60060 to 3000000 microseconds per beat (500000 is 120 beats a minute), found "60059"; nothing was written',
        f"session: `replay` of {program} ended with status 8, as it says above",
    ]
    yield "a script that replay refuses", (status, told, error.splitlines()), (2, "", sentences)
    # Files that can't be written, or that were read from.
    copy = write(folder, "copy.script", read(two_peers))
    yield "a picture over its recording", tell([*run, "--svg", copy, copy]), (2, "", f"session: --svg {copy} is a file that is read from\n")
    yield "the recording is as it was", read(copy) == read(two_peers), True
    nowhere = os.path.join(folder, "none", "x.svg")
    sentence = f"session: {nowhere} could not be written: No such file or directory\n"
    yield "a picture in no folder", tell([*run, "--svg", nowhere, copy]), (2, "", sentence)


def leaving(tool, words, first):
    """A reader that leaves after the first line, which is given, and a full device, for a tool and its words."""
    pipe, words = subprocess.PIPE, [sys.executable, tool, *words]
    child = subprocess.Popen(words, stdout=pipe, stderr=pipe)
    line = child.stdout.readline().decode()
    child.stdout.close()
    error = child.stderr.read().decode()
    yield "a reader that leaves after a line", (line.lstrip(), error, child.wait(timeout=600)), (first, "", 0)
    if os.path.exists("/dev/full"):
        with open("/dev/full", "wb") as full:
            status, _, error = common.ended(words, stdout=full, timeout=600)
        name = os.path.basename(tool).removesuffix(".py")
        yield "a full device", (status, error.decode()), (2, f"{name}: standard output could not be written: No space left on device\n")


def streams(program, folder):
    commits = "".join(f"app {k}000000 {k}000000 t {400000 + k} 0 0\n" for k in range(1, 2000))
    script = write(folder, "long.script", HEAD + commits)
    yield from leaving(TOOL, ["--program", program, script], OPENS)


def main(program):
    return common.compared((examples, made_here, refused, streams), program)


if __name__ == "__main__":
    common.begin(main, __doc__)
