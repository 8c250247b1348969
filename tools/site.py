#!/usr/bin/env python3
"""Writes the script of a site: of a node with a gate in its own network and one to each other site, so that all sites are in one session.

Each site has one machine with such a node. At the other sites the addresses change places (docs/ACROSS-NETWORKS.md). A place is an IPv4
address, or one with a port, as 10.8.0.1:17001.

  jorazhil site --here 192.168.1.20 --way 10.8.0.1 --there 10.8.0.2 > site-a.script
  jorazhil site --here 192.168.2.30 --way 10.8.0.2 --there 10.8.0.1 > site-b.script
"""
import array
import errno
import fcntl
import ipaddress
import os
import re
import socket
import struct
import sys

sys.dont_write_bytecode = True
from shared import Refused, Words, end_of, quoted  # noqa: E402

OPTIONS = """\
Without words it tells which addresses this machine has. What isn't as it should be is told on standard error: an address that isn't this
machine's, a port that is taken, a site without a route to it. The script is written all the same, since it may be for another machine. With
--run nothing is run then. Three things are only told, and the node runs: a --way of another interface than the route to its site, a --here
that only this machine reaches, and more hours than the journal holds.

Hours are reckoned by the events that a second brings, of which a journal takes 524,288 at most: 25 beside one Link program and one other
node, 6 more for each further program of this network, 11 more for each further node, be it of another site or of this network. Beside one
program and one site a journal lasts 5 hours 49 minutes. Without --hours a run is of 5 hours, or of as many as the journal lasts.

With several sites either one --way is for all of them, or each --there has its own, in the same order.

Exit status: 0 where the script was written; with --run that of the program; 2 with a sentence on standard error for anything else.
"""

# Link programs find each other at this group and port.
GROUP, LINK_PORT = "224.76.78.75:20808", 20808
HERE_PORT, WAY_PORT = 17000, 17001
# What a journal takes, what a second brings, and what a script has.
MOST_EVENTS, OWN, PROGRAM, NODE = 524_288, 8, 6, 11
MOST_GATES, MOST_PLACES, MOST_HOURS, HOURS = 4, 32, 1000, 5
# Requests of Linux: all addresses, and one's mask.
SIOCGIFCONF, SIOCGIFNETMASK = 0x8912, 0x891B


# Places.


def place_of(option, word, port):
    """The address and the port of a word, which may leave the port out."""
    found = re.fullmatch(r"(\d{1,3}(?:\.\d{1,3}){3})(?::(\d{1,5}))?", word, re.ASCII)
    right = f"{option} takes an IPv4 address, as {'10.8.0.1' if port == WAY_PORT else '192.168.1.20'}, or one with a port"
    try:
        address, port = ipaddress.IPv4Address(found[1]), int(found[2] or port)
    except (TypeError, ValueError):
        raise Refused(f"{right}, found {quoted(word)}") from None
    if address.is_unspecified or address.is_multicast or address == ipaddress.IPv4Address(2**32 - 1):
        raise Refused(f"{right}: other nodes are told it as it stands, and have to reach one machine there, found {quoted(word)}")
    if not 1 <= port <= 65535 or port == LINK_PORT:
        raise Refused(f"{option}: a port is from 1 to 65535, and not {LINK_PORT}, which Link programs listen on, found {quoted(word)}")
    return str(address), port


def endpoint_of(word):
    """That of a client, which needs a port; 0 is one that the system picks."""
    found = re.fullmatch(r"(\d{1,3}(?:\.\d{1,3}){3}):(\d{1,5})", word, re.ASCII)
    try:
        address, port = ipaddress.IPv4Address(found[1]), int(found[2])
    except (TypeError, ValueError):
        address, port = None, 65536
    if port > 65535 or address.is_multicast:
        raise Refused(f"--control takes an IPv4 address of this machine and a port, as 127.0.0.1:20900, found {quoted(word)}")
    return f"{address}:{port}"


def text_of(place):
    return "{}:{}".format(*place)


def own_addresses():
    """This machine's: the name of its interface, the address, and its network."""
    room = array.array("B", bytes(40 * 1024))
    with socket.socket(socket.AF_INET, socket.SOCK_DGRAM) as asker:
        size, _ = struct.unpack("iL", fcntl.ioctl(asker, SIOCGIFCONF, struct.pack("iL", len(room), room.buffer_info()[0])))
        for at in range(0, size, 40):
            row = bytes(room[at : at + 40])
            mask = socket.inet_ntoa(fcntl.ioctl(asker, SIOCGIFNETMASK, row)[20:24])
            address = socket.inet_ntoa(row[20:24])
            yield row[:16].split(b"\0")[0].decode(), address, ipaddress.IPv4Network(f"{address}/{mask}", strict=False)


def listed():
    return ", ".join(f"{address} ({name})" for name, address, _ in own_addresses())


def name_of(address):
    """The interface that has an address; the loopback one has those of its network too."""
    rows = list(own_addresses())
    exact, it = [name for name, own, _ in rows if own == address], ipaddress.IPv4Address(address)
    return (exact + [name for name, _, its in rows if name == "lo" and it in its and it != its.broadcast_address] + [None])[0]


# What isn't as it should be.


def unbound(option, place):
    """Why a gate can't be bound there now, or None."""
    with socket.socket(socket.AF_INET, socket.SOCK_DGRAM) as gate:
        try:
            gate.bind(place)
        except OSError as error:
            if error.errno == errno.EADDRINUSE:
                other = f"{place[0]}:{place[1] + 100 if place[1] < 65000 else place[1] - 100}"
                right = f"take another one, as {other}" + (", which the other sites then have in --there" if option == "--way" else "")
                return f"{option}: another program has the port {place[1]} of {place[0]}: end it where it is a node of before, or {right}"
            if error.errno != errno.EADDRNOTAVAIL:
                return f"{option}: {text_of(place)} can't be a gate here: {error.strerror}"
    # A network's broadcast address can be bound, and is nobody's.
    return None if name_of(place[0]) else f"{option}: {place[0]} isn't an address of this machine, which has {listed()}"


def unreached(way, there):
    """Why nothing goes from a way to a site, or None. Nothing is sent."""
    with socket.socket(socket.AF_INET, socket.SOCK_DGRAM) as asker:
        try:
            asker.bind((way[0], 0))
            asker.connect(there)
        except OSError as error:
            return f"--there: from {way[0]} there is no way to {there[0]}: {error.strerror}; is the VPN up?"
    return None


def astray(way, there):
    """What is told of a way that isn't of the interface by which this machine reaches a site, or None. Nothing is sent."""
    with socket.socket(socket.AF_INET, socket.SOCK_DGRAM) as asker:
        try:
            asker.connect(there)
        except OSError:
            return None
        own = asker.getsockname()[0]
    if name_of(own) == name_of(way[0]):
        return None
    route = f"the route to {there[0]} is by {name_of(own)}, where this machine has {own}, and {way[0]} is of {name_of(way[0])}"
    return f"--way: {route}; are --here and --way exchanged, is --there wrong, or is the VPN down?"


def hints_of(site):
    """What may keep it from running well. It is only told."""
    hints = [hint for hint in (astray(*pair) for pair in zip(site.ways, site.theres)) if hint]
    if name_of(site.here[0]) == "lo" and any(name_of(way[0]) != "lo" for way in site.ways):
        own = ", ".join(f"{address} ({name})" for name, address, _ in own_addresses() if name != "lo") or "none but that"
        hints.append(f"--here: only programs of this machine reach {site.here[0]}; in its networks this machine has {own}")
    return hints


def faults_of(site):
    """What keeps the script from running well on this machine."""
    gates = [("--here", site.here), *(("--way", way) for way in dict.fromkeys(site.ways))]
    faults = [fault for fault in (unbound(*gate) for gate in gates) if fault]
    if not faults:
        faults = [fault for fault in (unreached(*pair) for pair in zip(site.ways, site.theres)) if fault]
    return faults


def duration(hours):
    """In whole minutes, the last one not begun."""
    parts = [(count, name) for count, name in zip(divmod(int(60 * hours + 1e-6), 60), ("hour", "minute")) if count]
    return " ".join(f"{count} {name}{'s' * (count > 1)}" for count, name in parts) or "less than a minute"


def of_hours(site):
    """What is told of how long the run and its journal last, or None."""
    lasts = f"lasts {duration(site.lasts)} at {site.a_second} a second"
    if site.client is not None:
        return f"a journal of {MOST_EVENTS:,} events {lasts}; end the client before that"
    if site.hours > site.lasts:
        return f"--hours: a journal of {MOST_EVENTS:,} events {lasts}; begin a new run before that"
    if site.is_short:
        return f"the run ends after {duration(site.hours)}, since a journal of {MOST_EVENTS:,} events {lasts}"
    return None


# The script.


class Site:
    """What the words say."""

    def __init__(self, words):
        self.here = place_of("--here", words.here, HERE_PORT)
        ways = [place_of("--way", word, WAY_PORT) for word in words.way]
        self.theres = [place_of("--there", word, WAY_PORT) for word in words.there]
        self.nodes = [place_of("--node", word, HERE_PORT) for word in words.node]
        if len(ways) not in (1, len(self.theres)):
            raise Refused(f"{len(ways)} --way and {len(self.theres)} --there: either one way is for all sites, or each site has its own")
        self.ways = ways * (len(self.theres) if len(ways) == 1 else 1)
        self.client, self.group = words.control if words.control is None else endpoint_of(words.control), group_of(words.group)
        self.a_second = OWN + PROGRAM * count_of(words.programs) + NODE * (len(self.theres) + len(self.nodes))
        self.lasts = MOST_EVENTS / self.a_second / 3600
        self.is_short = words.hours is None and self.lasts < HOURS
        self.hours = int(60 * self.lasts) / 60 if self.is_short else HOURS if words.hours is None else number_of(words.hours)
        if self.client is not None and words.hours is not None:
            raise Refused("--hours is of `live`, and --control of `control`, which its client ends; leave one of them out")
        self.want_apart()

    def want_apart(self):
        gates = list(dict.fromkeys(self.ways))
        for place in self.theres:
            if place in (self.here, *gates):
                raise Refused(f"--there is the other site's --way, and {text_of(place)} is this site's own")
        for place in self.nodes:
            if place in (self.here, *gates):
                raise Refused(f"--node is another node's gate, and {text_of(place)} is this one's own")
        others = self.theres + self.nodes
        for place in others:
            if others.count(place) > 1:
                raise Refused(f"each site is one --there, each node of this network one --node, found {text_of(place)} twice")
        if self.here in gates:
            raise Refused(f"--here and --way are gates of their own: the addresses or the ports differ, found {text_of(self.here)} twice")
        if len(gates) >= MOST_GATES:
            raise Refused(f"a node has at most {MOST_GATES} gates, so there are at most {MOST_GATES - 1} ways, found {len(gates)}")
        if len(self.theres) > MOST_PLACES or len(self.nodes) >= MOST_PLACES:
            raise Refused(f"a gate tells at most {MOST_PLACES} places")

    def text(self):
        """A gate to each other site, then the one of its own network, and the last line, which ends the run."""
        is_live = self.client is None
        use = f"live --blocks 0 --events {MOST_EVENTS}" if is_live else f"control {self.client} --events {MOST_EVENTS}"
        use += f" --group {self.group}" * bool(self.group)
        lines = [f"# The node of a site that is in one session with others: jorazhil {use}", "link 1", ""]
        lines += ["# 120 beats a minute until a session is joined, and starts are shared.", "setup 500000 1", ""]
        for way in dict.fromkeys(self.ways):
            there = [place for place, its in zip(self.theres, self.ways) if its == way]
            what = "the other site: the gate here, and the one there" if len(there) == 1 else "other sites: the gate here, and those there"
            lines += [f"# The way to {what}."]
            lines += [f"gate {text_of(way)}", *(f"to {text_of(place)}" for place in there), ""]
        lines += [f"# Its own network: the gate there, and the group of Link programs{', and further nodes' if self.nodes else ''}."]
        lines += [f"gate {text_of(self.here)}", f"to {GROUP}", *(f"to {text_of(place)}" for place in self.nodes)]
        if is_live:
            micros = round(self.hours * 3_600_000_000)
            span = f"{self.hours:g} hours" if micros % 60_000_000 else duration(self.hours)
            lines += ["", f"# The run ends after {span}.", f"at {micros} look"]
        return "".join(line + "\n" for line in lines)


def number_of(word):
    if not re.fullmatch(r"\d{1,4}(\.\d{1,6})?", word, re.ASCII) or not 0 < float(word) <= MOST_HOURS:
        raise Refused(f"--hours is a number above 0, at most {MOST_HOURS}, as in `--hours 5` or `--hours 0.5`, found {quoted(word)}")
    return float(word)


def count_of(word):
    if not re.fullmatch(r"\d{1,3}", word, re.ASCII):
        raise Refused(f"--programs is how many Link programs this site has, from 0 to 999, found {quoted(word)}")
    return int(word)


def group_of(word):
    if not re.fullmatch(r"\d{1,5}", word, re.ASCII) or int(word) > 65535:
        raise Refused(f"--group is a number from 0, that of Link programs, to 65535, found {quoted(word)}")
    return int(word)


# The command.


def run(program, site):
    """Becomes the program, with the script on its standard input."""
    words = ["live", "--blocks", "0"] if site.client is None else ["control", site.client]
    ends = os.pipe()
    # A pipe holds more than the longest of these scripts.
    os.write(ends[1], site.text().encode())
    os.close(ends[1])
    os.dup2(ends[0], 0)
    try:
        os.execv(program, [program, *words, "--events", str(MOST_EVENTS), "--group", str(site.group)])
    except OSError as error:
        raise Refused(f"{program} could not be run: {error.strerror}") from None


def parser_of_words():
    usage = "jorazhil site --here PLACE --way PLACE --there PLACE [OPTIONS] > SCRIPT"
    parser = Words("jorazhil site", usage, __doc__, OPTIONS)
    parser.add_argument("--here", metavar="PLACE", help=f"this machine in its own network, that of its Link programs (port {HERE_PORT})")
    parser.add_argument("--way", metavar="PLACE", action="append", default=[], help=f"this machine on the way to other sites (port {WAY_PORT})")
    parser.add_argument("--there", metavar="PLACE", action="append", default=[], help=f"another site's --way (port {WAY_PORT}); for each site")
    parser.add_argument("--hours", metavar="HOURS", help="how long the run is (5, or fewer, as the journal lasts)")
    parser.add_argument("--programs", metavar="N", default="1", help="how many Link programs this site has, for the hours (1)")
    parser.add_argument("--node", metavar="PLACE", action="append", default=[], help="a further node of this network; for each")
    parser.add_argument("--control", metavar="ENDPOINT", help="a script for `control` at this endpoint, in place of `live`")
    parser.add_argument("--run", action="store_true", help="runs it in place of writing it")
    parser.add_argument("--group", metavar="N", default="0", help="the group of the run (0, that of Link programs)")
    parser.add_program()
    parser.add_argument("--help", action="store_true", help="this text")
    return parser


def tell(arguments):
    """The lines to write."""
    parser = parser_of_words()
    words = parser.parse_args(arguments)
    if words.help:
        return [parser.format_help()]
    if not arguments:
        return [f"{address:15} {name:15} in {network}\n" for name, address, network in own_addresses()]
    for option, word in (("--here", words.here), ("--way", words.way), ("--there", words.there)):
        if not word:
            raise Refused(f"{option} is missing; this machine has {listed()}; --help tells all")
    site = Site(words)
    faults, hint = faults_of(site), of_hours(site)
    if words.run and faults:
        raise Refused("; ".join(faults))
    for fault in (faults or hints_of(site)) + [hint] * bool(hint):
        print(f"site: {fault}", file=sys.stderr)
    if not faults:
        shown = [f"{text_of(place)} is of {name_of(place[0])}" for place in dict.fromkeys((site.here, *site.ways))]
        print(f"site: {', '.join(shown)}", file=sys.stderr, flush=True)
    if words.run:
        run(words.program, site)
    return [site.text()]


if __name__ == "__main__":
    sys.exit(end_of("site", tell, sys.argv[1:]))
