#!/usr/bin/env python3
"""Runs three of the built program's `live` beside each other, and looks at when each of them clicks a beat: checks/clicking.py PROGRAM.

The first founds the session; the others join it, hear it alone, and one of them changes its tempo. Each beat of that tempo has to be
clicked by all three in the same microsecond of ghost time and with the same accent: by the clicks that each tells in its host time, and by
the offset that the plain reading of checks/node.py finds in its record. Two that joined have to click it at most half of both their longest
round trips and a microsecond apart, the founder and another at most half of the other's and half a microsecond.
How far apart two clocks are is told by the pongs, but for some microseconds: a ghost time was read after its ping was sent, and before its
pong came. The promise is looked at for the least and the greatest difference that no pong contradicts. The time of day tells it too: it is
a run's seed, and read right after the run's clock begins. Since a run may be held up between the two, that is looked at to a millisecond.
The last line is 'N passed, N failed'.
"""
import sys
import time
from itertools import combinations

sys.dont_write_bytecode = True
import node  # noqa: E402
from live import BLOCK, Differs, Run, free_ports, listener, want  # noqa: E402

# How long the first and the others run, when one of these sets its tempo, and for how long after a change nothing counts, in microseconds.
FIRST_END, END, TEMPO_AT, TEMPO, MARGIN, MILLISECOND = 6_000_000, 4_500_000, 2_000_000, 333_333, 250_000, 1_000


def three_runs(program):
    first, second, third = free_ports(3)
    with listener() as ear:
        to, look = [second, third, ear.getsockname()[1]], f"at {END} look"
        runs = [Run(program, first, to, ["at 500000 play", f"at {FIRST_END} look"], FIRST_END // BLOCK)]
        ear.recvfrom(513)
    # Of two sessions the one wins that is older by half a second or more.
    time.sleep(1)
    runs.append(Run(program, second, [first], [look], END // BLOCK))
    runs.append(Run(program, third, [first], [f"at {TEMPO_AT} tempo {TEMPO}", look], END // BLOCK))
    for run in runs:
        run.end()
        want("the status", run.status, 0)
        run.expect_replayed()
    return runs


def beats(run, session):
    """The host time and the kind of each click by the last timeline that the run showed of the session, by the number of its beat."""
    shown = [(state["moment"], node.Timeline(state["mpb"], state["beat"], state["time"]), state["session"]) for state in run.states]
    line = [line for _, line, of in shown if of == session.hex()][-1]
    want("the last tempo of the session", line.mpb, TEMPO)
    since = min(moment for moment, other, _ in shown if other == line) + MARGIN
    until = min((moment for moment, _, of in shown if moment > since and of != session.hex()), default=FIRST_END) - MARGIN
    return {(node.beat_at(line, at) - line.beat) // 1_000_000: (at, kind) for at, kind in run.clicks() if since <= at < until}


def measured(run, session):
    """A run's offset in the session, the least and the greatest that its pongs allow, and their longest round trip: for a founder -1."""
    _, config, events = node.read_script(run.output.encode())
    machine, pongs = node.Node(config), []
    while machine.session != session:
        kind, at, *rest = events.pop(0)
        machine.step(kind, at, *rest)
        if kind == "rx" and rest[2][:9] == b"_link_v\x01\x02":
            _, ghost, host, _ = node.read_pong(rest[2][9:])
            pongs.append((ghost - at, ghost - host, at - host))
    lows, highs, trips = zip(*pongs) if pongs else ([machine.offset], [machine.offset], [-1])
    return machine.offset, max(lows), min(highs), max(trips)


def click_together(one, other, session):
    clicks, there = beats(one, session), beats(other, session)
    both = sorted(clicks.keys() & there.keys())
    want(f"whether both click some beats: {clicks} and {there}", len(both) >= 4, True)
    (offset, least, most, longest), (offset_there, least_there, most_there, longest_there) = measured(one, session), measured(other, session)
    ghost, ghost_there = ([(told[k][0] + by, told[k][1]) for k in both] for told, by in ((clicks, offset), (there, offset_there)))
    want("the ghost times and the kinds of the clicks", ghost, ghost_there)
    later = [clicks[k][0] - there[k][0] for k in both]
    furthest = max(max(later) + most - least_there, most_there - least - min(later))
    by_day = max(abs(each + (int(one.id_and_seed()[1]) - int(other.id_and_seed()[1])) / 1000) for each in later)
    print(f"{len(both)} beats: at most {furthest} microseconds apart, {by_day:.0f} by the time of day; round trips {longest} and {longest_there}")
    few = 2 * furthest <= longest + longest_there + 2, by_day <= (longest + longest_there + 2) / 2 + MILLISECOND
    want("whether that is near enough, by pongs and by the time of day", few, (True, True))


def main(program):
    names, failed = ("the founder", "the second", "the third"), 0
    runs = dict(zip(names, three_runs(program)))
    session = runs[names[0]].id_and_seed()[0].encode()
    pairs = list(combinations(names, 2))
    for pair in pairs:
        try:
            click_together(*(runs[name] for name in pair), session)
        except (Differs, LookupError, ValueError) as fault:
            failed += 1
            print(f"{' and '.join(pair)}: {type(fault).__name__}: {fault}")
    print(f"{len(pairs) - failed} passed, {failed} failed")
    return 1 if failed else 0


if __name__ == "__main__":
    if len(sys.argv) != 2:
        print(__doc__, file=sys.stderr)
        sys.exit(2)
    sys.exit(main(sys.argv[1]))
