"""PROGRAM RUNS: the figures of bench/hub.sh, which tells what they are."""
import os
import sys

from figures import Table, note, ns, timed

table = Table()
program, runs = sys.argv[1], int(sys.argv[2])
CALLS, ROUNDS = 250, 300
CELLS = {"triple": "over `Triple<11>`", "seq": "over `SeqState`"}
NAMES = "events published sent full made laid folded".split()
# What is printed, what is taken off, and of each call: events taken, states published, datagrams sent, commits made, captures laid over.
SHOWN = {
    "turn_nothing": ("`Hub::turn` with nothing", None, (0, 0, 0, 0, 0)),
    "turn_tick": ("`Hub::turn` with a tick, nothing due", None, (1, 0, 0, 0, 0)),
    "turn_alive": ("`Hub::turn` with an alive of a known peer, with its response", "made", (1, 0, 1, 0, 0)),
    "turn_commit": ("`Hub::turn` that pops an application's commit, and publishes", None, (1, 1, 0, 1, 0)),
    "turn_audio": ("`Hub::turn` that takes an audio commit, and publishes", "commit_audio", (1, 1, 0, 1, 0)),
    "commit": ("`Link::commit`", None, (1, 1, 0, 1, 0)),
    "commit_audio": ("`Link::commit_audio`", None, (1 / CALLS, 1 / CALLS, 0, 1, 0)),
    "capture": ("`Link::capture`, nothing new, own commit taken", None, (0, 0, 0, 0, 0)),
    "capture_own": ("`Link::capture`, nothing new, own commit laid over", None, (0, 0, 0, 0, 1)),
    "capture_audio": ("`Link::capture_audio`, nothing new, own commit taken", None, (0, 0, 0, 0, 0)),
    "capture_audio_own": ("`Link::capture_audio`, nothing new, own commit laid over", None, (0, 0, 0, 0, 1)),
}
AIM = 30
FEW = 4  # so many datagrams more may go out in a measure: the broadcasts, one in 250,000 turns


def measured(of):
    """The nanoseconds of each call, and what else was told; each measure did what its row says."""
    told = timed(program, runs, ROUNDS, keys=2)
    sizes = tuple(map(int, told.pop(("sizes", "bytes")).results))
    took = {}
    for (cell, name), call in told.items():
        counts = dict(zip(NAMES, map(int, call.results)))
        note(f"{of}, {cell} {name}: round {call.least:.1f} ns, whole {call.whole:.1f}, {counts}")
        if name in SHOWN:
            _, less, parts = SHOWN[name]
            wanted = dict(zip(("events", "published", "sent", "made", "laid"), (round(CALLS * ROUNDS * part) for part in parts)), full=0)
            over = {key: counts[key] - value for key, value in wanted.items()}
            if not 0 <= over.pop("sent") <= FEW or any(over.values()):
                sys.exit(f"{name} over {cell}: {counts}, where {wanted} should be")
            took[name, cell] = call.least - (told[cell, less].least if less else 0)
    return took, sizes


os.environ.pop("MALLOC_PERTURB_", None)
fresh, (event, state) = measured("fresh memory")
os.environ["MALLOC_PERTURB_"] = "1"
filled, _ = measured("filled memory")
for name, (shown, _, parts) in SHOWN.items():
    for cell, over in CELLS.items():
        took = fresh[name, cell]
        figure = f"{ns(took)}; {ns(filled[name, cell])}" if name.startswith("turn") and parts[0] == 1 else ns(took)
        aim = (f"at most {AIM} ns", took <= AIM) if name.startswith("capture") and cell == "triple" else ()
        table.add(f"{shown}, {over}{': fresh memory; memory filled before' if ';' in figure else ''}", figure, *aim)
table.add("an event of a link's journal; one of its published states", f"{event} bytes; {state} bytes")
for events, which in ((262_144, ""), (524_288, ", the most")):
    # The opening state is published too.
    sizes = f"{events * event / 1e6:.1f} MB; {(events + 1) * state / 1e6:.1f} MB"
    table.add(f"a link's journal; its published states: at their full length of {events:,} events{which}", sizes)
table.show()
