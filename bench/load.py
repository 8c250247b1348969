"""LOADER STEPPER RUNS FORMER: the figures of bench/load.sh, which tells what they are. FORMER may be empty."""
import resource
import sys

from figures import Table, add_call, note, run, timed

loader, stepper, runs, former = *sys.argv[1:3], int(sys.argv[3]), sys.argv[4]
programs = [loader, former] if former else [loader]
table = Table()
COUNTS = (1000, 32_768, 524_288)


def least(count):
    """Of each program the least seconds, seconds of the processor and peak memory of its runs, which take turns."""
    told = [[run([program, "load", "7", str(count)]) for program in programs] for _ in range(runs if count > 1000 else 30 * runs)]
    return [[min(numbers) for numbers in zip(*own)] for own in zip(*told)]


start = least(1)
note(f"`load 7 1`: {1000 * start[0][0]:.2f} ms, {1000 * start[0][1]:.2f} ms of the processor, {start[0][2] / 1e6:.1f} MB")
ns = {}
for count in COUNTS:
    found = least(count)
    seconds, used, peak = found[0]
    ns[count] = [1e9 * (own[1] - begun[1]) / count for own, begun in zip(found, start)]
    table.add(f"`load 7 {count}`: an event", f"{ns[count][0]:.0f} ns")
few, many = ns[32_768][0], ns[524_288][0]
table.add("`load`: an event of 524,288 over one of 32,768", f"{many / few:.2f} times", "at most 1.1 times", many <= 1.1 * few)
if former:
    before = ns[524_288][1]
    note(f"`load 7 524288`: an event {many:.1f} ns, of the former program {before:.1f} ns")
    table.add(
        "`load 7 524288`: an event, over one of the former program in the same run",
        f"{many / before:.3f} times",
        "at most 1.05 times",
        many <= 1.05 * before,
    )
table.add("`load 7 524288`: the whole run", f"{seconds:.2f} s, {used:.2f} s of the processor", "at most 1.5 s", used <= 1.5)
# No peak of a child is told below that of the process that starts it.
floor = resource.getrusage(resource.RUSAGE_SELF).ru_maxrss * 1024
table.add("`load 7 524288`: peak memory", f"{'at most ' if peak <= floor else ''}{peak / 1e6:.1f} MB")
told = timed(stepper, runs, 2000)
for kind, shown in (("alive", "an alive, with its response"), ("ping", "a ping, with its pong"), ("tick", "a tick"), ("bye", "a bye"), ("commit", "an application commit")):
    add_call(table, f"a step of `load`'s node: {shown}", told[f"take_{kind}"], told[f"make_{kind}"])
table.show()
