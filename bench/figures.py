"""What the scripts here share in Python: running what is measured, and rows of docs/PERFORMANCE.md."""
import os
import resource
import subprocess
import sys
import time
from collections import namedtuple

HEAD = "| what | figure | aim | script | beside | date |\n|---|---|---|---|---|---|"
# Whether the figures are to be read by a program.
RAW = os.environ.get("FIGURES") == "raw"
# So many nanoseconds less the loop around it tell nothing of a call.
LEAST = 1


def note(text):
    """For whoever watches; no row."""
    print(text, file=sys.stderr, flush=True)


def spent(used):
    return used.ru_utime + used.ru_stime


def worked():
    """The seconds that all processors have worked or were taken away, and those of this process and its children;
    None where nobody tells."""
    try:
        with open("/proc/stat") as told:
            user, nice, system, _, _, irq, softirq, steal = map(int, told.readline().split()[1:9])
    except (OSError, ValueError):
        return None
    whole = (user + nice + system + irq + softirq + steal) / os.sysconf("SC_CLK_TCK")
    return whole, spent(resource.getrusage(resource.RUSAGE_SELF)) + spent(resource.getrusage(resource.RUSAGE_CHILDREN))


def ns(number):
    return f"{number:.{3 if RAW else 1}f} ns"


def machine():
    try:
        with open("/proc/cpuinfo") as told:
            model = next((line.split(":", 1)[1].strip() for line in told if line.startswith("model name")), "unknown processor")
    except OSError:
        model = "unknown processor"
    return f"{os.cpu_count()} processors, {model.replace('(R)', '').replace(' Processor', '').replace(' CPU', '')}"


class Table:
    """Rows, and what else the machine did from the first thought of them to `show`."""

    def __init__(self):
        self.rows, self.start, self.before = [], time.perf_counter(), worked()

    def add(self, what, figure, aim=None, met=None):
        """The aim is text, and so is the figure; whether it is met is told beside it."""
        told = "" if aim is None else aim if met is None else f"{aim}: {'met' if met else 'missed'}"
        self.rows.append((what, figure, told))

    def beside(self):
        after = worked()
        if after is None or self.before is None:
            return f"load {os.getloadavg()[0]:.1f}"
        others = (after[0] - self.before[0] - (after[1] - self.before[1])) / (time.perf_counter() - self.start)
        return "" if others < 0.1 else f"other work on {others:.1f} processors"

    def show(self):
        """Prints the table, below the machine; where it is to be raw, only what each row is of and its figure, with a tab between."""
        if RAW:
            for what, figure, _ in self.rows:
                print(f"{what}\t{figure}")
            return
        end = f"`{os.environ['SCRIPT']}` | {self.beside()} | {time.strftime('%Y-%m-%d')} |"
        print(f"{machine()}; nothing else unless a row says so.\n\n{HEAD}")
        for what, figure, told in self.rows:
            print(f"| {what} | {figure} | {told} | {end}")


def run(words, given=os.devnull, taken=os.devnull, status=0, said=(), meanwhile=None):
    """Seconds, seconds of the processor, peak memory in bytes, of a run over two files that ends with this status, with more said in its
    environment. What one that is to fail says on standard error isn't shown. What is to be done meanwhile is called once it has begun."""
    with open(given) as source, open(taken, "w") as sink:
        start = time.perf_counter()
        child = subprocess.Popen(words, stdin=source, stdout=sink, stderr=None if status == 0 else subprocess.DEVNULL, env={**os.environ, **dict(said)})
        if meanwhile:
            meanwhile()
        _, ended, used = os.wait4(child.pid, 0)
        seconds = time.perf_counter() - start
    if os.waitstatus_to_exitcode(ended) != status:
        sys.exit(f"{words} did not end with status {status}")
    return seconds, spent(used), used.ru_maxrss * 1024


Call = namedtuple("Call", "calls least whole results")


def lines_of(program, runs):
    """The words of each line that the program prints, over all its runs."""
    for _ in range(runs):
        for line in subprocess.run([program], stdin=subprocess.DEVNULL, stdout=subprocess.PIPE, check=True, text=True).stdout.splitlines():
            yield line.split()


def timed(program, runs, rounds, keys=1):
    """By the first words of the lines `KEY .. CALLS BEST ALL RESULT ..` that a program prints: the calls of a round, the nanoseconds a call
    in the best round and over all rounds of the best run, and the results, which are the same in each run."""
    found = {}
    for words in lines_of(program, runs):
        key = words[0] if keys == 1 else tuple(words[:keys])
        calls, best, whole = map(int, words[keys : keys + 3])
        call = Call(calls, best / calls, whole / calls / rounds, tuple(words[keys + 3 :]))
        old = found.setdefault(key, call)
        if (old.calls, old.results) != (call.calls, call.results):
            sys.exit(f"the results of {key} differ from run to run")
        found[key] = call._replace(least=min(old.least, call.least), whole=min(old.whole, call.whole))
    return found


def add_call(table, what, call, loop, aim=None, parts=1):
    """A row for a call: what is left of its best round without the loop's own. Where a round has several calls at a time, what each took.
    Where hardly anything is left there is no row, but where it is to be raw."""
    took = (call.least - loop.least) / parts
    note(f"{what}: round {call.least:.1f} ns, loop {loop.least:.1f}, whole {call.whole:.1f}, folded {' '.join(call.results)}")
    if took < LEAST and not RAW:
        note(f"{what}: no row, since {took:.1f} ns is what such a difference scatters by")
        return
    table.add(what, ns(took), None if aim is None else f"at most {aim:,} ns", aim is not None and took <= aim)
