"""FILTER ADDER FOLDER PAIRS RUNS PLAIN FORMER: the figures of bench/filter.sh, which tells what they are.

PLAIN and FORMER may be empty.
"""
import os
import sys

from figures import Table, add_call, note, run, timed

filter, adder, folder, pairs, runs, plain, former = *sys.argv[1:4], *map(int, sys.argv[4:6]), *sys.argv[6:8]
table = Table()
out = os.path.join(folder, "out")
names = sorted(os.listdir(os.path.join(folder, "pairs")))
texts = [(os.path.join(folder, "pairs", name), os.path.join(folder, "alives", name)) for name in names]
rounds, decoded, before, peak = [], [], [], 0
for _ in range(4):
    filters, decodes, others = [], [], []
    for text, alives in texts:
        filters.append(run([filter, "filter"], text, out))
        decodes.append(run([filter, "decode"], alives, out))
        if former:
            others.append(run([former, "filter"], text, out))
    rounds.append((sum(seconds for seconds, _, _ in filters), sum(used for _, used, _ in filters)))
    decoded.append(sum(seconds for seconds, _, _ in decodes))
    before.append(sum(seconds for seconds, _, _ in others))
    peak = max(one for _, _, one in filters)
seconds, used = min(rounds[1:])
total, largest = sum(os.path.getsize(text) for text, _ in texts), max(os.path.getsize(text) for text, _ in texts)
cat = min(sum(run(["cat"], text, out)[0] for text, _ in texts) for _ in range(3))
megabytes = total / 1e6 / seconds
table.add(f"`filter` of {pairs:,} pairs, {total / 1e6:.0f} MB in {len(texts)} texts: text a second", f"{megabytes:.0f} MB", "at least 40 MB", megabytes >= 40)
table.add("`filter`: pairs a second", f"{pairs / seconds:,.0f}")
if former:
    table.add("`filter`: text a second, over that of the former program in the same run", f"{min(before[1:]) / seconds:.2f}")
table.add("`filter`: text a second, over that of `decode` of alives in the same run", f"{min(decoded[1:]) / seconds:.2f}")
table.add(f"`filter`: peak memory, a text of {largest / 1e6:.0f} MB", f"{peak / 1e6:.1f} MB, {peak / largest:.2f} times the text")
told = timed(adder, runs, 200)
add_call(table, "`HostFilter::add`, 512 pairs kept", told["add"], told["nothing"], 350)
if plain:
    anew = timed(plain, runs, 200)
    add_call(table, "512 pairs of doubles summed anew, in C", anew["add"], anew["nothing"])
    ratio = (told["add"].least - told["nothing"].least) / (anew["add"].least - anew["nothing"].least)
    table.add("`HostFilter::add`: its time, over that of the sums in C in the same run", f"{ratio:.2f}")
note(f"{seconds:.3f} s, {used:.3f} s of the processor, {seconds / cat:.2f} times the time of cat")
table.show()
