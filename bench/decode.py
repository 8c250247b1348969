"""DECODER READER FOLDER LINES FORMER: the figures of bench/decode.sh, which tells what they are. FORMER may be empty."""
import os
import subprocess
import sys

from figures import Table, note, run

decoder, reader, folder, lines, former = *sys.argv[1:4], int(sys.argv[4]), sys.argv[5]
table = Table()
out = os.path.join(folder, "out")
texts = [os.path.join(folder, "texts", name) for name in sorted(os.listdir(os.path.join(folder, "texts")))]
rounds, before, peak = [], [], 0
for _ in range(4):
    runs, others = [], []
    for text in texts:
        runs.append(run([decoder, "decode"], text, out))
        if former:
            others.append(run([former, "decode"], text, out))
    rounds.append((sum(seconds for seconds, _, _ in runs), sum(used for _, used, _ in runs)))
    before.append(sum(seconds for seconds, _, _ in others))
    peak = max(one for _, _, one in runs)
seconds, used = min(rounds[1:])
total, largest = sum(os.path.getsize(text) for text in texts), max(os.path.getsize(text) for text in texts)
cat = min(sum(run(["cat"], text, out)[0] for text in texts) for _ in range(3))
with open(os.path.join(folder, "slots")) as slots:
    told = subprocess.run([reader], stdin=slots, stdout=subprocess.PIPE, check=True).stdout.split()
walked, read, bare, messages = map(int, told)
megabytes = total / 1e6 / seconds
table.add(f"`decode` of {lines:,} datagrams, {total / 1e6:.0f} MB in {len(texts)} texts: text a second", f"{megabytes:.0f} MB", "at least 150 MB", megabytes >= 150)
table.add("`decode`: datagrams a second", f"{lines / seconds:,.0f}")
if former:
    table.add("`decode`: text a second, over that of the former program in the same run", f"{min(before[1:]) / seconds:.2f}")
table.add(f"`decode`: peak memory, a text of {largest / 1e6:.0f} MB", f"{peak / 1e6:.1f} MB, {peak / largest:.2f} times the text")
table.add("`read_datagram` over drawn datagrams of six kinds, most of them not in the cache", f"{(read - bare) / walked:.1f} ns")
note(f"{seconds:.3f} s, {used:.3f} s of the processor, {seconds / cat:.2f} times the time of cat; {messages} of {walked} datagrams are messages")
table.show()
