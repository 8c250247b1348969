#!/usr/bin/env bash
# What the calls of a link cost, and its memory: bench/hub.sh [RUNS]. In a temporary folder it proves and builds a program that opens a link
# over each of the two cells, `Triple<11>` and `SeqState`, and takes 300 rounds of 250 calls of each measure, all in one thread; and runs it
# RUNS times (three where not given). A figure is the least that a round took in all runs.
# The moment of each turn is a microsecond after the last. It is given nothing; a tick, with nothing due; an alive of a known peer, which
# tells nothing new and is answered by a response (less a loop that only makes the datagram); nothing, where the queue has an application's
# commit, which is popped, taken and published into both cells; or nothing, where the audio thread has just made a commit, likewise (a round
# makes and takes them in turn, and the best round of `commit_audio` alone is taken off). An event that is taken goes into the journal, at a
# place that nothing was written to before: one in seven or so is the first in its page, which the system hands out then. So there are RUNS
# more runs in which the C library fills all memory that it hands out (MALLOC_PERTURB_ of glibc), and a row tells both.
# Each commit has a later start than the last. `commit` is timed alone, and the queue emptied after each round; `commit_audio` has the look
# before it whether a number is left. A capture reads a state that was read before: once with the own last commit taken, and once with it
# still to be taken, so that it is laid over the state. What is captured is written out whole.
# shellcheck source=bench/shared.sh
. "$(dirname "${BASH_SOURCE[0]}")/shared.sh"
prepare hub
build
figures hub "$program" "${1:-3}"
