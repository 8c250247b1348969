#!/usr/bin/env bash
# What `filter` costs: bench/filter.sh [PAIRS] [RUNS] (1,000,000 and five where not given). JORAZHIL_PROGRAM names another program than the
# built one.
# 1. It makes PAIRS pairs of a callback every 256 samples of 48,000 a second, told late by up to four milliseconds, in texts of at most
#    16,000,000 bytes, since a text may have 16,777,216. It runs the program on each text once to warm up and then three times, and tells of
#    the fastest round: MB of text a second, pairs a second, and the peak resident memory over the size of the largest text; and by turns
#    on each text `decode` of alives in hex, in a text of the same size. With JORAZHIL_FORMER that program runs too, by turns as well, and
#    the ratio of their fastest rounds is told.
# 2. What `HostFilter::add` takes with 512 pairs kept. In a temporary folder a program over link_hostfilter is proved and built, which adds
#    10,000 further pairs of the same callback in each of 200 rounds. Beside it, where there is gcc, stands what a plain filter takes that
#    keeps 512 pairs of doubles and sums them anew at each call: a program in C, compiled with -O2. Each runs RUNS times. A figure is the
#    least that a round took in all runs, less a loop that only makes and folds the numbers given.
# shellcheck source=bench/shared.sh
. "$(dirname "${BASH_SOURCE[0]}")/shared.sh"
pairs=${1:-1000000}
runs=${2:-5}
built
filter=$program
prepare filter
build
plain=
if command -v gcc >/dev/null; then
  plain=$folder/plain
  gcc -O2 -o "$plain" "$here/bench/programs/filter/plain.c" -lm
fi
mkdir "$folder/pairs" "$folder/alives"
figures filter_texts "$folder" "$pairs"
# Measured by a process of its own, since a child's peak memory is at least that of the process that starts it.
figures filter "$filter" "$program" "$folder" "$pairs" "$runs" "$plain" "${JORAZHIL_FORMER:-}"
