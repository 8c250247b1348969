#!/usr/bin/env bash
# What the sums of timeline_math cost: bench/numbers.sh [RUNS]. In a temporary folder it proves and builds a program that calls each of
# them in 100 rounds (of 100,000 calls, and of 10,000 blocks), and runs it RUNS times (three where not given). The timeline and the place
# that is asked for are others at each call. Near ones lie within 2^39 microseconds of 0 (six days), far ones within 2^59. A block is
# 20,000 microseconds, and the quantum a bar of 1 to 8 beats. The results are folded into a number that is the same in each run. A figure
# is the least that a round took in all runs, less a loop that only makes and folds the numbers given.
# shellcheck source=bench/shared.sh
. "$(dirname "${BASH_SOURCE[0]}")/shared.sh"
prepare numbers
build
figures sums "$program" "${1:-3}"
