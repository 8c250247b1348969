#!/usr/bin/env bash
# What a measurement costs: bench/measure.sh [RUNS]. In a temporary folder it proves and builds a program that finds the offset of 101
# points (100 rounds of 1,000 calls), and takes pongs that count (100 rounds of 2,000 measurements, each a start and 50 pongs that give
# two points), and runs it RUNS times (three where not given). The points are others at each call, drawn from within 2^20 half
# microseconds and in no order, and are copied first, as a measurement copies them; the times of the pongs are others too. The results are
# folded into a number that is the same in each run. A figure is the least that a round took in all runs, less a loop that only makes and
# folds what is given.
# shellcheck source=bench/shared.sh
. "$(dirname "${BASH_SOURCE[0]}")/shared.sh"
prepare measure
build
figures measure "$program" "${1:-3}"
