#!/usr/bin/env bash
# What the edits, conversions, clicks and rows of client_state cost: bench/client.sh [RUNS]. In a temporary folder it proves and builds a
# program that calls each of them in 1,000 rounds of 10,000 calls, and runs it RUNS times (three where not given). State, timelines and
# times are others at each call. They lie within 2^39 microseconds or microbeats of 0 (six days), and the quantum is a bar of 1 to 8 beats.
# Every second state is playing. The results are folded into a number that is the same in each run. A figure is the least that a round took
# in all runs, less a loop that only makes and folds the numbers given.
# shellcheck source=bench/shared.sh
. "$(dirname "${BASH_SOURCE[0]}")/shared.sh"
prepare client
build
figures client "$program" "${1:-3}"
