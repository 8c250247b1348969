#!/usr/bin/env bash
# What the sessions' table costs: bench/sessions.sh [RUNS]. In a temporary folder it proves and builds a program that calls
# `Sessions::saw` and `Sessions::measured` in 100 rounds of 10,000 calls, with 8 and 64 other sessions, and runs it RUNS times (three where
# not given). The ids are drawn. The timeline that is seen is another one at each call; it never counts, so each call finds the table as it
# was. `saw` is called of the last other one and, with 64 others, of one that isn't known. `measured` is called of the last other one, which
# is behind by a second or more and so never joined. A figure is the least that a round took in all runs, less a loop that only makes and
# folds the numbers given.
# shellcheck source=bench/shared.sh
. "$(dirname "${BASH_SOURCE[0]}")/shared.sh"
prepare sessions
build
figures sessions "$program" "${1:-3}"
