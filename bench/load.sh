#!/usr/bin/env bash
# What `load` costs: bench/load.sh [RUNS] (five where not given). JORAZHIL_PROGRAM names another program than the built one.
# 1. `load 7 COUNT` for 1,000, 32,768 and 524,288 events, of each the run that took the processor the least time, less that of `load 7 1`:
#    nanoseconds an event, and how much dearer an event of the greatest count is than one of 32,768. There are thirty times as many runs
#    of the small counts. With JORAZHIL_FORMER that program runs too, by turns, and the ratio of an event of the greatest count is told.
# 2. What a step takes by kind of event, over a node that is opened as `load` opens it and knows 16 peers, half of them in sessions of
#    their own. In a temporary folder a program over link_node is proved and built, which takes 2,000 rounds of 8 events of a kind, ten
#    milliseconds apart, and before each round, untimed, an alive of each peer. It runs RUNS times. A figure is the least that a round
#    took in all runs, less one that makes its events and takes none. An alive tells nothing new, as nearly all of `load` do, and is
#    answered; a bye is of a known peer; each commit has another tempo; a tick may broadcast.
# shellcheck source=bench/shared.sh
. "$(dirname "${BASH_SOURCE[0]}")/shared.sh"
runs=${1:-5}
built
loader=$program
prepare load
build
figures load "$loader" "$program" "$runs" "${JORAZHIL_FORMER:-}"
