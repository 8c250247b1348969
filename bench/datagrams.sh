#!/usr/bin/env bash
# What reading and writing a datagram costs, by kind: bench/datagrams.sh [RUNS]. In a temporary folder it proves and builds a program that
# does each in 2,000 rounds of 256 calls, and runs it RUNS times (three where not given). What a datagram says is another at each call of
# a round: ids, timelines and times within 2^40. States have an endpoint, pings a ghost time, pongs the payload of such a ping. Read are
# 256 datagrams in memory, each in a slot of its own of 600 bytes. `answered` reads a ping and writes the pong that answers it. The
# results are folded into a number that is the same in each run. A figure is the least that a round took in all runs, less a loop that
# only walks over the slots, or only makes and folds what is given.
# shellcheck source=bench/shared.sh
. "$(dirname "${BASH_SOURCE[0]}")/shared.sh"
prepare datagrams
build
figures datagrams "$program" "${1:-3}"
