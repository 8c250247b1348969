#!/usr/bin/env bash
# What the calls of peer_gateway cost: bench/peers.sh [RUNS]. In a temporary folder it proves and builds a program that calls each of them
# in 100 rounds (of 2,000 calls) over tables of 8, 128 and 512 rows, and runs it RUNS times (three where not given). The rows stand on
# four gates, as many on each, and all are in one session of which half tell an endpoint. `known` sees peers of the table again, one after
# the other, each later than the last, so that its entry goes from the front of the list by limit to the end; `new` sees a peer that isn't
# there, which the goodbye after it takes out again, and `bye` is that goodbye: what both cost together is halved. `prune` ends nothing;
# `count` goes over all rows. The results are folded into a number that is the same in each run. A figure is the least that a round took
# in all runs, less the loop alone.
# shellcheck source=bench/shared.sh
. "$(dirname "${BASH_SOURCE[0]}")/shared.sh"
prepare peers
build
figures peers "$program" "${1:-3}"
