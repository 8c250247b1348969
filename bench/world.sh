#!/usr/bin/env bash
# What a world of peers costs: bench/world.sh [RUNS]. In a temporary folder it proves and builds a program that runs `World::run` with six
# peers, each of which sends to the five others, over a schedule of 100,000 turns and over its first 50,000, in 20 rounds of both, and runs
# it RUNS times (three where not given). The schedule is made before, by nodes of the program's own that are stepped beside it: each
# datagram that they send is delivered once to its addressee, in the order of sending. A turn is a millisecond after the one before. One in
# 100 is a commit of an application that sets tempo and start, one in 8 a tick, the others are deliveries; where nothing is on its way there
# is a tick instead, 20 milliseconds after the turn before. A figure is the least that a round took in all runs. At the end the world has
# sent just as many datagrams as those nodes, and all its peers are in one session.
# shellcheck source=bench/shared.sh
. "$(dirname "${BASH_SOURCE[0]}")/shared.sh"
prepare world
build
figures world "$program" "${1:-3}"
