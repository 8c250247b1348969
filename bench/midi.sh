#!/usr/bin/env bash
# What `midi` costs: bench/midi.sh [RUNS] (five where not given). JORAZHIL_PROGRAM names another program than the built one.
# 1. `midi 10000 524288` of a script without events, an hour and a half of clocks at 120 beats a minute: the middle one of RUNS runs, after
#    one to warm up. With JORAZHIL_FORMER that program runs too, by turns, and the middle one of the ratios is told.
# 2. What `MidiClock::block_into` takes, of a clock that runs: with blocks of 10 milliseconds in which no pulse comes and in which one does,
#    and what a pulse takes in blocks of 1 millisecond to 1 second at about 60,060 microseconds per beat, of which a second has 400. In a
#    temporary folder a program over link_midi is proved and built, which goes through 100 rounds of blocks; state, timeline and time are
#    others at each call. Beside it `MidiClock::block`, which clears new room at each call, and `State::clicks` go through the same blocks
#    of 10 milliseconds. It runs RUNS times. A figure is the least that a round took in all runs, less a loop that only makes the states and
#    blocks; a pulse's is what a block took beyond one without a pulse, over the pulses in it. The times of the events are folded into a
#    number that is the same in each run.
# shellcheck source=bench/shared.sh
. "$(dirname "${BASH_SOURCE[0]}")/shared.sh"
runs=${1:-5}
built
player=$program
prepare midi
build
cp "$here/bench/programs/midi/opening.script" "$folder/script"
# Measured by a process of its own, since a child's peak memory is at least that of the process that starts it.
figures midi "$player" "$program" "$folder" "$runs" "${JORAZHIL_FORMER:-}"
