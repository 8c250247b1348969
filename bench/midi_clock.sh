#!/usr/bin/env bash
# How late the clocks of the built `midi_clock` are: bench/midi_clock.sh [SECONDS] (30 where not given). JORAZHIL_PROGRAM names another
# program than the built one.
#
# It plays alone at 120 beats a minute, into a pipe. A clock's lateness is what passes from its own microsecond to just behind the read that
# finds its byte, by a process that looks without sleeping: so one waking is in it, that of the program's thread, and two system calls. When
# the program's node opened, from which on its pulses count, is told by pongs: a ping was sent before the ghost time that its pong tells,
# and the pong came after it. The middle of what no pong contradicts is taken, and how wide that is told.
# Meanwhile a process of Python sleeps until as many moments, each in the middle between two clocks, and its lateness stands beside it.
# shellcheck source=bench/shared.sh
. "$(dirname "${BASH_SOURCE[0]}")/shared.sh"
program=${JORAZHIL_PROGRAM:-}
if [ -z "$program" ]; then
  "$checkout/jorazhil" midi-out 1 500000 127.0.0.1:0 >/dev/null
  program=$checkout/crates/midi_clock/out/midi_clock
fi
figures midi_clock "$program" "${1:-30}"
