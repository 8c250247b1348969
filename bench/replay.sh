#!/usr/bin/env bash
# How fast the built program replays: bench/replay.sh [EVENTS] (1,000,000 where not given). JORAZHIL_PROGRAM names another program than
# the built one. Its scripts are made by bench/scripts.py, which tells what is in them, into a temporary folder. Each is replayed once to
# warm up and then three times.
#
# 1. `alives`, and `mixed` with 10 and with 500 peers, the output into a file: of the run that took the least time MB of script and events
#    a second; the time an event with 500 peers over that with 10; and the greatest peak resident memory. That is the program's own: the
#    process that starts it holds no script, and its own peak, below which no peak of a child can be told, is noted.
# 2. What an event of each kind costs with 10 and with 500 peers, the output thrown away, in nanoseconds of the processor (user and
#    system). `whole` is the run over its events: a line is read twice, its step is taken, and what follows is written. `step` is that
#    less the same for the idle form of the script, whose lines are as long and do less: the step beyond one that does nothing, with the
#    lines that it writes, of which there are so many bytes an event. So it is the step alone where these are 0. For `app` and `audio` it
#    is what a timeline that is taken costs beyond one that meets a spent origin; both write a state. For `end` it is a step that does
#    nothing, and the reading of its two words: no step costs less, but for that.
# shellcheck source=bench/shared.sh
. "$(dirname "${BASH_SOURCE[0]}")/shared.sh"
built
figures replay "$program" "$folder" "$here/bench/scripts.py" "${1:-1000000}"
