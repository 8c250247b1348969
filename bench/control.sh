#!/usr/bin/env bash
# How soon the built program's `control` answers its client, and what an idle run costs, over the loopback interface: bench/control.sh
# [SAMPLES]. JORAZHIL_PROGRAM names another program than the built one.
#
# 1. A run alone, and one beside ten `live` runs in its session. By turns a line is sent that tells something (`status`, `beat`, `time`)
#    and one that commits (`tempo`, `play`, `stop`), and before each of them the same line to a plain TCP echo, which is a process of Python
#    that waits in a read as the run does. Each is sent after a pause drawn from 1 to 3 milliseconds, so that the one that is to answer
#    sleeps. A sample is what passes from just before the call that sends to just behind the one that receives, by a process that looks
#    without sleeping until the answer is there. There are SAMPLES of each of the two (900 where not given, and 1,500 at most, since a run
#    answers 4,096 lines). The aims are for the ratios of a run and the echo beside it, which have the same machine at the same time.
# 2. A run whose client says nothing for ten seconds, with a destination where nobody answers. What it uses of the processor is that of all
#    its threads, user and system, with its opening and end.
# shellcheck source=bench/shared.sh
. "$(dirname "${BASH_SOURCE[0]}")/shared.sh"
built
figures control "$program" "${1:-900}"
