#!/usr/bin/env bash
# How soon the built program's `live` answers, and what an idle run costs, over the loopback interface: bench/live.sh [SECONDS].
# JORAZHIL_PROGRAM names another program than the built one.
#
# 1. A run beside one peer and one beside ten, of SECONDS each (10 where not given). The peers are sockets of the process that measures, in
#    the run's session. By turns one of them sends an alive, and takes its response, then a ping, and takes its pong, and then the alive to
#    a plain UDP echo, which is a process of Python that waits in a read as the run does. Each is sent after a pause drawn from 1 to 3
#    milliseconds, so that who is to answer sleeps. A sample is what passes from just before the call that sends to just behind the one
#    that receives, by a process that looks without sleeping until the answer is there: so a waking is in it, and two system calls on
#    either side. What the process takes to send a datagram to itself and receive it is noted, which is two such calls and no waking.
#    Beside this the audio thread goes on, and plays.
# 2. A run of 3,000 blocks, which is a minute, with no command but a look at the end, beside one peer: a socket of the process that
#    measures, in the run's session, which sends an alive four times a second, answers each alive of the run by a response, and sleeps
#    meanwhile. The run founded that session, so it pings nobody. What it uses of the processor is that of all its threads, user and system,
#    with its opening and end; what the peer uses isn't in it. Then the same minute with a destination where nobody answers, and in that
#    minute what the waits of such a run take alone (bench/waiting.c, where there is gcc).
# 3. That minute for a run that has nothing to wait for at its port: one whose gate can't be bound, since another socket has it; one whose
#    sockets break after a second (bench/refusing.c, where there is gcc); and one whose journal is full after three events.
# shellcheck source=bench/shared.sh
. "$(dirname "${BASH_SOURCE[0]}")/shared.sh"
built
if command -v gcc >/dev/null; then
  gcc -shared -fPIC -O2 -o "$folder/refusing.so" "$here/bench/refusing.c" -ldl
  gcc -O2 -pthread -o "$folder/waiting" "$here/bench/waiting.c"
fi
figures live "$program" "$folder" "${1:-10}"
