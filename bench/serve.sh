#!/usr/bin/env bash
# How soon the built program of `serve` answers its clients, and what an idle run costs, over the loopback interface: bench/serve.sh
# [--seconds SECONDS] [SAMPLES]. JORAZHIL_PROGRAM names another program than the built one.
#
# 1. A server with one client; one with 15 that watch while a second server changes the tempo 20 times a second, of which one is measured;
#    and one beside a client that sends without a pause, and reads. By turns a `status` and a `now` are sent, and before each of them the
#    same line to a plain TCP echo, which is a process of Python. As in bench/control.sh each comes after a pause drawn from 1 to 3
#    milliseconds, and a sample is what passes until a process that looks without sleeping has the answer. There are SAMPLES of each line
#    (900 where not given). The aims are for the ratios of what goes by turns, and for the flood's and the quiet client's in one run.
# 2. When each of 14 watching clients has a line that tells of a change, after the datagram by which the second server told of that: a
#    process that looks without sleeping hears both. So the waking of two threads of the server is in it. A line that came before the
#    datagram, since an answer of the second server told the change, isn't counted.
# 3. A server for SECONDS (60 where not given) with one client that says nothing and a destination where nobody answers. What it uses of
#    the processor is that of all its threads, user and system, with its opening and end.
# shellcheck source=bench/shared.sh
. "$(dirname "${BASH_SOURCE[0]}")/shared.sh"
seconds=60
if [ "${1:-}" = --seconds ]; then
  seconds=${2:?--seconds takes a number}
  shift 2
fi
program=${JORAZHIL_PROGRAM:-}
if [ -z "$program" ]; then
  "$checkout/jorazhil" serve 127.0.0.1:0 --hours 0.0001
  program=$checkout/crates/session_server/out/session_server
fi
figures serve "$program" "${1:-900}" "$seconds"
