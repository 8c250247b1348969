#!/usr/bin/env bash
# How fast the built program decodes: bench/decode.sh [LINES] makes LINES datagrams in hex (1,000,000 where not given), drawn from alives,
# responses, pings, pongs, byes and damaged ones, in texts of at most 16,000,000 bytes, since a text may have 16,777,216. It runs the
# program on each text once to warm up and then three times, and tells of the fastest round: MB of text a second, datagrams a second, and
# the peak resident memory over the size of the largest text; then what a loop of `read_datagram` alone takes over 10,000 of the same
# datagrams in memory, in a program that is proved and built in a temporary folder (the best of 100 rounds, a walk that reads nothing
# taken off). JORAZHIL_PROGRAM names another program than the built one; with JORAZHIL_FORMER that program runs too, by turns on each text,
# and the ratio of their fastest rounds is told.
# shellcheck source=bench/shared.sh
. "$(dirname "${BASH_SOURCE[0]}")/shared.sh"
built
decoder=$program
prepare decode
build
lines=${1:-1000000}
mkdir "$folder/texts"
figures decode_texts "$folder" "$lines"
# Measured by a process of its own, since a child's peak memory is at least that of the process that starts it.
figures decode "$decoder" "$program" "$folder" "$lines" "${JORAZHIL_FORMER:-}"
