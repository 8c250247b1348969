#!/usr/bin/env bash
# Whether want of memory is told and nothing is lost by it: bench/refused.sh. JORAZHIL_PROGRAM names another program than the built one.
#
# It runs `replay`, `decode`, `filter`, `load` and `live` on small inputs, each once as it is and then once for each growth of its memory,
# in which that one is refused (bench/refusing.c, laid under the program by LD_PRELOAD, which wants gcc). Each such run has to end with
# status 9 with nothing written, or, where the program could do without, as the run without a refusal did: with the same status and the
# same output. Of `live`, whose output has counts of what came by its clock, that is with the same status and an output. The status of this
# script is 0 where all did.
# shellcheck source=bench/shared.sh
. "$(dirname "${BASH_SOURCE[0]}")/shared.sh"
built
command -v gcc >/dev/null || { echo "$0: there is no gcc on the PATH" >&2; exit 1; }
gcc -shared -fPIC -O2 -o "$folder/refusing.so" "$here/bench/refusing.c" -ldl
figures refused "$program" "$folder" "$here"
