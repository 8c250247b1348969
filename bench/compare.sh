#!/usr/bin/env bash
# What each operation costs beside a former program, in one run: bench/compare.sh FORMER [SCRIPT ..]. FORMER is another checkout of the
# repository. Of each script that is named, or of all whose tables are of operations, the program is built twice, of the crates of this
# checkout and of those of FORMER (JORAZHIL_CRATES of bench/shared.sh); each runs once to warm up, and then both seven times by turns.
# A row has the medians of what the script tells, and ours over the former one; where a figure has several numbers, of each. What is under a
# nanosecond is less than such differences scatter by: it has no ratio, and no row where it is so over both. JORAZHIL_BUILT keeps the
# programs, which are built anew else. `midi` and `filter` want the built program of each checkout too, and build what isn't. A script that
# fails over one of both has no rows, and the status is 1.
# shellcheck source=bench/shared.sh
. "$(dirname "${BASH_SOURCE[0]}")/shared.sh"
former=$(cd -P -- "${1:?bench/compare.sh takes another checkout}" && pwd)
shift
[ $# -gt 0 ] || set -- numbers client peers sessions measure hub datagrams midi filter cells
mkdir "$folder/ours" "$folder/former" "$folder/built"
JORAZHIL_BUILT=$(cd -P -- "${JORAZHIL_BUILT:-$folder/built}" && pwd)
export JORAZHIL_BUILT FIGURES=raw
unset JORAZHIL_FORMER JORAZHIL_PROGRAM
status=0

# measure CHECKOUT FILE SCRIPT: the figures of one run.
measure() {
  local runs=(1)
  if [ "$3" = filter ]; then runs=(100000 1); fi
  JORAZHIL_CRATES=$1 "$here/bench/$3.sh" "${runs[@]}" >"$2" 2>"$folder/said" || { tail -n 40 "$folder/said" >&2; return 1; }
}

for script; do
  echo "$0: $script" >&2
  for turn in warm 1 2 3 4 5 6 7; do
    if ! measure "$here" "$folder/ours/$script.$turn" "$script" || ! measure "$former" "$folder/former/$script.$turn" "$script"; then
      echo "$0: $script failed, and has no rows" >&2
      rm -f "$folder"/*/"$script".*
      status=1
      break
    fi
  done
  rm -f "$folder"/*/"$script".warm
done
figures compare "$folder/ours" "$folder/former"
exit "$status"
