#!/usr/bin/env bash
# What the triple buffer costs: bench/cells.sh [RUNS]. In a temporary folder it proves and builds a program that makes and reads rows of 9
# and of 11 words in 3,000 rounds of 1,000 calls, and runs it RUNS times (three where not given). Where there is a C++ compiler (CXX,
# clang++, g++ or c++) each run is followed by one of the same loops over a triple buffer in C++ of the same widths and layout, without
# proofs: three rows of words and one atomic word that has the back row and whether it is fresh, in two forms. `ordered`: each word is
# stored with sequential consistency, as ours is, so that each call makes as many steps of the same order as ours, and the best rounds of
# `read` and `publish` are told over its own. `relaxed`: the words are relaxed, and the one exchange alone orders them. One thread:
# `read` finds nothing new; `publish` makes rows that no one reads; `both` makes a row and reads it. Two threads: one makes rows while the
# other reads; of each only the rounds count during which the other went on. Beside them `store` and `load` write and read as many plain
# words, in turn in four rows of a list. A figure is what a call took in the best round of all runs and, in brackets, in the middle one of
# the best run. Two threads that have no processor each count few rounds, and their middle one tells of the waiting for a processor.
# shellcheck source=bench/shared.sh
. "$(dirname "${BASH_SOURCE[0]}")/shared.sh"
prepare cells
build

# The same loops in C++. Its lines have the same words.
other=
for compiler in ${CXX:-} clang++ g++ c++; do
  command -v "$compiler" >/dev/null || continue
  if "$compiler" -std=c++17 -O2 -pthread -o "$folder/triple" "$here/bench/programs/cells/triple.cpp"; then
    other=$folder/triple
    echo "$0: the C++ is compiled by $("$compiler" --version | head -n 1)" >&2
    break
  fi
done
[ -n "$other" ] || echo "$0: there is no C++ compiler, so nothing stands beside" >&2

figures cells "$program" "${1:-3}" ${other:+"$other"}
