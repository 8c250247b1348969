# shellcheck shell=bash
# Sourced by each script here. What they measure comes on standard output as rows of docs/PERFORMANCE.md; with FIGURES=raw as lines of what
# a row is of, a tab and its figure, which has two more places then. What else there is to tell of it comes on standard error.
#   prepare NAME          lays the program of bench/programs/NAME into `folder`, a temporary one, beside a copy of the crates that it
#                         links: in `crate`, by the name bench_NAME; and works there from then on. Its main.rattle is src/main.rt there, a
#                         file X.answers below its proofs/ is X.antt, since no file of these kinds may lie outside of a crate, and its line
#                         of bench/programs/uses.txt is one of crates.txt. Where JORAZHIL_CRATES names another checkout, the crates are its
#                         own, and so is the program, if it has one there
#   build                 proves and builds that program, which is then at `program`. Where JORAZHIL_BUILT names a folder, it is kept there,
#                         and taken from there where one lies there that was built of the same sources
#   libraries             copies what is built of those crates
#   built                 sets `program` to what JORAZHIL_PROGRAM names, or to that checkout's own, or else the clone's, which is built
#                         first where it isn't yet
#   figures NAME WORD ..  runs bench/NAME.py with these words
# The folder is removed at the end.
set -eu
unset CDPATH
here=$(cd -P -- "$(dirname -- "${BASH_SOURCE[0]}")/.." && pwd)
checkout=$(cd -P -- "${JORAZHIL_CRATES:-$here}" && pwd)
folder=$(mktemp -d)
trap 'rm -rf "$folder"' EXIT

prepare() {
  command -v rt >/dev/null || { echo "$0: there is no rt on the PATH" >&2; exit 1; }
  local programs=$checkout/bench/programs name=bench_$1 text below file
  [ -e "$programs/$1" ] || programs=$here/bench/programs
  text=$programs/$1
  crate=$folder/crates/$name
  program=$crate/out/$name
  mkdir -p "$crate/src"
  cp "$text/main.rattle" "$crate/src/main.rt"
  find "$text" -name '*.answers' | while read -r file; do
    file=${file#"$text"/}
    mkdir -p "$crate/${file%/*}"
    cp "$text/$file" "$crate/${file%.answers}.antt"
  done
  cp "$checkout/HANDLES" "$folder/"
  { cat "$checkout/crates.txt"; grep "^$name:" "$programs/uses.txt"; } >"$folder/crates.txt"
  # Those that were prepared before stay listed.
  of_copy linked_lines >>"$folder/listed"
  sort -u "$folder/listed" >"$folder/crates.txt"
  sed 's/[: ].*//' "$folder/crates.txt" | while read -r below; do
    [ ! -e "$folder/crates/$below" ] || continue
    tar -C "$checkout" --exclude="crates/$below/out" --exclude="crates/$below/must-fail" -cf - "crates/$below" | tar -C "$folder" -xf -
  done
  cd "$crate"
}

# A function of .ci/program over that copy and program.
of_copy() (
  # shellcheck source=.ci/program
  . "$here/.ci/program"
  here=$folder program=$crate/out/${crate##*/}
  "$1"
)

# By its stamp rt tells whether a library is of these sources, and else proves them.
libraries() {
  local rlib
  for rlib in "$folder"/crates/*; do
    rlib=${rlib#"$folder"/}/out/rlib
    if [ -e "$checkout/$rlib/stamp" ] && [ ! -e "$folder/$rlib" ]; then
      mkdir -p "$folder/$rlib"
      cp -a "$checkout/$rlib/." "$folder/$rlib"
    fi
  done
}

build() {
  local kept=
  if [ -n "${JORAZHIL_BUILT:-}" ]; then
    # A checksum of what the program is built from, and of the toolchain.
    kept=$JORAZHIL_BUILT/${program##*/}-$({ of_copy linked_sum; of_copy toolchain_mark; } | cksum | tr ' ' -)
    if [ -x "$kept" ]; then
      program=$kept
      return
    fi
  fi
  echo "$0: proving what is measured; this takes some minutes where nothing is kept of it" >&2
  libraries
  (cd "$crate" && rt run --jobs 1 </dev/null >"$folder/build.log" 2>&1) || { tail -n 40 "$folder/build.log" >&2; exit 1; }
  if [ -n "$kept" ]; then cp "$program" "$kept"; fi
}

built() {
  program=${JORAZHIL_PROGRAM:-}
  if [ -z "$program" ]; then
    "$checkout/jorazhil" replay <"$here/examples/one-alive.script" >/dev/null
    # shellcheck disable=SC2034 # for the script that sources this
    program=$checkout/crates/jorazhil/out/jorazhil
  fi
}

figures() {
  SCRIPT=bench/$(basename -- "$0") PYTHONDONTWRITEBYTECODE=1 python3 "$here/bench/$1.py" "${@:2}"
}
