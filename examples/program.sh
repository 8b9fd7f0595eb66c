#!/usr/bin/env bash
# Prints where a program of crates/ stands that is proved and up to date: examples/program.sh [--built] bench
# `rt ci` (make test) and `rt run` leave it in the crate's out/. Where a file under crates/ is newer, the program and the crates that it stands on are
# proved first; with --built nothing is proved, and the status is then 1.
set -eu
built=
if [ "$1" = --built ]; then
  built=yes
  shift
fi
name=$1
program=crates/$name/out/$name
log=target/$name.log

changed() {
  find crates.txt crates -newer "$program" ! -path '*/must-fail/*' ! -path '*/out/*' \( -type f -o -path '*/src*' -o -path '*/specs*' -o -path '*/proofs*' \) -print -quit
}

if [ ! -x "$program" ] || [ -n "$(changed)" ]; then
  [ -z "$built" ] || exit 1
  command -v rt > /dev/null || { echo "$name: $program is missing or older than crates/, and rt, which builds it, is not on the PATH: install the Rattle kit that .ci/kit names: $(cat .ci/kit)" >&2; exit 1; }
  echo "$name: proving the program and the crates that it stands on; the first time takes minutes (docs/LANDINGS.md)" >&2
  mkdir -p target
  rm -f "$program"
  (cd "crates/$name" && rt run < /dev/null) > "$log" 2>&1 || true
  [ -x "$program" ] || { cat "$log" >&2; exit 1; }
fi
mkdir -p target/bin
cp "$program" "target/bin/$name"
echo "target/bin/$name"
