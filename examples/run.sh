#!/usr/bin/env bash
# Runs a script on the bench program and shows each answer under its command: examples/run.sh SCRIPT
# Where answers are stored beside the script, those of the program are held to them. The program starts in target/, where a file that
# the script writes then stands. Until it is proved, `rt try` runs it unproved, but for a script that writes a file, which `rt try` does not keep.
set -eu
script=$1
stored=${script%.script}.answers
answers=$(mktemp)
trap 'rm "$answers"' EXIT

if program=$(examples/program.sh --built bench) || { grep -q '^[[:space:]]*record' "$script" && program=$(examples/program.sh bench); }; then
  (cd target && "../$program") < "$script" > "$answers"
else
  command -v rt > /dev/null || { echo "run: rt is not on the PATH: install the Rattle kit that .ci/kit names: $(cat .ci/kit)" >&2; exit 1; }
  echo "run: the bench program is not proved yet, and runs unproved by rt try, which takes some twenty seconds; make test proves it" >&2
  mkdir -p target
  (cd crates/bench && rt try) < "$script" > "$answers" 2> target/try.log || { cat target/try.log >&2; exit 1; }
fi
awk -v answers="$answers" -f examples/show.awk "$script"
if [ -f "$stored" ]; then
  diff -U0 --label "$stored" --label "what the program answered" "$stored" "$answers" >&2
fi
