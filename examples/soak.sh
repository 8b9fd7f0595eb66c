#!/usr/bin/env bash
# Runs every script of a folder on the bench program, several at a time: examples/soak.sh FOLDER CORES
# Answers that are stored beside a script are held to the program's. Where there are none, every line must be one that can be read.
# The jobs go by GNU parallel where that is installed, else by xargs. The status is 1 where a script failed.
set -eu
folder=$1
cores=$2
program=$PWD/$(examples/program.sh bench)
table=target/soak.table

# One script: result, answers, script, and where it went wrong. It runs in a folder of its own, since a script may write files.
one() {
  work=$(mktemp -d)
  trap 'rm -r "$work"' EXIT
  answers=$work/answers stored=${2%.script}.answers where=
  if ! (cd "$work" && "$1") < "$2" > "$answers"; then
    result=broke
  elif [ -f "$stored" ]; then
    result=same
    cmp -s "$answers" "$stored" || { result=differs; where=$(cmp "$answers" "$stored" 2>&1 | sed 's/.*\(line [0-9]*\|EOF\).*/\1/'); }
  else
    result=answered
    where=$(grep -m1 -e '^error line' -e '^area changed' "$answers") && result=unread
  fi
  printf '%s\t%s\t%s\t%s\n' "$result" "$(wc -l < "$answers")" "$2" "$where"
}
export -f one

# Each job takes a few scripts, so that starting it costs little beside them.
all() {
  few=$((scripts / (cores * 10) + 1))
  if command -v parallel > /dev/null; then
    PARALLEL_SHELL=$BASH parallel -0 --will-cite -P "$cores" -n "$few" "for script in {}; do (one '$program' \"\$script\"); done"
  else
    xargs -0 -P "$cores" -n "$few" "$BASH" -c 'for script in "$@"; do (one "$0" "$script"); done' "$program"
  fi
}

scripts=$(find "$folder" -name '*.script' | wc -l)
[ "$scripts" -gt 0 ] || { echo "soak: $folder holds no file whose name ends in .script" >&2; exit 1; }
done=0 failed=0 shown=0
mkdir -p target
find "$folder" -name '*.script' -print0 | sort -z | all | tee "$table" | while IFS=$'\t' read -r result _ script where; do
  done=$((done + 1))
  case $result in broke | differs | unread)
    failed=$((failed + 1))
    echo "soak: $script $result ${where:+at $where}"
    ;;
  esac
  if [ $((done * 10 / scripts)) -gt "$shown" ] || [ -t 2 ]; then
    shown=$((done * 10 / scripts))
    printf '%s' "$done done, $((scripts - done)) left, $failed failed" >&2
    if [ -t 2 ]; then printf '\r' >&2; else echo >&2; fi
  fi
done
[ ! -t 2 ] || echo >&2
awk -F'\t' -v scripts="$scripts" '
  { count[$1]++; answers[$1] += $2 }
  function row(result, meaning) { printf "%-9s %8d %10d  %s\n", result, count[result], answers[result], meaning }
  END {
    printf "%-9s %8s %10s\n", "result", "scripts", "answers"
    row("same", "as the answers stored beside the script")
    row("answered", "no answers stored, every line could be read")
    row("differs", "not as the answers stored beside the script")
    row("unread", "no answers stored, and a line that cannot be read")
    row("broke", "the program ended with a status that is not 0")
    exit NR != scripts || count["differs"] + count["unread"] + count["broke"] > 0
  }' "$table"
