#!/usr/bin/env bash
# Runs a script on the bench program and makes a value change dump of its records, for a waveform viewer: examples/waves.sh SCRIPT
# The dump stands in target/waves. Where GTKWave's readers are installed it goes through them and back, and where there is a
# display GTKWave shows it, by the save file beside the script if there is one.
set -eu
script=$1
name=$(basename "${script%.script}")
bench=$PWD/$(examples/program.sh bench)
vcd=$PWD/$(examples/program.sh vcd)
folder=target/waves
dump=$folder/$name.vcd
save=${script%.script}.gtkw

# What to do about a refused log, by its number.
advice() {
  case $1 in
    13) echo "its records are no records, or too many" ;;
    14) echo "its cycles go back: the calls of the whole script, on every timer and the watchdog, must come in the order of their cycles" ;;
    15) echo "a cycle is over 2^48 - 1: start its cycles lower" ;;
    *) echo "door.log cannot be read" ;;
  esac
}

# The log is the bytes behind records= of every answer, one after the other; the programs start in a folder of their own, since vcd reads
# door.log there and a script may write it.
room=$(mktemp -d)
trap 'rm -r "$room"' EXIT
(cd "$room" && "$bench") < "$script" > "$room/answers"
grep '^error line' "$room/answers" >&2 || true
sed -n 's/.* records=\([0-9a-f]*\)$/\1/p' "$room/answers" | sed 's/../\\x&/g' | while read -r bytes; do printf "$bytes"; done > "$room/door.log"
(cd "$room" && "$vcd" > dump 2> number)
if [ -s "$room/number" ]; then
  echo "waves: the log of $script is refused with $(cat "$room/number"): $(advice "$(cat "$room/number")")" >&2
  exit 1
fi
mkdir -p "$folder"
mv "$room/dump" "$dump"
echo "waves: $dump has $(grep -c '^\$var' "$dump") pins and $(grep -c '^[01z]p' "$dump") changes of $script"

if command -v vcd2fst > /dev/null && command -v fst2vcd > /dev/null && command -v python3 > /dev/null; then
  echo "waves: through vcd2fst and back: $(python3 oracle/dump/viewer.py "$dump")"
fi
if command -v gtkwave > /dev/null && [ -n "${DISPLAY:-}" ]; then
  [ -f "$save" ] || save=
  gtkwave "$dump" ${save:+"$save"} > /dev/null 2>&1 &
else
  echo "waves: open it in a waveform viewer, as in: gtkwave $dump$([ ! -f "$save" ] || echo " $save")"
fi
