#!/usr/bin/env bash
# AVR programs on simavr's ATmega328P, with its own timers and with the proved ones of LIBRARY: bindings/simavr/try.sh needs, then
# bindings/simavr/try.sh LIBRARY. Prints what both answer, and makes the door's dump. The status is 1 where the proved timers are wrong.
set -eu
library=$1
out=target/simavr
here=bindings/simavr
avr="avr-gcc -mmcu=atmega328p -Wall -Wextra"

lacks() { echo "simavr: $1 is missing: install Debian's libsimavr-dev, gcc-avr and avr-libc, or leave make simavr out" >&2; exit 1; }
command -v avr-gcc > /dev/null || lacks avr-gcc
echo '#include <avr/io.h>' | $avr -E - > /dev/null 2>&1 || lacks avr/io.h
echo '#include <simavr/sim_avr.h>' | ${CC:-cc} -E - > /dev/null 2>&1 || lacks simavr/sim_avr.h
[ "$library" != needs ] || exit 0

mkdir -p $out
${CC:-cc} -O2 -Wall -Wextra -Wno-unused-parameter -Werror -std=gnu11 -o $out/run $here/run.c $here/glue.c $here/wires.c "$library" -lsimavr
$avr -Os -o $out/asks.elf $here/asks.c
$avr -Os -o $out/door.elf $here/door.c

# A table of its own.
wrong=0
table() {
  echo "simavr   proved   $1"
  plain=0 ours=0 all=0
}

# A row: what it is, what is right, what simavr's timers and the proved ones say.
row() {
  all=$((all + 1))
  [ "$3" != "$2" ] || plain=$((plain + 1))
  if [ "$4" = "$2" ]; then ours=$((ours + 1)); else wrong=1; fi
  printf '%-8s %-8s %s\n' "$([ "$3" = "$2" ] && echo right || echo wrong)" "$([ "$4" = "$2" ] && echo right || echo WRONG)" "$1"
  [ "$4" = "$2" ] || printf '%18s%s, not %s\n' '' "${4:-nothing}" "$2"
}
total() { echo "simavr's timers $plain of $all, the proved ones $ours of $all"; }

table "the readings T1 to T10"
while read -r number cycles timer input rest; do
  $avr -nostartfiles -DT="$number" -o $out/t$number.elf $here/readings.S
  answer() { $out/run "$1" $out/t$number.elf watch "$timer" "$cycles" "$input" | sed 's/ *$//'; }
  row "T$number: ${rest#*| }" "${rest% |*}" "$(answer plain)" "$(answer ours)"
done < $here/readings.txt
total

table "what the sheet answers"
$out/run plain $out/asks.elf said > $out/asks.plain
$out/run ours $out/asks.elf said > $out/asks.ours
while read -r number right question; do
  row "$question" "$right" "$(sed -n "s/^$number //p" $out/asks.plain)" "$(sed -n "s/^$number //p" $out/asks.ours)"
done < $here/asks.txt
total

table "a door program, for a second"
row "no beam wakes it from power-down, and the motor's pulses are of 1, 41, 81, 121 and 161 ticks" "sleeps, widths 1 41 81 121 161" \
  "$($out/run plain $out/door.elf door $out/door.log)" "$($out/run ours $out/door.elf door $out/door.log)"
vcd=$PWD/$(examples/program.sh vcd)
(cd "$out" && "$vcd" < door.log > door.vcd)
echo "its pins are in $out/door.vcd, for a waveform viewer"
[ $wrong = 0 ]
