#!/bin/sh
# Writes the fixed list that the gate replays: FOLDER/stdin, a script, and FOLDER/stdout, what `judge --sheet` answers
# to it. FOLDER is crates/bench unless one is named. README.md says what the list holds and how its sample was made.
set -eu
LC_ALL=C
export LC_ALL
cd "$(dirname "$0")"
here=$PWD
bin=target/release
folder=${1:-../crates/bench}
room=$(mktemp -d)
trap 'rm -rf "$room"' EXIT

# The random scripts: `generate SEED CALLS` for each seed.
calls=100
seeds="47 114 127 151 167 179 183 244 256 278 285 388 412 444 468 586 597 852 4226"

# Those of the board: `generate --board SEED CALLS`.
boards="235 31 40"

# section TITLE: a heading, and an empty scheduler
section() {
    printf '\n# ==== %s\nsched clear\n' "$1"
}

# files PATH...: scripts, each under its name
files() {
    for path; do
        section "${path#../}"
        cat "$path"
    done
}

# repeat COUNT BYTE
repeat() {
    head -c "$1" /dev/zero | tr '\0' "$2"
}

no_timer() {
    printf '# ==== before any timer\nstate\nnext 0 110\nadvance 18446744073709551615 0\nread 46 0 110\nshift 0 1\nwrites 110 -\nwrites 110 114040000000000000\nwdt state\nboard state\nboard advance 0 0 110\nboard read 43 0 0\n'
}

readings() {
    for name in T1 T2 T3 T4 T5 T6 T7 T8 T9 T10 bench refusals lists doors log watchdog unreadable board; do
        files "readings/$name.script"
    done
}

# The log to its last place, after readings/log.script: from place 3 on 6,000 records, each with its number; one too many; and, once
# the two oldest are released, two more at their places.
full_log() {
    section "a full log"
    awk 'BEGIN { for (n = 0; n < 6000; n++) printf "log add %020d\n", n }'
    printf 'log add 40000000000000010600\nlog read 5999\nlog read 0\nlog read 2\nlog read 3\nlog release 6001\nlog release 2\n'
    printf 'log add 40000000000000010600\nlog add 80000000000000011000\nlog read 2\nlog read 3\nlog read 4\nlog read 5\n'
    printf 'log add 00000000000000000000\nlog release 6000\nlog release 1\n'
}

sample() {
    for seed in $seeds; do
        section "random, seed $seed"
        $bin/generate "$seed" "$calls"
    done
    for seed in $boards; do
        section "random board, seed $seed"
        $bin/generate --board "$seed" "$calls"
    done
}

# Lines that a reader of bytes may stumble over: NUL, CR, TAB, bytes that are no UTF-8, numbers at the border of their
# places, and lines of 500 and more bytes. The last line has no line feed.
hostile() {
    section "hostile lines"
    printf 'preset m328p.timer0\nwrite 45 01 0 110\n'
    printf 'advance 5 110\r\nstate\r\n\r\n\tstate\nstate\tnow\nadvance\t5 110\n'
    printf 'state\0\n\0\nadvance 5\0 110\nadvance 5 110\0\n# \0 \r \377\n'
    printf '\377\376\nadvance \303\050 110\nadvance \357\274\225 110\n'
    printf 'advance 00000000000000000000000000000005 00110\nadvance +6 110\nadvance 0x6 110\nadvance 6. 110\n'
    printf 'advance 18446744073709551615 110\nadvance 18446744073709551616 110\nadvance 4611686018427387904 110\n'
    printf 'read 00000000046 5 110\nread FFFF 5 110\nread 10000 5 110\nread FFFFFFFFFFFFFFFFF 5 110\nread 4g 5 110\n'
    printf 'pin vcc=+5.0 ext=analog volts=-0\npin vcc=5 volts=\npin vcc=\npin =5\npin vcc\npin vcc=1e3\npin vcc==5\n'
    printf 'pin vcc=123456789012345\npin vcc=1234567890123456\npin vcc=0.00000000000001\npin vcc=-inf\npin vcc=+inf\n'
    printf 'sched at 255 255 18446744073709551615\nsched at 256 0 0\nsched at 0 256 0\nsched clear now\n'
    printf 'advance 5 110#no space before the comment\nadvance# 5 110\nstate #\n'
    printf 'advance %s 110\n' "$(repeat 400 0)5" "$(repeat 400 9)"
    printf '%sstate\n' "$(repeat 495 ' ')" "$(repeat 496 ' ')"
    printf '#%s\n' "$(repeat 499 x)" "$(repeat 500 x)" "$(repeat 9000 x)"
    printf 'state%s\n' "$(repeat 495 ' ')" "$(repeat 496 ' ')" "$(repeat 9000 ' ')"
    printf 'state'
}

sample > "$room/sample"
{
    no_timer
    readings
    full_log
    files differences/*.script choices/*.script ../examples/door.script
    cat "$room/sample"
    hostile
} > "$room/stdin"
(cd "$room" && "$here/$bin/judge" --sheet) < "$room/stdin" > "$room/stdout"

# Lines that cannot be read are in the sample too, but not every kind; the watchdog is not, and the log is not filled.
{
    cat readings/unreadable.script readings/watchdog.script
    full_log
    cat "$room/sample"
} > "$room/reaches"
$bin/compare --cover "$room/reaches"
$bin/compare --cover "$room/stdin"

mkdir -p "$folder"
cp "$room/stdin" "$room/stdout" "$folder"
