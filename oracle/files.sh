#!/bin/sh
# What a bench program does with door.log where that fails: oracle/files.sh PROGRAM
# A folder in the file's place cannot be opened, and /dev/full takes no byte.
set -eu
program=$(realpath "$1")
room=$(mktemp -d)
trap 'rm -rf "$room"' EXIT
cd "$room"

# expect NAME ANSWERS: what the program wrote
expect() {
    if [ "$(cat wrote)" != "$2" ]; then
        echo "oracle: door.log $1: the program wrote" >&2
        cat wrote >&2
        exit 1
    fi
}

mkdir door.log
printf 'record\npreset m328p.timer0\nrecord\ntifr 0 0\n' | "$program" > wrote
expect "that cannot be opened" 'error line 1: file not opened
ok config
error line 3: file not opened
ok value=00 next=none flags=- bytes=0 records=-'
rmdir door.log

# The script comes in two pieces; between them the file goes.
{
    printf 'record\npreset m328p.timer0\nnext 7 0\n'
    sleep 1
    rm door.log
    mkdir door.log
    printf 'preset m328p.timer0\nnext 6 0\n'
} | "$program" > wrote
expect "that cannot be begun anew" 'ok recording
ok config
ok value=- next=none flags=- bytes=0 records=-
error line 4: file not opened
refused 3'
rmdir door.log

ln -s /dev/full door.log
printf 'preset m328p.timer0\nrecord\nwrite 45 1 0 0\nadvance 1 30\nwrites 30 11404000000000000100\nread 46 256 0\n' | "$program" > wrote
expect "on a full disk" 'ok config
ok recording
ok value=- next=1 flags=06 bytes=0 records=-
door.log not written
door.log not written
ok value=00 next=257 flags=06 bytes=0 records=-'
echo "door.log: what cannot be opened or written is told"
