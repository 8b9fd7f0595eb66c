#!/bin/sh
# Checks the scripts of readings/, choices/ and differences/: NAME.answers is what the port must answer and so
# judge --sheet and plain, NAME.rust what the Rust itself answers where that is another, NAME.sheet what the
# sheet would say where the port does not follow it. A script's `# rust:` and `# sheet:` lines name the flag of
# the judge and the bend of the plain counter that show those. Then the story of examples/ in the same way, and
# that the fixed list in crates/bench is the one that fixed.sh writes.
set -u
cd "$(dirname "$0")" || exit 1
bin=$PWD/target/release
room=$(mktemp -d) || exit 1
trap 'rm -rf "$room"' EXIT
failed=0
scripts=0

# expect SCRIPT ANSWERS PROGRAM...
expect() {
    script=$1
    answers=$2
    shift 2
    if [ "$( (cd "$room" && "$@") < "$script")" != "$(cat "$answers")" ]; then
        echo "oracle: on $script, $* does not answer $answers" >&2
        failed=1
    fi
}

for script in readings/*.script choices/*.script differences/*.script; do
    name=${script%.script}
    rust=$name.answers
    [ -f "$name.rust" ] && rust=$name.rust
    flag=$(sed -n 's/^# rust: //p' "$script")
    bend=$(sed -n 's/^# sheet: //p' "$script")
    expect "$script" "$name.answers" $bin/judge --sheet
    expect "$script" "$name.answers" $bin/plain
    expect "$script" "$rust" $bin/judge $flag
    [ -n "$bend" ] && expect "$script" "$name.sheet" $bin/plain --bend "$bend"
    scripts=$((scripts + 1))
done
story=../examples/door
expect $story.script $story.answers $bin/judge --sheet
expect $story.script $story.answers $bin/plain
[ $failed -eq 0 ] && echo "$((scripts + 1)) scripts answered as they must be"

./fixed.sh "$room" || failed=1
for file in stdin stdout; do
    if ! cmp -s "$room/$file" "../crates/bench/$file"; then
        echo "oracle: crates/bench/$file is not what oracle/fixed.sh writes: run it" >&2
        failed=1
    fi
done
[ $failed -eq 0 ] && echo "the fixed list is up to date"
exit $failed
