#!/bin/sh
# How long the program takes to make the matches of twenty numbers, each of 8 players and 200 turns with its audit, beside the same
# design in plain Rust by `rustc -O`. README.md says how it is measured. Run it by hand, where ./build has built the program, on a
# machine that does nothing else: bench/make.sh
. "$(dirname "$0")/common.sh"
proved=$here/../crates/lethwyrn/out/lethwyrn
if [ ! -x "$proved" ]; then
    echo 'bench/make.sh: ./build builds the program first' >&2
    exit 1
fi
build_plain make

numbers='0 1 2 3 4 5 6 7 8 9 10 11 12 13 14 15 16 17 18 19'
for number in $numbers 12345 18446744073709551615; do
    if ! said=$("$proved" make "$number"); then
        echo "bench/make.sh: the program makes no match of $number" >&2
        exit 1
    fi
    if [ "$said" != "$("$plain" make "$number")" ]; then
        echo "the two programs make other matches of $number" >&2
        exit 1
    fi
done

# all matches by one of the programs; or as many starts of it, with a word in the command's place that it doesn't know
all='for number in $2; do "$0" "$1" "$number"; done'
none='for number in $2; do "$0" "$1" "$number" 2> /dev/null || :; done'
python3 -c 'import sys
matches, ours, ours_idle, theirs, theirs_idle = map(float, sys.argv[1:])
proved, plain = ours - ours_idle, theirs - theirs_idle
def speed(seconds):
    return f"{seconds / matches * 1e3:.1f} ms a match"
print(f"make: {speed(proved)}; plain Rust {speed(plain)}; ratio {plain / proved:.2f}")' \
    "$(echo $numbers | wc -w)" $(best 5 sh -c "$all" "$proved" make "$numbers" -- sh -c "$none" "$proved" none "$numbers" \
    -- sh -c "$all" "$plain" make "$numbers" -- sh -c "$none" "$plain" none "$numbers")
