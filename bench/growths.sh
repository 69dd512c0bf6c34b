#!/bin/sh
# How many growths a second a set of cells makes on a 256 x 256 ground, open and as a labyrinth, beside the same design in plain
# Rust by `rustc -O`. README.md says how it is measured. Run it by hand, on a machine that does nothing else: bench/growths.sh
. "$(dirname "$0")/common.sh"
build growths 'definitions grid_world dilation itoa'
build_plain growths

# so many rounds that each program takes a second or more
for ground in "open 4000" "labyrinth 60"; do
    set -- $ground
    growths=$("$plain" "$1" "$2")
    python3 -c 'import sys
ground, growths, ours, ours_idle, theirs, theirs_idle = sys.argv[1], *map(float, sys.argv[2:])
proved, plain = growths / (ours - ours_idle), growths / (theirs - theirs_idle)
print(f"{ground}: {proved:,.0f} growths a second, plain Rust {plain:,.0f}, ratio {proved / plain:.2f}")' \
        "$1" "$growths" $(best 5 "$proved" "$1" "$2" -- "$proved" "$1" 0 -- "$plain" "$1" "$2" -- "$plain" "$1" 0)
done
