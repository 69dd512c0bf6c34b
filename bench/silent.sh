#!/bin/sh
# What a turn costs beside a player of whom nothing is heard, as the turns that it missed grow, on a ground of 256 x 256 cells as one long
# way: the set of the cells that it can be at grows by what the turn adds, so each turn costs the same. README.md says how it is
# measured. Run it by hand, on a machine that does nothing else: bench/silent.sh
. "$(dirname "$0")/common.sh"
build silent 'definitions grid_world wait_rule itoa'

python3 -c 'import sys
idle, *used = map(float, sys.argv[1:])
for turns, seconds in zip((1000, 2000, 4000), used):
    print(f"silent: {turns} turns {seconds - idle:.2f} s, {(seconds - idle) / turns * 1e6:.0f} us a turn")' \
    $(best 5 "$proved" 0 -- "$proved" 1000 -- "$proved" 2000 -- "$proved" 4000)
