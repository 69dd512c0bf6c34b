#!/bin/sh
# How many frames a second two loops handle, who wait for each other in every turn, each over a station in memory with its log, beside the same
# design in plain Rust by `rustc -O`. README.md says how it is measured. Run it by hand, on a machine that does nothing else: bench/loop.sh
. "$(dirname "$0")/common.sh"
build loop 'definitions grid_world peer_core pilots rosters socket_station ready_loop rand_pcg' loop_bench
build_plain loop

# so many matches that each program takes two seconds or more
matches=40
said=$("$proved" "$matches")
if [ "$said" != "$("$plain" "$matches")" ]; then
    echo 'the two programs play other matches' >&2
    exit 1
fi
# the frames that were taken, their bytes, and a sum over the logs
set -- $said
python3 -c 'import sys
frames, ours, ours_idle, theirs, theirs_idle = map(float, sys.argv[1:])
proved, plain = ours - ours_idle, theirs - theirs_idle
def speed(seconds):
    return f"{frames / seconds:,.0f} frames a second, {seconds / frames * 1e9:.0f} ns a frame"
print(f"loop: {speed(proved)}; plain Rust {speed(plain)}; ratio {plain / proved:.2f}")' \
    "$1" $(best 5 "$proved" "$matches" -- "$proved" 0 -- "$plain" "$matches" -- "$plain" 0)
