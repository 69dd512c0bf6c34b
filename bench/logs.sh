#!/bin/sh
# How fast a reader goes through a session log as long as logs may be, beside hashing alone: the same program takes only the
# digests of the log's entries, which any reader has to. The aim is that reading has 70 % or more of the speed of its own
# hashing. README.md says how it is measured. Run it by hand, on a machine that does nothing else: bench/logs.sh
. "$(dirname "$0")/common.sh"
build logs 'definitions grid_world session_log sha2'

rounds=10
# the entries of all rounds, the bytes of the log, and a sum over all entries
set -- $("$proved" read "$rounds")
entries=$1
size=$2
set -- $("$proved" hash "$rounds")
if [ "$entries" != "$1" ]; then
    echo 'the two runs come to other entries' >&2
    exit 1
fi
python3 -c 'import sys
rounds, entries, size, reading, hashing, idle = map(float, sys.argv[1:])
reading, hashing = reading - idle, hashing - idle
def speed(seconds):
    return f"{entries / seconds:,.0f} entries a second, {rounds * size / seconds:,.0f} bytes a second"
print(f"logs: {speed(reading)}; hashing alone {speed(hashing)}; ratio {hashing / reading:.2f}")' \
    "$rounds" "$entries" "$size" $(best 5 "$proved" read "$rounds" -- "$proved" hash "$rounds" -- "$proved" read 0)
