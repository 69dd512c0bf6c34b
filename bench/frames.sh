#!/bin/sh
# How fast a reader finds the frames of a long stream of commitments and reveals that comes in pieces of 1,500 bytes, and every byte
# of each frame is used, beside the same design in plain Rust by `rustc -O`. README.md says how it is measured. Run it by hand, on
# a machine that does nothing else: bench/frames.sh
. "$(dirname "$0")/common.sh"
build frames 'definitions wire_frames'
build_plain frames

# so many rounds that each program takes a second or more
rounds=200
said=$("$proved" "$rounds")
if [ "$said" != "$("$plain" "$rounds")" ]; then
    echo 'the two programs read other frames' >&2
    exit 1
fi
# the frames and the bytes of one round, and a sum over all frames
set -- $said
python3 -c 'import sys
rounds, frames, size, ours, ours_idle, theirs, theirs_idle = map(float, sys.argv[1:])
proved, plain = ours - ours_idle, theirs - theirs_idle
def speed(seconds):
    return f"{rounds * size / seconds:,.0f} bytes a second, {seconds / rounds / frames * 1e9:.1f} ns a frame"
print(f"frames: {speed(proved)}; plain Rust {speed(plain)}; ratio {plain / proved:.2f}")' \
    "$rounds" "$1" "$2" $(best 5 "$proved" "$rounds" -- "$proved" 0 -- "$plain" "$rounds" -- "$plain" 0)
