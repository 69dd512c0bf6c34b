#!/bin/sh
# How fast the program audits logs, and how much memory it takes: sixteen honest logs of a long match, turn by turn and one player after the
# other; and hostile ones, of different commitments to one turn, of such that differ in their last bytes alone, of one commitment again and
# again, of different reveals that open nothing, and of turns whose look-ups collide, each in two sizes, so that one sees that the time goes by
# the size. README.md says how it is measured. In turn with the honest ones a proved program that does no more than read the same files and hash
# what their chains hash. Run it by hand, where ./build has built the program, on a machine that does nothing else: bench/audit.sh, or
# bench/audit.sh RUNS for another number of runs than five, which may take an hour. It needs 2 GB of disk and 8 GB of memory.
. "$(dirname "$0")/common.sh"
cd "$here" || exit 1
program=$here/../crates/lethwyrn/out/lethwyrn
if [ ! -x "$program" ]; then
    echo 'bench/audit.sh: ./build builds the program first' >&2
    exit 1
fi
build hashes 'file_shelf machine_files station sha2'

# these audits in turn: of each the kind, how many logs, and how many entries each has where the kind doesn't say it
measure() {
    python3 audit/measure.py "$program" "$proved" "$runs" "$@" || exit
}
runs=${1:-5}
measure 'turns 8 0' 'turns 16 0' 'honest 8 0' 'honest 16 0'
measure 'alike 4 200000' 'alike 4 400000'
measure 'reveals 1 100000' 'reveals 1 200000'
# logs that are as long as a log may be
measure 'commitments 8 883000' 'commitments 16 883000'
measure 'repeats 8 883000' 'repeats 16 883000'
measure 'reveals 8 828000' 'reveals 16 828000'
# the table of turns, as full as it gets before it grows, and then its last turn again and again
measure 'spread 1 400000' 'spread 1 800000' 'colliding 1 400000' 'colliding 1 800000'
