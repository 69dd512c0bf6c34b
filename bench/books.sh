#!/bin/sh
# What it costs to take sixteen logs of a long match in turns, piece by piece, as a live logger does, beside their audit at once. README.md says
# how it is measured. Run it by hand, where ./build has built the program, on a machine that does nothing else: bench/books.sh
. "$(dirname "$0")/common.sh"
program=$(cd "$here/../crates/lethwyrn/out" 2>/dev/null && pwd)/lethwyrn
if [ ! -x "$program" ]; then
    echo 'bench/books.sh: ./build builds the program first' >&2
    exit 1
fi
build books 'definitions file_shelf grid_world log_books machine_files station'
mkdir "$work/logs"
python3 "$here/audit/make_logs.py" "$work/logs" turns 16 0
cd "$work/logs" || exit 1
logs='0 1 2 3 4 5 6 7 8 9 10 11 12 13 14 15'
# the logs' names are words of their own
# shellcheck disable=SC2086
python3 -c 'import sys
audit, *fed = map(float, sys.argv[1:])
for piece, took in zip((65536, 4096, 256, 81, 5, 1), fed):
    print(f"pieces of {piece} bytes: {took:.2f} s, {took / audit:.2f} times the audit at once")' $(best 5 "$program" audit session $logs -- \
    "$proved" 65536 session $logs -- "$proved" 4096 session $logs -- "$proved" 256 session $logs -- "$proved" 81 session $logs -- \
    "$proved" 5 session $logs -- "$proved" 1 session $logs)
