#!/bin/sh
# How long the keys of a session of 200 turns take to make, and a seal to make and to check, beside hashing alone: the same program takes as
# many blocks of the same SHA-256 as one message. The aims are 1.1 for the keys and 1.2 for the others. README.md says how it is measured. Run
# it by hand, on a machine that does nothing else: bench/seals.sh
. "$(dirname "$0")/common.sh"
build seals 'definitions grid_world seal_keys sha2'

keys=8
rounds=4000
# the blocks of 400 places and a tree over 512 leaves; of 256 secrets, 256 more with their public values, and the frame's digest; of
# 256 public values, a leaf, nine nodes above it, and the frame's digest
of_keys=$((keys * (400 * 1281 + 511 * 2)))
of_seals=$((rounds * (256 + 512 + 2)))
of_checks=$((rounds * (256 + 257 + 18 + 2)))
python3 -c 'import sys
keys, rounds, made, idle, sealed, checked, once, *hashed = map(float, sys.argv[1:])
def tell(what, count, took, alone):
    print(f"{what}: {took / count * 1e3:.2f} ms each; hashing alone {alone / count * 1e3:.2f} ms; {took / alone:.2f} times that")
tell("keys", keys, made - idle, hashed[0] - idle)
tell("seals", rounds, sealed - once, hashed[1] - idle)
tell("checks", rounds, checked - once, hashed[2] - idle)' "$keys" "$rounds" $(best 5 "$proved" keys "$keys" -- "$proved" blocks 0 -- \
    "$proved" seal "$rounds" -- "$proved" check "$rounds" -- "$proved" seal 0 -- \
    "$proved" blocks "$of_keys" -- "$proved" blocks "$of_seals" -- "$proved" blocks "$of_checks")
