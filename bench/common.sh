# What the benchmarks share; each reads this file. $here is bench/, $work a folder that goes when the script ends.
set -e
here=$(cd "$(dirname "$0")" && pwd)
work=$(mktemp -d)
trap 'rm -rf "$work"' EXIT

# build NAME DEPS [CRATE]: the program of bench/NAME, as a crate of that name or of another, proved and built over a copy of the repository's
# crates; its file is $proved then
build() {
    name=${3:-$1}
    tar -C "$here/.." --exclude=out -cf - crates crates.txt HANDLES | tar -C "$work" -xf -
    crate="$work/crates/$name"
    mkdir -p "$crate/src"
    # under other endings, since the gate reads every .rt and .antt file of the repository
    cp "$here/$1/main.rattle" "$crate/src/main.rt"
    for invariants in "$here/$1"/*.txt; do
        of=$(basename "$invariants" .txt)
        mkdir -p "$crate/proofs/$of"
        cp "$invariants" "$crate/proofs/$of/Invariants.antt"
    done
    # lemmas, where the program's functions cite some
    for lemmas in "$here/$1"/lemmas/*.txt; do
        if [ -e "$lemmas" ]; then
            of=$(basename "$lemmas" .txt)
            cp "$lemmas" "$crate/proofs/$of.antt"
            echo "pub mod $of" >> "$crate/proofs/Lib.antt"
        fi
    done
    echo "$name: $2" >> "$work/crates.txt"
    (cd "$crate" && rt run) > "$work/log" 2>&1 || { cat "$work/log" >&2; exit 1; }
    proved="$crate/out/$name"
}

# build_plain NAME: the program of bench/NAME in plain Rust; its file is $plain then
build_plain() {
    plain="$work/plain"
    rustc --edition 2021 -O -o "$plain" "$here/$1/plain.rs"
}

# best RUNS COMMAND -- COMMAND ..: the least processor seconds of each command over so many runs of all in turn
best() {
    python3 -c 'import resource, subprocess, sys
def used():
    all = resource.getrusage(resource.RUSAGE_CHILDREN)
    return all.ru_utime + all.ru_stime
commands = [[]]
for word in sys.argv[2:]:
    commands.append([]) if word == "--" else commands[-1].append(word)
least = [float("inf")] * len(commands)
for _ in range(int(sys.argv[1])):
    for i, command in enumerate(commands):
        before = used()
        subprocess.run(command, check=True, stdout=subprocess.DEVNULL)
        least[i] = min(least[i], used() - before)
print(*least)' "$@"
}
