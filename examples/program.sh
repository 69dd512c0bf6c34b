# What ./match, ./audit and ./play share: which program they run, and what examples there are. They
# read this at the top of the repository.
program=$PWD/crates/lethwyrn/out/lethwyrn

# Whether ./build has built the program, and no source has changed since it began.
is_built() {
    [ -x "$program" ] && [ -z "$(find crates crates.txt -path 'crates/*/out' -prune -o \
        \( -name '*.rt' -o -name '*.antt' -o -name crates.txt \) -newer "$program" -print |
        head -n 1)" ]
}

# Says, for the script of that name, that the sources are run as they stand, or that they can't be.
say_unproved() {
    if ! command -v rt > /dev/null; then
        echo "$1: this needs rt, the command of the Rattle toolchain that README.md names" >&2
        exit 1
    fi
    echo "$1: this run isn't proved. ./build proves and builds the program," \
        "and later runs are of that one." >&2
}

# The names of the examples that have a file of this ending.
names_with() {
    for file in examples/*"$1"; do
        name=${file#examples/}
        [ -f "$file" ] && echo "${name%%.*}"
    done | sort -u | tr '\n' ' ' | sed 's/ $//'
}

# Whether a word is one of the others.
is_among() {
    word=$1
    shift
    for other in "$@"; do [ "$word" = "$other" ] && return 0; done
    return 1
}

# Cuts the exhibits out of an audit's report, as FOLDER/evidence.1 and so on: each goes from its
# first line to the first `end` after it.
cut_exhibits() {
    (cd "$2" && awk '/^evidence / { count += 1; inside = 1 }
        inside { print > ("evidence." count) }
        inside && /^end$/ { inside = 0 }') < "$1"
}
