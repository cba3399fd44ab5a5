#!/bin/bash
# Prints each figure of the proved programs, of the plain Rust body, and the ratio of the two. With
# words, the figures of those words alone (votes, memory, rings_new, .., views, edges, desks,
# detect, sim, cluster); with none, all.
set -e
cd "$(dirname "${BASH_SOURCE[0]}")/.."
room=$(mktemp -d)
trap 'rm -r "$room"' EXIT
rustc -O --edition 2021 -o "$room/plain" bench/plain.rs
rustc -O --edition 2021 --crate-type cdylib -C panic=abort \
    -o "$room/allocated.so" bench/plain/allocated.rs

# The program of a crate, which is proved and built first if it is not there.
program() {
    local built=crates/$1/out/$1
    if [ ! -x "$built" ]; then
        echo "$1 is proved and built first" >&2
        (cd "crates/$1" && rt run >/dev/null </dev/null)
    fi
    echo "$PWD/$built"
}

# A program that keeps the memory it frees. Else each run of a figure gives the end of the heap back to
# the system, and has it again by page faults, which take more time than the steps that are measured.
keeping() {
    MALLOC_TRIM_THRESHOLD_=$((1 << 30)) MALLOC_TOP_PAD_=$((1 << 26)) MALLOC_MMAP_THRESHOLD_=$((1 << 30)) "$@"
}

# Puts lines NAME NUMBER of both programs side by side: beside PLAIN PROVED.
beside() {
    awk 'NR == FNR { plain[$1] = $2; next }
        !($1 in plain) { printf "%-24s %12d\n", $1, $2; next }
        plain[$1] == 0 { printf "%-24s %12d %12d\n", $1, $2, 0; next }
        { printf "%-24s %12d %12d %8.2f\n", $1, $2, plain[$1], $2 / plain[$1] }' "$1" "$2"
}

# Worlds: each in a process of its own, so that the greatest memory is its own.
worlds() {
    local bench
    bench=$(program rapid_bench)
    "$bench" world_200 >"$room/proved"
    "$bench" world_1000 >>"$room/proved"
    "$room/plain" worlds 200 2 >"$room/other"
    "$room/plain" worlds 1000 10 >>"$room/other"
    beside "$room/other" "$room/proved"
}

# Times: the plain figures of all words are taken at once, the first time that one is wanted.
inner() {
    local bench
    bench=$(program rapid_bench)
    if [ "$1" = step_bytes ]; then
        LD_PRELOAD="$room/allocated.so" "$room/plain" step_bytes >"$room/plain_bytes"
        LD_PRELOAD="$room/allocated.so" "$bench" step_bytes >"$room/proved"
        beside "$room/plain_bytes" "$room/proved"
        return
    fi
    [ -e "$room/plain_all" ] || keeping "$room/plain" >"$room/plain_all"
    keeping "$bench" "$1" >"$room/proved"
    beside "$room/plain_all" "$room/proved"
}

all="votes memory rings_new rings_next from_bytes frames steps step_bytes worlds views edges desks same"
# shellcheck disable=SC2086
[ $# -gt 0 ] || set -- $all detect sim cluster
printf "%-24s %12s %12s %8s\n" figure proved plain ratio
for word in "$@"; do
    case $word in
        worlds) worlds ;;
        memory | views | edges | desks)
            bench=$(program rapid_bench)
            "$bench" "$word" >"$room/proved"
            "$room/plain" "$word" >"$room/other"
            beside "$room/other" "$room/proved"
            ;;
        same | detect | sim | cluster) bench/outside.py "$(program rapidd)" "$room/plain" "$word" ;;
        *) inner "$word" ;;
    esac
done
