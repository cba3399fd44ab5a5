#!/bin/bash
# Prints the ten functions that take the most instructions, of the proved program and of the plain
# one: instructions.sh WORD.., of steps, worlds, detect, worst, sim and cluster; with none, of all.
# Of worst all instructions are counted, without the batch and with it. The counts are valgrind's,
# and do not depend on what else the machine does. `rt run` has built rapidd and rapid_bench
# before.
set -e
cd "$(dirname "${BASH_SOURCE[0]}")/.."
proved=$PWD/crates/rapidd/out/rapidd
room=$(mktemp -d)
trap 'rm -r "$room"' EXIT
rustc -O --edition 2021 -o "$room/plain" bench/plain.rs

# The functions of a program on the input: most PROGRAM WORDS..
most() {
    valgrind --tool=callgrind --callgrind-out-file="$room/counts" \
        "$@" <"$room/input" >/dev/null 2>"$room/said"
    echo "$(basename "$1"): $(sed -n 's/.*Collected : //p' "$room/said") instructions"
    callgrind_annotate --auto=no "$room/counts" | grep -E '^ *[0-9,]+ \(' |
        grep -v 'PROGRAM TOTALS' | head -10 | cut -c1-160 |
        sed -E 's/ \[.*$//; s/  +/ /g; s/\) [^ ]*\?\?\?:/) /; s/::<#[0-9a-f]*>$//'
}

[ $# -gt 0 ] || set -- steps worlds detect worst sim cluster
for word in "$@"; do
    echo "== $word"
    case $word in
        detect)
            bench/inputs.py detect_grow >"$room/whole"
            head -358000 "$room/whole" >"$room/input"
            most "$proved" detect
            most "$room/plain" detect
            ;;
        worst)
            for input in detect_edges detect_worst; do
                bench/inputs.py $input >"$room/input"
                most "$proved" detect | head -1
                most "$room/plain" detect | head -1
            done
            ;;
        sim)
            bench/inputs.py sim_few >"$room/input"
            most "$proved" sim
            most "$room/plain" sim
            ;;
        cluster)
            : >"$room/input"
            most "$proved" cluster --nodes 64 --workers 1 --turns 10000
            most "$room/plain" cluster 64 1 10000
            ;;
        steps)
            : >"$room/input"
            most "$PWD/crates/rapid_bench/out/rapid_bench" steps
            most "$room/plain" steps
            ;;
        worlds)
            : >"$room/input"
            most "$PWD/crates/rapid_bench/out/rapid_bench" world_200
            most "$room/plain" worlds 200 2
            ;;
        *)
            echo "no input is called $word" >&2
            exit 1
            ;;
    esac
done
