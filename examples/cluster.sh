#!/bin/bash
# Starts five nodes on loopback, one of them with tags, prints their views, kills one of them, prints
# the view without it, lets another leave, and stops the others. It ends within half a minute, and
# leaves nothing behind.
# Run it once the program is built: ./check program
set -u
top=$(cd "$(dirname "${BASH_SOURCE[0]}")/.." && pwd)
program=${RAPIDD:-$top/crates/rapidd/out/rapidd}
first=${FIRST_PORT:-7471}
[ -x "$program" ] || { echo "$program is not built: run $top/check program" >&2; exit 2; }
room=$(mktemp -d)
declare -a pids holds

stop_all() {
    for pid in "${pids[@]}"; do kill "$pid" 2>/dev/null; done
    rm -rf "$room"
}
trap stop_all EXIT

# starts node $1 with the words that follow; its input stays open while this script runs
start() {
    local number=$1 hold
    shift
    mkfifo "$room/in.$number"
    exec {hold}<>"$room/in.$number"
    "$program" node --listen "127.0.0.1:$((first + number))" --tick-ms 20 "$@" \
        <"$room/in.$number" >"$room/out.$number" 2>"$room/err.$number" &
    pids[number]=$!
    holds[number]=$hold
}

# waits until the last line of each node given has this many members, for 10 seconds at most
wait_for() {
    local members=$1 look number words
    shift
    for ((look = 0; look < 100; look++)); do
        for number in "$@"; do
            words=$(tail -n 1 "$room/out.$number" | wc -w)
            ((words == members + 3)) || { sleep 0.1; continue 2; }
        done
        return 0
    done
    return 1
}

# prints what the nodes given have printed, the node before each line
show() {
    local number
    for number in "$@"; do sed "s/^/node $number: /" "$room/out.$number" "$room/err.$number"; done
}

start 0
start 1 --join "127.0.0.1:$first" --tags db,zone-a
for number in 2 3 4; do start "$number" --join "127.0.0.1:$first"; done
wait_for 5 0 1 2 3 4 || { echo "the five nodes have not come together:"; show 0 1 2 3 4; exit 1; }
echo "Five nodes, each of which prints every view that it enters:"
show 0 1 2 3 4

began=$(date +%s%N)
disown "${pids[4]}"
kill -9 "${pids[4]}"
wait_for 4 0 1 2 3 || { echo "the others have not noticed:"; show 0 1 2 3; exit 1; }
echo "Node 4 was killed. The others' last view, $((($(date +%s%N) - began) / 1000000)) ms later:"
for number in 0 1 2 3; do echo "node $number: $(tail -n 1 "$room/out.$number")"; done

began=$(date +%s%N)
echo leave >&"${holds[3]}"
wait_for 3 0 1 2 3 || { echo "node 3 has not left:"; show 0 1 2 3; exit 1; }
echo "Node 3 left. The last view, which it printed too, $((($(date +%s%N) - began) / 1000000)) ms later:"
for number in 0 1 2 3; do echo "node $number: $(tail -n 1 "$room/out.$number")"; done

for number in 0 1 2 3; do echo quit >&"${holds[number]}"; done
for number in 0 1 2 3; do
    wait "${pids[number]}"
    echo "node $number ended with status $?"
done
