#!/bin/bash
# Runs a node that joins a cluster, and starts another in its place if that may do better:
#
#   examples/supervise.sh --listen 127.0.0.1:7482 --tick-ms 100 --join 127.0.0.1:7481
#
# It takes the options of `rapidd node` without --id: a process never comes back as itself, so each
# start draws a fresh identifier. It wants --join, since a founder that is started again founds
# another cluster, and --tick-ms, since a node without ticks joins nobody. The views go to standard
# output, and all else to standard error. SIGTERM, SIGINT or SIGHUP to this script has the node quit.
set -u
case ${1:-} in -h | --help) sed -n '2,/^set/ s/^# \{0,1\}//p' "$0"; exit 0 ;; esac
top=$(cd "$(dirname "${BASH_SOURCE[0]}")/.." && pwd)
program=${RAPIDD:-$top/crates/rapidd/out/rapidd}
refuse() { echo "supervise: $1" >&2; exit 2; }
[ -x "$program" ] || refuse "$program is not built: run $top/check program"
endpoint=
for ((at = 1; at <= $#; at++)); do
    case ${!at} in
        --id | --id=*) refuse "an identifier is never used twice, so leave out --id" ;;
        --listen=*) endpoint=${!at#--listen=} ;;
        --listen) next=$((at + 1)) endpoint=${!next:-} ;;
    esac
done
[ -n "$endpoint" ] || refuse "--listen ENDPOINT is missing"
[[ " $* " == *" --join"[\ =]* ]] || refuse "--join ENDPOINT is missing"
[[ " $* " == *" --tick-ms"[\ =]* ]] || refuse "--tick-ms NUMBER is missing"

# a node's threads share one heap of glibc, and what a long frame took goes back to the system
export MALLOC_ARENA_MAX=${MALLOC_ARENA_MAX:-1} MALLOC_MMAP_THRESHOLD_=${MALLOC_MMAP_THRESHOLD_:-16384}

room=$(mktemp -d)
mkfifo "$room/in"
exec 3<>"$room/in"              # the node's input, which stays open
told=
trap 'rm -rf "$room"' EXIT
trap 'told=yes; echo quit >&3' TERM INT HUP

# passes the views on; a view without this node's endpoint, which tags may follow, says that it is out
watch_views() {
    while IFS= read -r line; do
        echo "$line"
        [[ $line == height* && " $line " != *" $endpoint"[\ \[]* ]] || continue
        touch "$room/out"
        echo quit >&3
    done
}

# passes notes and faults on; a node ends after a fault, and is told to if it does not
watch_faults() {
    while IFS= read -r line; do
        echo "$line" >&2
        [[ $line == error:* ]] && echo quit >&3
    done
}

pause=1
while [ -z "$told" ]; do
    rm -f "$room/out"
    began=$SECONDS
    "$program" node "$@" <"$room/in" > >(watch_views) 2> >(watch_faults) &
    node=$!
    while wait "$node"; status=$?; kill -0 "$node" 2>/dev/null; do :; done
    sleep 0.2                                   # for what it said last
    while read -r -t 0.01 -u 3; do :; done      # lines that it did not take
    [ -z "$told" ] || exit 0
    why="ended with status $status"
    [ -e "$room/out" ] && why="was removed from its cluster"
    case $status in
        0) [ -e "$room/out" ] || exit 0 ;;
        2) exit 2 ;;
    esac
    ((SECONDS - began < 60)) || pause=1
    echo "supervise: the node $why; another starts in $pause s" >&2
    sleep "$pause"
    pause=$((pause < 32 ? pause * 2 : 60))
done
