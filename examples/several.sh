# What the scripts of several processes share: sourced, not run. They set `program` and `first`, a port.
room=$(mktemp -d)
declare -a pids helpers

stop_all() {
    local pid
    for pid in "${pids[@]}" "${helpers[@]}"; do kill -9 "$pid" 2>/dev/null; done
    rm -rf "$room"
}
trap stop_all EXIT

endpoint() { echo "127.0.0.1:$((first + $1))"; }

# starts process $1, which joins by process 0; its lines go to $2, or to out.$1
start() {
    local words=("$(endpoint "$1")")
    (($1 > 0)) && words+=("$(endpoint 0)")
    "$program" "${words[@]}" >>"${2:-$room/out.$1}" 2>"$room/err.$1" &
    pids[$1]=$!
    disown $!
}

# does a command until it succeeds, for 30 seconds at most, which a busy machine may take
in_time() {
    local look
    for ((look = 0; look < 600; look++)); do
        "$@" && return 0
        sleep 0.05
    done
    return 1
}

# the last view that each of these processes printed has this many members, and they are at one height
have() {
    local members=$1 number height
    shift
    for number in "$@"; do
        [[ "$(grep "^height" "$room/out.$number" | tail -n 1)" == *" members $members "* ]] || return 1
    done
    height=$(for number in "$@"; do grep "^height" "$room/out.$number" | tail -n 1 | cut -d' ' -f2; done | sort -u)
    [[ "$height" != *$'\n'* ]]
}

# these processes come to a view of this many members; what each prints of it
come_to() {
    local members=$1 number
    shift
    in_time have "$members" "$@" || fail "they have not come to $members members:"
    for number in "$@"; do
        echo "  process $number: $(grep "^height" "$room/out.$number" | tail -n 1)"
    done
}

fail() {
    echo "$1"
    tail -n 5 "$room"/out.* "$room"/err.*
    exit 1
}
