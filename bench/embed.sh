#!/usr/bin/env bash
# bench/embed.sh [ROUNDS]: what a call costs from C (include/jinavoke.h over crates/tl_embed), beside the bank's own
# call in Rattle (crates/bench_bank).
# bench/embed.sh OLD NEW [ROUNDS]: what it costs from C in two checkouts, each by its own header and archive; embed.c
# is that of this checkout in both.
# bench/embed.sh count OLD NEW: the same in instructions, which no load disturbs, by one run of each under valgrind.
# Prints a table: nanoseconds a call, of ROUNDS (100) short rounds the least and the median. Both sides run by turns,
# so that they meet the same load of the machine. What is measured is what was proved and built last: the script makes
# none of it, and says the command where it is missing (status 1). Needs gcc or clang.
set -euo pipefail
export LC_ALL=C
here=$(cd "$(dirname "$(readlink -f "${BASH_SOURCE[0]}")")" && pwd)
# shellcheck source=scripts/lib.sh
. "$here/../scripts/lib.sh"
calls=5000 unit=ns flags=(-std=c99 -O2)

stop() { # STATUS MESSAGE
    echo "bench/embed.sh: $2" >&2
    exit "$1"
}
if [ "${1:-}" = count ]; then
    shift
    [ $# = 2 ] || stop 2 "count wants two checkouts"
    unit=instructions
    flags+=(-DCOUNTED)
fi
case $# in
    0 | 1) old='' new=$top rounds=${1:-100} heads='C Rattle' ;;
    2 | 3) old=$1 new=$2 rounds=${3:-100} heads='OLD NEW' ;;
    *) stop 2 "usage: embed.sh [ROUNDS], embed.sh OLD NEW [ROUNDS], or embed.sh count OLD NEW" ;;
esac
[[ $rounds =~ ^[1-9][0-9]*$ ]] || stop 2 "$rounds is no number of rounds"

needs() { # FILE FOLDER COMMAND: what makes it, where it is missing
    [ -f "$1" ] || stop 1 "there is no $1: (cd $2 && $3) proves and builds it"
}
kit=$(kit_folder) || stop 1 "the Rattle kit's rt is not on the path"
cc=$(command -v "${CC:-gcc}" || command -v clang) || stop 1 "there is no C compiler"
out=$(mktemp -d)
trap 'rm -rf "$out"' EXIT

build() { # CHECKOUT SIDE: embed.c over its header and archive
    local crate=$1/crates/$library
    needs "$crate/out/lib$library.a" "$crate" "rt lib"
    "$cc" "${flags[@]}" -I "$1/include" "$here/embed.c" "$crate/out/lib$library.a" "$kit/c/liblibc_c.a" -o "$out/$2"
}
from_c() { # SIDE: lines WORK SIDE NANOSECONDS
    "$out/$1" "$calls" | awk -v side="$1" '{ print $1, side, $2 }'
}
from_rattle() { # WORK CLIENTS CALLS_A_CYCLE: the last of three rounds, which finds the pages of its log touched
    "$(made_of bench_bank)" "$1" "$calls" "$2" 64 4 16 8 64 4096 1 3 | awk -v work="$1" -v calls="$((calls * $3))" '
        { nanos = $6 }
        END { printf "%s right %.2f\n", work, nanos / calls }'
}
counted() { # SIDE: lines WORK SIDE INSTRUCTIONS
    local dump
    valgrind --quiet --tool=callgrind --callgrind-out-file="$out/dump" "$out/$1" "$calls" > "$out/calls"
    for dump in "$out"/dump.*; do
        sed -n 's/^desc: Trigger: Client Request: //p; s/^totals: //p' "$dump" | paste -s -d ' '
    done | awk -v side="$1" '
        FNR == NR { calls[$1] = $3; next }
        $1 in calls { printf "%s %s %.1f\n", $1, side, $2 / calls[$1] }' "$out/calls" -
    rm "$out"/dump*
}

if [ -n "$old" ]; then
    build "$old" left
    build "$new" right
    right() { from_c right; }
else
    build "$new" left
    needs "$(made_of bench_bank)" "$top/crates/bench_bank" "rt run"
    right() {
        for work in loads stores refused views; do from_rattle "$work" 16 1; done
        from_rattle ping-pong 2 9
    }
fi
if [ $unit = ns ]; then
    for round in $(seq "$rounds"); do
        if ((round % 2)); then
            from_c left
            right
        else
            right
            from_c left
        fi
    done
else
    counted left
    counted right
fi > "$out/costs"

sort -k1,2 -k3,3n "$out/costs" | awk -v unit=$unit -v heads="$heads" '
    { key = $1 " " $2; costs[key, ++count[key]] = $3 }
    function least(work, side) { return costs[work " " side, 1] }
    function median(work, side, n) {
        n = count[work " " side]
        return (costs[work " " side, int((n + 1) / 2)] + costs[work " " side, int((n + 2) / 2)]) / 2
    }
    function cells(left, right) {
        if (!right) return sprintf(" %.1f | | |", left)
        return sprintf(" %.1f | %.1f | %.2f |", left, right, left / right)
    }
    function row(work, text) {
        if (!count[work " left"] && !count[work " right"]) return # of no work that was counted
        text = "| " text " |" cells(least(work, "left"), least(work, "right"))
        print unit == "ns" ? text cells(median(work, "left"), median(work, "right")) : text
    }
    END {
        split(heads, head, " ")
        three = " " head[1] " | " head[2] " | " head[1] " / " head[2] " |"
        print unit == "ns" ? "| ns a call, least, then median |" three three : "| instructions a call |" three
        print unit == "ns" ? "|---|---|---|---|---|---|---|" : "|---|---|---|---|"
        row("loads", "`jv_load`")
        row("stores", "`jv_store`")
        row("refused", "`jv_advance`, refused")
        row("ping-pong", "a block goes from one client to the other, nine calls each time")
        row("seen", "the same, where the clients\047 messages are seen (`jv_saw`)")
        row("views", "`jv_perm`")
        row("copy", "`jv_copy`")
        row("home", "`jv_home_copy`")
        row("memory", "`jv_memory_block`")
        row("event", "`jv_event`")
        row("waiting", "`jv_waiting`, a message with bytes")
        row("message", "`jv_message`, likewise")
        row("reserve", "`jv_reserve`")
        row("many", "a load, 64 at once (`jv_calls`)")
        row("events", "an event, 32 read at once (`jv_read`)")
        row("forget", "`jv_forget`")
        row("unread-loads", "`jv_load`, behind a `jv_forget`")
        row("drain", "`jv_drain`, an event: 16 clients each ask to write the block that its neighbour has")
        row("unread-ping-pong", "a block goes from one client to the other, each of the nine calls behind a `jv_forget`")
    }'
