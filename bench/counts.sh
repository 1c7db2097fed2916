#!/usr/bin/env bash
# bench/counts.sh [ACCESSES [ROUNDS]]: what a home's counts cost in a simulator (examples/sim/queue.cpp over
# include/jinavoke.hpp): the program as it is, beside one over a copy of the headers without each line that only counts.
# Prints instructions an access by one run of each under valgrind, which no load disturbs, and seconds of processor time
# of ACCESSES (200000) accesses, by turns, of ROUNDS (5) rounds the least and the median. Status 1 where what is left
# out still counts, or the two runs end with other bytes. What is measured is what was proved and built last. Needs gcc
# or clang, and valgrind.
set -euo pipefail
export LC_ALL=C
here=$(cd "$(dirname "$(readlink -f "${BASH_SOURCE[0]}")")" && pwd)
# shellcheck source=scripts/lib.sh
. "$here/../scripts/lib.sh"
accesses=${1:-200000} rounds=${2:-5} few=20000

stop() { # STATUS MESSAGE
    echo "bench/counts.sh: $2" >&2
    exit "$1"
}
[[ $accesses =~ ^[1-9][0-9]*$ && $rounds =~ ^[1-9][0-9]*$ ]] || stop 2 "usage: counts.sh [ACCESSES [ROUNDS]]"
kit=$(kit_folder) || stop 1 "the Rattle kit's rt is not on the path"
cxx=$(command -v "${CXX:-g++}" || command -v clang++) || stop 1 "there is no C++ compiler"
archive=$(made_of "$library")
[ -f "$archive" ] || stop 1 "there is no $archive: ./prove $library proves and builds it"
out=$(mktemp -d)
trap 'rm -rf "$out"' EXIT

# The headers without what only counts: each such statement is an empty one.
cp -r "$top/include" "$out/uncounted"
sed -Ei -e '/&me = counts_/! s/\bcounts_(\[|\.clients\[|\.polls\[)[^;]*;/;/g' \
    -e 's/\b(in_flight|crossings)_(\+\+|--);/;/g' \
    -e 's/(^ +|\) )count_(grant|c|acquire|access)\([^;]*\);/\1;/' -e 's/^ +fresh_\[[^;]*;/;/' -e 's/\bregisters_--;/;/' \
    "$out"/uncounted/jinavoke.hpp "$out"/uncounted/jinavoke_simulator.hpp
build() { # SIDE HEADERS
    "$cxx" -std=c++17 -O2 -I "$2" "$top/examples/sim/queue.cpp" "$archive" "$kit/c/liblibc_c.a" -o "$out/$1"
}
build with "$top/include"
build without "$out/uncounted"

ends() { "$out/$1" accesses=$few > "$out/$1.said" || stop 1 "queue ends with a fault"; tail -n 1 "$out/$1.said"; } # SIDE
with=$(ends with) without=$(ends without)
[ "$with" = "$without" ] || stop 1 "the two end otherwise: $with; $without"
grep -q '^loads ' "$out/with.said" || stop 1 "what counts does not"
[ "$(grep -c '^clients \|^home$' "$out/without.said")" = 2 ] || stop 1 "queue's output is another"
! sed '$d' "$out/without.said" | sed '$d' | grep -v '^clients \|^home$' || stop 1 "what is left out still counts"

instructions() { # SIDE ACCESSES
    valgrind --tool=callgrind --callgrind-out-file=/dev/null "$out/$1" accesses="$2" 2>&1 > "$out/said" |
        sed -n 's/^==.* Collected : //p'
}
seconds() { # SIDE: of processor time
    local TIMEFORMAT='%U %S'
    { time "$out/$1" accesses="$accesses" > "$out/said"; } 2>&1 | awk '{ printf "%.2f\n", $1 + $2 }'
}
for side in with without; do
    awk -v all="$(instructions $side $few)" -v none="$(instructions $side 16)" -v n="$((few - 16))" -v side=$side \
        'BEGIN { printf "%.1f\n", (all - none) / n }' > "$out/$side.instructions"
done
for round in $(seq "$rounds"); do
    if ((round % 2)); then sides='with without'; else sides='without with'; fi
    for side in $sides; do seconds "$side" >> "$out/$side.seconds"; done
done
ordered() { sort -n "$out/$1.seconds"; }
least() { ordered "$1" | sed -n 1p; }
median() { ordered "$1" | sed -n "$(((rounds + 1) / 2))p"; }
row() { # NAME WITH WITHOUT
    awk -v name="$1" -v with="$2" -v without="$3" \
        'BEGIN { printf "%-30s %12s %12s %8.3f\n", name, with, without, with / without }'
}
printf '%-30s %12s %12s %8s\n' '' 'with counts' without ratio
row 'instructions an access' "$(cat "$out/with.instructions")" "$(cat "$out/without.instructions")"
row "seconds, the least of $rounds" "$(least with)" "$(least without)"
row 'seconds, the median' "$(median with)" "$(median without)"
