#!/usr/bin/env bash
# bench/bank.sh [PROGRAM [PROGRAM]]: what an event of one bank costs in one thread, in nanoseconds: misses, hits,
# streams and races, and growth over clients, copies, blocks and bytes of a block. With no word it measures
# crates/bench_bank of this repository, proved and built first. With two programs (for instance a copy of an earlier
# build of crates/bench_bank/out/bench_bank) it runs them in turn, so that both meet the same load of the machine,
# compares what they did, and prints their ratio. ROUNDS (20) says how often each row is run; the least of them counts.
set -eu
here=$(cd "$(dirname "$(readlink -f "${BASH_SOURCE[0]}")")" && pwd)
if [ $# -eq 0 ]; then
    "$here/../prove" bench_bank
    set -- "$here/../crates/bench_bank/out/bench_bank"
fi
exec python3 -B "$here/bank.py" "$@"
