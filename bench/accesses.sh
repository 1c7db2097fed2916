#!/usr/bin/env bash
# bench/accesses.sh [PROGRAM [PROGRAM]]: a table of accesses a second, milliseconds and pages touched for hits, readers,
# contention, one block, a mix, streams and a run of no command (idle), over clients and banks.
# With no word it measures the program of this repository, proved and built first. With two programs (for instance a
# copy of an earlier build of crates/tlcache/out/tlcache) it runs them in turn on the same scripts, so that both meet
# the same load of the machine, and prints their ratio. KINDS="hits streams" and SHAPES="1x1 4x4" (clients x banks)
# choose a part; REPEATS (5) says how often each script is run. Twelve scripts that tell a change of memory from one of
# time: KINDS="idle hits contention streams" SHAPES="1x1 4x4 16x8".
set -eu
here=$(cd "$(dirname "$(readlink -f "${BASH_SOURCE[0]}")")" && pwd)
if [ $# -eq 0 ]; then
    "$here/../prove" tlcache
    set -- "$here/../crates/tlcache/out/tlcache"
fi
exec python3 -B "$here/measure.py" "$@"
