#!/usr/bin/env python3
"""A long run of the bench without a fault, and many with one at a random moment: soak.py BENCH [CYCLES [TRIALS]].

Prints what each kind of damage or plant came to: seen first (or at the same time) by Jinavoke, by the scoreboard alone,
or by neither. Status 1 where the long run has a fault, or the scoreboard was first with what the protocol can see.
"""
import os
import random
import re
import subprocess
import sys

DAMAGES = "flip-c flip-d param-c drop-b drop-c drop-d drop-e size-c".split()
PLANTS = """lost-data lost-writeback silent-upgrade kept-copy early-answer early-acquire wrong-report torn-refill
    shifted-burst second-grant-ack lost-probe lost-release-beats deaf-b other-source""".split()
LAWFUL = "early-grant-ack clean-data late-btot".split()
# A client that hears no more of its Release is silent, and lawful for ever: nobody on the links can see that.
SILENT = ["drop-c", "drop-d"]
LINE = re.compile(r"(\d+) faults(?:, the first at (\d+))?; (\d+) by the scoreboard(?:, the first at (\d+))?; "
                  r"(?:\d+ drops inferred, \d+ evictions for room; )?"
                  r"(\d+) cycles a second, (\d+) KiB")


def run(bench, **words):
    """The cycles of the first fault and of the first word of the scoreboard, cycles a second, and KiB at most."""
    command = [bench, "quiet=1", *(f"{k}={v}" for k, v in words.items())]
    text = subprocess.run(command, stdout=subprocess.PIPE, text=True, check=False).stdout
    found = LINE.search(text)
    if not found:
        raise SystemExit(f"soak: the bench ended without a word: {text}")
    return [int(found[n]) if found[n] else None for n in (2, 4)] + [int(found[5]), int(found[6])]


def long_runs(bench, cycles):
    """Whether the long run has no fault; its figures beside those of a home without a model."""
    for words in dict(cycles=cycles // 10), dict(), dict(plain=1), dict(taps=0):
        words = {"cycles": cycles, **words}
        fault, wrong, speed, memory = run(bench, seed=1, stall=4, **words)
        print(f"{words}: fault {fault}, scoreboard {wrong}, {speed:,} cycles a second, {memory:,} KiB", flush=True)
        if fault or wrong:
            return False
    return True


def trials(bench, kind, names, count, rng):
    """Runs with each of these at a random moment; how many were first told by the scoreboard."""
    missed = 0
    for name in names:
        tally = dict(jinavoke=0, scoreboard=0, neither=0)
        for _ in range(count):
            at = rng.randrange(1000, 40000)
            words = {kind: name, "at": at, "seed": rng.randrange(1, 1 << 30), "cycles": at + 60000}
            fault, wrong, _, _ = run(bench, **words, **({"for": 2000} if kind == "plant" else {}))
            first = "neither" if fault is None and wrong is None else \
                "jinavoke" if wrong is None or fault is not None and fault <= wrong else "scoreboard"
            tally[first] += 1
            if first == "scoreboard" and name not in SILENT:
                print(f"scoreboard first: {words}", flush=True)
        missed += 0 if name in SILENT else tally["scoreboard"]
        print(f"{name}: {tally}", flush=True)
        if name in LAWFUL and tally["neither"] != count:
            missed += 1
    return missed


def main():
    bench = os.path.abspath(sys.argv[1])
    cycles, count = (int(word) for word in (sys.argv[2:] + ["10000000", "20"][len(sys.argv) - 2:]))
    rng = random.Random(1)
    is_well = long_runs(bench, cycles)
    missed = trials(bench, "damage", DAMAGES, count, rng) + trials(bench, "plant", PLANTS + LAWFUL, count, rng)
    return 0 if is_well and not missed else 1


if __name__ == "__main__":
    sys.exit(main())
