#!/usr/bin/env python3
"""sets.py TLWIRE [LINES] [RECORDS] [SEED] [CLIENTS,..]: longer records of messages of many clients, given to tlwire
under each premise.

Random walks of the plain protocol of closed.py are written as records of about so many lines (60,000 at most: a source
has 70,000 numbers), of 1 to 16 clients over one to four blocks, in three ways of seeing: between sending and taking, at
home's pins, at the clients' pins; all watched, or nobody the memory's link or the cores. Each is given to tlwire as it
is, and damaged in one place. Prints for each number of clients and way how many of both were explained, not decided and
impossible, and the slowest answer; and ends with status 1 where a record that a run makes is called impossible. No
exhaustive search of such records ends: so of the damaged ones it is not known which have a run.
"""
import os
import random
import subprocess
import sys
import tempfile
import time
from concurrent.futures import ThreadPoolExecutor

import closed

WAYS = ("between", "home", "clients")
ANSWERS = ("explained", "not decided", "impossible")


def made(rng, clients, lines, way, free):
    """A record of about so many lines, and the same damaged in one place; None where the walk is not
    seen so, or an exchange is out of order."""
    walk = closed.Walk(rng, clients, rng.choice([1, 2, 4]), 8, 2 * lines, rng.random() < 0.6)
    what = closed.seen(walk, way, 0, False)
    if what is None:
        return None
    there = [m for m in what[0] if m["wire"][0] not in free][:lines]
    header = closed.HEADERS[way] + [closed.UNSEEN[link] for link in free]
    both = [closed.text(it, walk, header) for it in (there, closed.damaged(rng, there))]
    return both if all(both) else None


def asked(program, record):
    """What tlwire answers, and in how many seconds."""
    with tempfile.NamedTemporaryFile("w", suffix=".txt") as file:
        file.write(record)
        file.flush()
        begin = time.monotonic()
        run = subprocess.run([program, file.name], capture_output=True, text=True)
        seconds = time.monotonic() - begin
    return run.stdout.split(":")[0] if run.stdout else "fault", seconds


def tried(program, clients, lines, way, free, seed):
    rng = random.Random(f"{clients} {way} {free} {seed}")
    both = None
    while both is None:
        both = made(rng, clients, lines, way, free)
    return [asked(program, record) for record in both]


def main():
    arguments = sys.argv[2:] + [None] * 4
    program, lines, records, seed = sys.argv[1], *(int(a or b) for a, b in zip(arguments, (1000, 20, 0)))
    several = [int(n) for n in (arguments[3] or "1,2,4,8,12,16").split(",")]
    wrong = 0
    print(f"{'clients':>7} {'seen':8} {'watched':15} {'lawful: ' + ' / '.join(ANSWERS):45} {'damaged':>15}  slowest, s")
    with ThreadPoolExecutor(os.cpu_count()) as pool:
        for clients in several:
            for way in WAYS:
                for free in ((), ("m",), ("core",)):
                    rows = list(pool.map(lambda n: tried(program, clients, lines, way, free, seed + n), range(records)))
                    counts = [[[row[i][0] for row in rows].count(answer) for answer in ANSWERS] for i in (0, 1)]
                    slowest = max(seconds for row in rows for _, seconds in row)
                    wrong += counts[0][2]
                    watched = closed.UNSEEN[free[0]] if free else "all watched"
                    words = [" / ".join(map(str, count)) for count in counts]
                    print(f"{clients:7} {way:8} {watched:15} {words[0]:45} {words[1]:>15} {slowest:9.2f}", flush=True)
    print(f"{wrong} wrong answers")
    sys.exit(1 if wrong else 0)


if __name__ == "__main__":
    main()
