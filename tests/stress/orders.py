#!/usr/bin/env python3
"""orders.py TLWIRE [RECORDS] [SEED]: lawful records of messages whose answers stand in another order over the blocks than
what they answer, and how many of them tlwire explains.

Random walks of the protocol, by the plain program of closed.py, in which each agent takes the messages of several blocks
in any order, are written as records of 20 to 400 lines, of 1 to 8 clients and 2 to 16 blocks, in each way of seeing. Kept
are those where a ProbeAck, a ReleaseAck or a GrantAck stands in another order than the Probes, Releases or Grants of its
link. Prints a table of the answers, and ends with status 1 where tlwire calls one impossible, or explains fewer than 99
percent of all.
"""
import os
import random
import subprocess
import sys
import tempfile
from concurrent.futures import ThreadPoolExecutor

import closed

# What is answered on a client's link, and by what.
ANSWERS = {
    "ProbeAck": (("ProbeBlock",), ("ProbeAck", "ProbeAckData")),
    "ReleaseAck": (("Release", "ReleaseData"), ("ReleaseAck",)),
    "GrantAck": (("Grant", "GrantData"), ("GrantAck",)),
}
WAYS = {"sent": ["skew 0"], "between": ["seen between"], "home": ["seen at home"], "clients": ["seen at clients"]}


def parted(lines, clients):
    """The answers that stand on some link in another order than what they answer."""
    found = set()
    for client in range(clients):
        own = [m for m in lines if m["wire"][:2] == ("c", client)]
        for name, (asked, answers) in ANSWERS.items():
            blocks = [[m["block"] for m in own if m["what"][0] in kinds] for kinds in (asked, answers)]
            if any(one != other for one, other in zip(*blocks)):
                found.add(name)
    return found


def record(seed):
    """A record, how it was seen, and which answers stand in another order; None where none do."""
    rng = random.Random(f"orders {seed}")
    lines, way = rng.choice([20, 50, 100, 200, 400]), rng.choice(list(WAYS))
    walk = closed.Walk(rng, rng.choice([1, 2, 3, 4, 8]), rng.choice([2, 3, 4, 8, 16]), 8, lines * 13 // 10 + 10, rng.random() < 0.5, False)
    what = closed.seen(walk, way, 0, False)
    if what is None:
        return None
    free = rng.choice([(), (), (), ("m",), ("core",)])
    there = [m for m in what[0] if m["wire"][0] not in free][:lines]
    names = parted(there, walk.clients)
    text = closed.text(there, walk, WAYS[way] + [closed.UNSEEN[link] for link in free]) if names else None
    return text and (text, way, names)


def tried(job):
    program, seed = job
    it = record(seed)
    if it is None:
        return None
    with tempfile.NamedTemporaryFile("w", suffix=".txt") as file:
        file.write(it[0])
        file.flush()
        run = subprocess.run([program, file.name], capture_output=True, text=True, timeout=600)
    return it[1], it[2], run.stdout.split(":")[0] if run.stdout else "fault"


def main():
    program, records, seed = sys.argv[1], int(sys.argv[2]) if len(sys.argv) > 2 else 1000, int(sys.argv[3]) if len(sys.argv) > 3 else 0
    ways, kinds, number = {}, {}, 0
    with ThreadPoolExecutor(os.cpu_count()) as pool:
        while number < records:
            for it in pool.map(tried, [(program, n) for n in range(seed, seed + records)]):
                if it is None or number >= records:
                    continue
                number += 1
                ways[it[0], it[2]] = ways.get((it[0], it[2]), 0) + 1
                for name in it[1]:
                    kinds[name, it[2]] = kinds.get((name, it[2]), 0) + 1
            seed += records
    for table in (ways, kinds):
        for row, count in sorted(table.items()):
            print(f"{count:7} {' '.join(row)}")
    explained = sum(count for row, count in ways.items() if row[1] == "explained")
    wrong = sum(count for row, count in ways.items() if row[1] not in ("explained", "not decided"))
    print(f"{number} records, {explained} explained, {wrong} called impossible or refused")
    sys.exit(1 if wrong or 100 * explained < 99 * number else 0)


if __name__ == "__main__":
    main()
