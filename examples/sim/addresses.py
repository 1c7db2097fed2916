#!/usr/bin/env python3
"""addresses.py RECORD ..: judges records of events of a home behind a window by the addresses of the memory.

`tlcheck` judges such a record over the numbers of the banks. Its lines `# window NUMBER ADDRESS` say which block a
number stands for from there on; what stands behind a line `# inferred` nobody saw on the links. Here each number's
accesses are taken back to the memory: a load has to get what was last stored at its address, through whichever
number, or was poked there, and what is brought in at a number has to be the newest bytes of its address. Memory that
nothing was stored in is 0. It prints how many loads there were, or the first line that is wrong; status 1 then.
"""
import sys


def judged(name):
    """How many loads and how many blocks brought in; SystemExit where one is wrong."""
    block_bytes, window, memory = 0, {}, {}
    loads, stores, windows, inferred = 0, 0, 0, False

    def wrong(why):
        sys.exit(f"{name}:{number}: {why}: {line}")

    with open(name, encoding="ascii") as file:
        for number, line in enumerate(file, 1):
            line = line.rstrip("\n")
            words = line.split(" ")
            if number == 1:
                block_bytes = int(words[3])
            elif words[:2] == ["#", "window"]:
                window[int(words[2])] = int(words[3], 16)
                windows += 1
            elif words[:2] == ["#", "poke"]:
                memory.update(enumerate(bytes.fromhex(words[3]), int(words[2], 16)))
            elif words[:2] == ["#", "inferred"]:
                inferred = True
                continue
            elif words[0] in ("load", "store"):
                place, data = int(words[2], 16), bytes.fromhex(words[3])
                block = place // block_bytes
                if block not in window:
                    wrong("no window line says what this number stands for")
                at = window[block] + place % block_bytes
                newest = bytes(memory.get(at + i, 0) for i in range(len(data)))
                if (words[0] == "load" or inferred) and newest != data:
                    wrong(f"the newest bytes at {at:#x} are {newest.hex()}")
                memory.update(enumerate(data, at))
                loads += words[0] == "load"
                stores += words[0] == "store" and not inferred
            inferred = False
    return loads, stores, windows


for one in sys.argv[1:]:
    print("{}: {} loads, {} stores, {} window lines".format(one, *judged(one)))
