#!/usr/bin/env python3
"""trace.py [--svg FILE] [--save FILE] [--events FILE] TRACE: a simulator in Python over a trace of accesses.

A trace has a line for each access, in the order in which its core makes them:

    load 0x80001000 8 0        address, size in bytes (1 to 8, within a block), core
    store 0x80001008 8 1

Each core has an L1 of 64 lines and makes one access at a time; Jinavoke is the cache below, over 1 GiB of memory. The
counts are printed; `--svg` draws how long Acquires took, `--save` keeps the home at the end, `--events` writes a record
for `tlcheck`. With `--random LINES` a trace of so many lines is written to TRACE, and nothing else is done. `--library`
names a libjinavoke_dpi.so that is not installed. Status 1 where a load was wrong or a fault was told, 2 where the trace
cannot be read. docs/SIMULATOR.md explains it.
"""
import argparse
import heapq
import random
import sys

import jinavoke

BASE, BLOCK, MEMORY = 0x80000000, 64, 1 << 30
ACQUIRE, GRANT_DATA, RELEASE, RELEASE_ACK, PROBE_ACK = 6, 5, 6, 6, 4
N_TO_B, N_TO_T, B_TO_T = 0, 1, 2
T_TO_B, T_TO_N, B_TO_N, B_TO_B, N_TO_N = 0, 1, 2, 4, 5
TO_T, TO_B = 0, 1


class Line:
    """A block in an L1."""

    def __init__(self):
        self.is_tip, self.is_dirty, self.data = False, False, bytearray(BLOCK)


class Core:
    """A core with its L1."""

    def __init__(self, link, accesses, newest, most=64):
        self.link, self.accesses, self.newest, self.most = link, accesses, newest, most
        self.lines, self.at, self.releasing, self.wrong = {}, 0, None, 0

    def act(self):
        """Makes the next access, or asks for its block; whether the core has something to do in the next cycle."""
        if self.at == len(self.accesses):
            return False
        is_store, address, size = self.accesses[self.at]
        block = address // BLOCK * BLOCK
        line = self.lines.get(block)
        if line and (line.is_tip or not is_store):
            self.done(is_store, address, size, line)
            return self.at < len(self.accesses)
        if not line and len(self.lines) == self.most:
            return self.release()
        self.link.a(ACQUIRE, B_TO_T if line else N_TO_T if is_store else N_TO_B, 0, block)
        return False

    def done(self, is_store, address, size, line):
        """A hit: the home is told, and the scoreboard compares."""
        at = address % BLOCK
        if is_store:
            line.data[at:at + size] = (self.at * 64 + self.link.number).to_bytes(8, "little")[:size]
            line.is_dirty = True
            self.newest.update(enumerate(line.data[at:at + size], address))
            self.link.store(address, line.data[at:at + size])
        else:
            got = line.data[at:at + size]
            self.wrong += any(self.newest.get(address + i, 0) != byte for i, byte in enumerate(got))
            self.link.load(address, got)
        self.at += 1

    def release(self):
        """Gives up the line that came first."""
        block, line = next(iter(self.lines.items()))
        del self.lines[block]
        self.releasing = block
        self.link.c(RELEASE + line.is_dirty, T_TO_N if line.is_tip else B_TO_N, 0, block,
                    bytes(line.data) if line.is_dirty else b"")
        return False

    def hear(self):
        """Takes what home offers; whether the core has something to do in the next cycle."""
        beat, heard = self.link.d(), False
        if beat:
            self.link.d_taken()
            heard = True
            if beat.opcode == RELEASE_ACK:
                self.releasing = None
            else:
                self.granted(beat)
        probe = self.link.b()
        if probe and probe.address != self.releasing:  # no answer before the ReleaseAck
            self.link.b_taken()
            self.answer(probe)
        return heard

    def granted(self, beat):
        line = self.lines.setdefault(self.accesses[self.at][1] // BLOCK * BLOCK, Line())
        if beat.opcode == GRANT_DATA:
            line.data[:] = beat.data
        line.is_tip, line.is_dirty = beat.param == TO_T, False
        self.link.e(beat.sink)

    def answer(self, probe):
        line, to_branch = self.lines.get(probe.address), probe.param == TO_B
        if not line:
            return self.link.c(PROBE_ACK, N_TO_N, 0, probe.address)
        report = (T_TO_B if to_branch else T_TO_N) if line.is_tip else B_TO_B if to_branch else B_TO_N
        data = bytes(line.data) if line.is_dirty else b""
        line.is_tip = line.is_dirty = False
        if not to_branch:
            del self.lines[probe.address]
        return self.link.c(PROBE_ACK + bool(data), report, 0, probe.address, data)


def simulate(home, cores):
    """The event queue: each entry is a cycle and the core that acts in it."""
    queue = [(home.cycle + 1, k) for k in range(len(cores))]
    while not all(core.at == len(core.accesses) for core in cores) or not home.flush():
        due = [it for it in (home.next_due(), queue[0][0] if queue else None) if it is not None]
        now = min(due, default=home.cycle + 1)
        home.advance_to(now)
        for k, core in enumerate(cores):
            if core.hear():
                heapq.heappush(queue, (now + 1, k))
        while queue and queue[0][0] <= now:
            _, k = heapq.heappop(queue)
            if cores[k].act():
                heapq.heappush(queue, (now + 1, k))


def drawn(latency):
    """A picture of how long Acquires took: a bar for each power of two."""
    bars = sorted((int(first), count) for first, count in latency["from"].items())
    most, width, parts = max(count for _, count in bars), 60, []
    for i, (first, count) in enumerate(bars):
        height, x = 200 * count / most, 20 + i * width
        parts += [f'<rect x="{x}" y="{230 - height:.1f}" width="{width - 10}" height="{height:.1f}" fill="#4a7ba6"/>',
                  f'<text x="{x + 25}" y="{225 - height:.1f}">{count}</text>',
                  f'<text x="{x + 25}" y="248">{first}</text>']
    size = 40 + width * len(bars)
    return (f'<svg xmlns="http://www.w3.org/2000/svg" width="{size}" height="280" font-family="sans-serif" '
            f'font-size="11" text-anchor="middle">\n' + "\n".join(parts) +
            f'\n<text x="{size / 2}" y="270">cycles from an Acquire to its Grant, from so many on: mean '
            f'{latency["mean"]:.1f}</text>\n</svg>\n')


def random_trace(file, lines, seed=1):
    """A trace of 4 cores, half of whose accesses are to 4 KiB that they share."""
    rng = random.Random(seed)
    for _ in range(lines):
        at = rng.randrange(4096 if rng.randrange(2) else MEMORY) // 8 * 8
        print(rng.choice(("load", "store")), hex(BASE + at), 8, rng.randrange(4), file=file)


def read_trace(file):
    """The accesses of each core; ValueError where a line is none."""
    accesses = {}
    for number, line in enumerate(file, 1):
        words = line.split("#")[0].split()
        if not words:
            continue
        try:
            kind, address, size, core = words
            address, size, core = int(address, 0), int(size, 0), int(core, 0)
            is_well = 1 <= size <= 8 and address % BLOCK + size <= BLOCK and BASE <= address < BASE + MEMORY
            if kind not in ("load", "store") or not is_well or not 0 <= core < 16:
                raise ValueError("no such access")
        except ValueError:
            raise ValueError(f"line {number} is no access: {line.strip()}") from None
        accesses.setdefault(core, []).append((kind == "store", address, size))
    return [accesses.get(core, []) for core in range(max(accesses, default=0) + 1)]


def main():
    words = argparse.ArgumentParser(description="a simulator over a trace of accesses")
    words.add_argument("--random", type=int, metavar="LINES")
    words.add_argument("--svg")
    words.add_argument("--save")
    words.add_argument("--events", default="")
    words.add_argument("--library")
    words.add_argument("trace")
    given = words.parse_args()
    if given.random is not None:
        with open(given.trace, "w", encoding="ascii") as file:
            random_trace(file, given.random)
        return 0
    with open(given.trace, encoding="ascii") as file:
        accesses = read_trace(file)
    home = jinavoke.Home(path=given.library, clients=len(accesses), banks=1, blocks=4096, sets=64, ways=4, base=BASE,
                         beat_bytes=64, pace=1, memory_bytes=MEMORY, events=given.events,
                         latencies={"A": 4, "B": 4, "C": 4, "D": 4, "E": 2, "MEMORY_A": 10, "MEMORY_D": 10})
    newest = {}
    cores = [Core(link, its, newest) for link, its in zip(home.links, accesses)]
    simulate(home, cores)
    print(home.counts_text(), end="")
    if given.svg:
        with open(given.svg, "w", encoding="ascii") as file:
            file.write(drawn(home.counts()["all"]["latency"]))
    if given.save:
        home.save(given.save)
    wrong, faults = sum(core.wrong for core in cores), home.faults()
    print(faults, end="")
    print(f"{home.cycle} cycles, {wrong} wrong, {home.fault_count()} faults")
    home.close()
    return 1 if wrong or faults else 0


if __name__ == "__main__":
    try:
        sys.exit(main())
    except (ValueError, OSError) as why:
        print(f"trace.py: {why}", file=sys.stderr)
        sys.exit(2)
