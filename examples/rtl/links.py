#!/usr/bin/env python3
"""Two small caches in plain Python on the links of a home, as a cocotb bench would drive them:
links.py [LIBRARY [threads]].

On buses and blocks of several sizes, without a plant no fault is told; with each one a fault of that client is, or none
where what is planted is lawful. What hangs is told as late. A bus that cannot be is refused, and so is a wrong use:
what is closed, a number that no wire carries, a record that cannot be written. Threads that share a home make their
calls one at a time (`threads`: that alone).
LIBRARY is libjinavoke_dpi.so, where it is not installed with the module. Status 1 where one is told otherwise.
"""
import os
import pathlib
import random
import sys
import tempfile
import threading

sys.path.append(str(pathlib.Path(__file__).resolve().parents[2] / "python"))
import jinavoke as jv  # noqa: E402

BASE, BLOCKS = 0x80000000, 4
NONE, BRANCH, TIP = range(3)
ACQUIRE_BLOCK, PROBE_ACK, PROBE_ACK_DATA, RELEASE, RELEASE_DATA, GRANT, RELEASE_ACK = 6, 4, 5, 6, 7, 4, 6
TO_T, TO_N = 0, 2
REPORT = {(TIP, BRANCH): 0, (TIP, NONE): 1, (BRANCH, NONE): 2, (BRANCH, BRANCH): 4, (NONE, NONE): 5}


class Line:
    def __init__(self, size):
        self.perm, self.dirty, self.bytes = NONE, False, bytearray(size)


class Client:
    """A cache of all blocks, with one Acquire and one Release at a time; `plant` is what it does wrong, or seems to."""

    def __init__(self, link, rng, plant=""):
        self.link, self.rng, self.plant = link, rng, plant
        self.size, self.bus = link.home.numbers["block_bytes"], link.home.numbers["beat_bytes"]
        self.lines = [Line(self.size) for _ in range(BLOCKS)]
        self.beats, self.grant = [], b""                # of C, to be sent; of a Grant, so far
        self.acquires, self.releases = None, None       # the block that is asked for; that is given up
        self.offers, self.acks = None, []               # on A; sinks to be acknowledged

    def cycle(self):
        goes = lambda: self.rng.random() < 0.7
        if goes() and self.plant != "deaf on D" and (beat := self.link.d()):
            self.link.d_taken()
            self.on_d(beat)
        hears = self.plant != "deaf on B" and not self.beats
        if goes() and hears and (beat := self.link.b()) and self.block_of(beat.address) != self.releases:
            self.link.b_taken()
            self.give_up(self.block_of(beat.address), NONE if beat.param == TO_N else BRANCH, PROBE_ACK)
        if goes() and self.beats and not (self.plant == "stuck burst" and len(self.beats) == 5):
            self.link.c(**self.beats.pop(0))
        if goes():
            self.work()
        if goes() and self.offers:
            self.link.a(**self.offers)
            self.offers = None
        if goes() and self.acks:
            self.link.e(self.acks.pop(0))

    def block_of(self, address):
        return (address - BASE) // self.size

    def lanes(self, block):
        """Where the bytes of a block lie on a bus that is wider."""
        return block * self.size % self.bus if self.size < self.bus else 0

    def on_d(self, beat):
        if beat.opcode == RELEASE_ACK:
            self.releases = None
            return
        if beat.opcode != GRANT:
            self.grant += beat.data[self.lanes(self.acquires):][:self.size]
            if len(self.grant) < self.size:
                return
        line = self.lines[self.acquires]
        line.perm, line.dirty = (TIP if beat.param == TO_T else BRANCH), False
        line.bytes = bytearray(self.grant) or line.bytes
        self.acquires, self.grant = None, b""
        self.acks.append(beat.sink)

    def give_up(self, block, cap, opcode):
        """Sends a Release, or the answer to a Probe, beat by beat."""
        line = self.lines[block]
        to = min(line.perm, cap)
        with_data = line.dirty and self.plant != "lost data" or self.plant == "clean data" and line.perm == TIP > to
        words = dict(opcode=opcode + with_data, param=REPORT[line.perm, to], source=0, address=BASE + block * self.size)
        for at in range(0, self.size if with_data else 1, self.bus):
            self.beats.append(dict(words, data=bytes(self.lanes(block)) + bytes(line.bytes[at:at + self.bus])))
        line.perm, line.dirty = (line.perm if self.plant == "kept copy" and opcode == PROBE_ACK else to), False

    def work(self):
        """A load, a store or a Release, or an Acquire of what lacks."""
        block, at, stores = self.rng.randrange(BLOCKS), self.rng.randrange(0, self.size, 8), self.rng.random() < 0.5
        line, address = self.lines[block], BASE + block * self.size + at
        if self.rng.random() < 0.1:
            if line.perm and self.releases is None and not self.beats and block != self.acquires:
                self.releases = block
                self.give_up(block, NONE, RELEASE)
        elif line.perm >= (TIP if stores else BRANCH):
            if stores:
                line.bytes[at:at + 8] = self.rng.randbytes(8)
                line.dirty = True
            (self.link.store if stores else self.link.load)(address, line.bytes[at:at + 8])
        elif self.acquires is None and block != self.releases and not self.beats:
            self.acquires = block
            param = (2 if line.perm else 1) if stores else 0
            self.offers = dict(opcode=ACQUIRE_BLOCK, param=param, source=1, address=address - at,
                               raised=self.link.home.cycle)


def faults_of(path, plant, cycles=3000, **numbers):
    """What is told of a run, up to its first fault."""
    rng = random.Random(1)
    image = rng.randbytes(BLOCKS * numbers["block_bytes"])
    with jv.Home(image=image, path=path, clients=2, base=BASE, seed=3, evict_every=50, **numbers) as home:
        clients = [Client(link, rng, plant if link.client == 1 else "") for link in home.links]
        while home.cycle < cycles and not home.fault_count():
            for client in clients:
                client.cycle()
            home.tick()
        return home.faults()


def raised_by(call):
    """The exception that a call raises, or None."""
    try:
        call()
    except Exception as why:  # pylint: disable=broad-except
        return why
    return None


def refused(what, kind, calls):
    """How many of the calls do not raise this exception."""
    told = [(call, raised_by(call)) for call in calls]
    for _, why in told:
        print(f"{what}: {why!r}")
    return sum(type(why) is not kind for _, why in told)


def closed(path):
    home = jv.Home(path=path, clients=2)
    link = home.links[1]
    with home:
        home.tick()
    home.close()
    return refused("a closed home", ValueError, [
        home.tick, lambda: home.cycle, home.is_quiet, home.fault_count, home.faults, home.script, home.__enter__,
        link.b, link.d, link.b_taken, link.d_taken, lambda: link.e(0), lambda: link.load(0, bytes(8)),
        lambda: link.store(0, bytes(8)), lambda: link.a(6, 1, 0, 0), lambda: link.c(6, 1, 0, 0)])


def numbers(path):
    """Numbers that no wire carries, and those of no home; none of them does anything."""
    made = lambda **words: lambda: jv.Home(path=path, **words)
    with jv.Home(path=path, clients=2, memory_blocks=64) as home:
        link = home.links[0]
        wrong = refused("a number", ValueError, [
            lambda: jv.Link(home, 2), lambda: jv.Link(home, 5), lambda: jv.Link(home, -1), lambda: jv.Link(home, 2**32),
            lambda: link.a(6, 1, 0, 2**64), lambda: link.a(6, 1, 0, -64), lambda: link.a(2**32 + 6, 1, 0, 0),
            lambda: link.a(6, 2**32 + 1, 0, 0), lambda: link.a(6, 1, 2**32, 0),
            lambda: link.a(6, 1, 0, 0, size=2**32 + 6), lambda: link.a(6, 1, 0, 0, raised=2**64),
            lambda: link.c(6, 1, 0, 2**64), lambda: link.c(7, 1, 0, 0, bytes(9)),
            lambda: link.c(7, 1, 0, 0, [300]), lambda: link.e(2**32), lambda: link.load(2**64, b"\1"),
            lambda: link.store(2**64 - 1, b"\1\2"), lambda: link.store(0, 8 * [0] + [300])])
        wrong += home.fault_count() != 0 or not home.is_quiet() or home.numbers["blocks"] != 64
        link.a(6, 1, 0, 2**64 - 64)
        print(f"the last address: {home.faults().splitlines()[0]}")
        wrong += home.fault_count() != 1
    wrong += refused("a home", ValueError, [
        made(clients=2**32 + 2), made(clients=0), made(clients=-1), made(banks=2**32 + 1), made(base=2**64),
        made(pace=-1), made(sinks=2**32 + 16), made(seed=2**32), made(blocks=2**32 + 64), made(wire_patience=-1)])
    wrong += refused("a home", TypeError, [made(blocks=4, memory_blocks=4), made(clints=2), made(image=5)])
    with jv.Home(path=path, seed=2**32 - 1, base=2**64 - 2**20) as home:
        home.tick()
    return wrong


def records(path):
    """A record that cannot be written is an error before anything is made, and what is there is kept; else it is."""
    with tempfile.TemporaryDirectory() as folder:
        there, old = os.path.join(folder, "there"), os.path.join(folder, "old")
        pathlib.Path(old).write_text("kept", encoding="utf-8")
        made = lambda **words: lambda: jv.Home(path=path, **words)
        nowhere = os.path.join(folder, "none", "record")
        wrong = refused("a record", FileNotFoundError, [made(wire=nowhere), made(events=nowhere, wire=old)])
        wrong += refused("a record", IsADirectoryError, [made(wire=folder), made(events=pathlib.Path(folder))])
        wrong += refused("a home with a record", ValueError, [made(wire=old, clients=99)])
        wrong += pathlib.Path(old).read_text(encoding="utf-8") != "kept"
        with jv.Home(path=path, wire=pathlib.Path(there), has_taps=0, ends_quiet=True, wire_patience=9):
            pass
        lines = pathlib.Path(there).read_text(encoding="utf-8").splitlines()
        is_well = lines[0] == "jvwire 1" and lines[-4:] == ["cores unseen", "seen between", "ends quiet", "patience 9"]
        return wrong + (not is_well)


def threads(path, cycles=2000):
    """Each client of a home is driven by a thread of its own, each of which ticks; one closes it beside the others."""
    sys.setswitchinterval(1e-5)
    home = jv.Home(path=path, clients=4, blocks=BLOCKS, base=BASE)
    started, ends = threading.Barrier(4), []

    def drives(client):
        for _ in range(cycles):
            client.cycle()
            home.tick()
            home.faults()
        started.wait()
        if client.link.client == 0:
            home.close()
        ends.append(raised_by(lambda: run_on(client)))

    def run_on(client):
        while True:
            client.cycle()
            client.link.home.tick()

    clients = [Client(link, random.Random(link.client)) for link in home.links]
    all_of_them = [threading.Thread(target=drives, args=(client,)) for client in clients]
    for it in all_of_them:
        it.start()
    for it in all_of_them:
        it.join()
    print(f"four threads: {ends}")
    return int([type(it) for it in ends] != 4 * [ValueError])


def plants(path):
    wanted = {"": "", "clean data": "", "lost data": "client 1, block", "kept copy": "client 1, block"}
    wrong = 0
    for block, bus in (64, 8), (64, 16), (64, 64), (32, 8), (8, 8), (8, 64):
        for plant, words in wanted.items():
            told = faults_of(path, plant, block_bytes=block, beat_bytes=bus)
            first = told.splitlines()[0][:80] if told else "no fault"
            print(f"block {block}, bus {bus}, {plant or 'nothing'} planted: {first}")
            wrong += words not in told if words else told != ""
    for plant in "stuck burst", "deaf on B", "deaf on D":
        told = faults_of(path, plant, block_bytes=64, beat_bytes=8, patience=500)
        first = told.splitlines()[0][:120] if told else "no fault"
        print(f"{plant} planted: {first}")
        wrong += "client 1" not in first or ": late: " not in first
    buses = [lambda it=it: jv.Home(path=path, beat_bytes=it) for it in (0, 4, 24, 128)]
    return wrong + refused("a bus", ValueError, buses)


def main():
    path = sys.argv[1] if len(sys.argv) > 1 else None
    trials = [threads] if sys.argv[2:] == ["threads"] else [plants, closed, numbers, records, threads]
    return 1 if sum([trial(path) for trial in trials]) else 0


if __name__ == "__main__":
    sys.exit(main())
