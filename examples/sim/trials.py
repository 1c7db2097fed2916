#!/usr/bin/env python3
"""trials.py LIBRARY FOLDER: what docs/SIMULATOR.md says of a home from Python, tried. Status 1 where one goes wrong."""
import os
import sys

import jinavoke

ACQUIRE, N_TO_T, GRANT_DATA, RELEASE_DATA, T_TO_N, PROBE_ACK_DATA = 6, 1, 5, 7, 1, 5
BASE, MEMORY = 0x80000000, 1 << 30
library, folder = sys.argv[1:]
failed = []


def expect(is_so, what):
    if not is_so:
        failed.append(what)
        print("wrong:", what)


def raises(error, said, call, what):
    try:
        call()
    except error as why:
        expect(said in str(why), f"{what}: {why}")
    else:
        expect(False, f"{what}: nothing is raised")


class Bytes:
    """A memory of the caller's, with its faults and its time."""

    def __init__(self):
        self.blocks, self.fails, self.asked, self.late = {}, False, [], 0

    def read(self, address, count):
        if self.fails:
            raise KeyError("it fails")
        return b"".join(self.blocks.get(at, bytes(64)) for at in range(address, address + count, 64))

    def write(self, address, data):
        whole = bytearray(self.read(address // 64 * 64, 64))
        whole[address % 64:address % 64 + len(data)] = data
        self.blocks[address // 64 * 64] = bytes(whole)

    def ready(self, address, count, is_write, sent, now):
        self.asked.append((address, count, is_write))
        return max(now, sent + self.late)


def home(**words):
    return jinavoke.Home(path=library, **{**dict(clients=2, base=BASE, beat_bytes=64, pace=1, blocks=4096,
                                                 memory_bytes=MEMORY), **words})


def go_to(it, is_there):
    for _ in range(10000):
        if is_there():
            return
        due = it.next_due()
        if due is None:
            break
        it.advance_to(due)
    expect(False, "what is waited for does not come")


def take(it, k, address):
    """A client acquires a block: its bytes."""
    it.links[k].a(ACQUIRE, N_TO_T, 0, address)
    go_to(it, lambda: it.links[k].d() is not None)
    beat = it.links[k].d()
    it.links[k].d_taken()
    it.links[k].e(beat.sink)
    go_to(it, it.is_quiet)
    return beat.data


def give(it, k, address, data):
    it.links[k].c(RELEASE_DATA, T_TO_N, 1, address, data)
    go_to(it, lambda: it.links[k].d() is not None)
    it.links[k].d_taken()
    go_to(it, it.is_quiet)


def flushed(it):
    go_to(it, it.flush)


memory = Bytes()
memory.blocks[BASE + (1 << 29)] = bytes(range(64))
it = home(memory=memory)
expect(it.next_due() is not None, "a home that was just made is due")
it.tick()
expect(it.next_due() is None, "an idle home is due")
it.advance_to(10**9)
expect(it.cycle == 10**9, "a far cycle")
raises(ValueError, "none to come", lambda: it.advance_to(5), "a cycle that is behind")
raises(TypeError, "", lambda: it.advance_to("5"), "no cycle")
data = take(it, 0, BASE + (1 << 29))
expect(data == bytes(range(64)), f"what the memory has: {data.hex()}")
expect(memory.asked[:1] == [(BASE + (1 << 29), 64, False)], f"what was asked: {memory.asked}")
it.links[0].store(BASE + (1 << 29), b"\xff")
expect(it.peek(BASE + (1 << 29), 3) == b"\xff\1\2", "a peek of a Tip")
give(it, 0, BASE + (1 << 29), b"\xff" + bytes(range(1, 64)))
flushed(it)
expect(memory.blocks[BASE + (1 << 29)][0] == 0xff, "what was written back")
expect(it.poke(BASE + 100, b"poked"), "a poke of what rests")
expect(it.peek(BASE + 100, 5) == b"poked", "a peek behind a poke")
counts = it.counts()
expect(counts["all"]["Acquires_NtoT"] == 1 and len(counts["clients"]) == 2 and counts["blocks_fetched"] == 1,
       f"counts: {counts}")
expect("Acquires NtoT" in it.counts_text(), "the table")
it.reset_counts()
expect(it.counts()["all"]["Acquires_NtoT"] == 0, "a reset")
memory.fails = True
it.links[1].a(ACQUIRE, N_TO_T, 0, BASE + 100 // 64 * 64)
raises(KeyError, "it fails", it.tick, "a memory that raises")
memory.fails, memory.late = False, 500
began = it.cycle
go_to(it, lambda: it.links[1].d() is not None)
expect(it.cycle - began >= 490, f"a memory that is late: {it.cycle - began}")
raises(ValueError, "not quiet", lambda: it.save(os.path.join(folder, "busy")), "a home that is not flushed")
beat = it.links[1].d()
expect(beat.data[100 % 64:100 % 64 + 5] == b"poked", "what was poked is granted")
it.links[1].d_taken()
it.links[1].e(beat.sink)
expect(not it.poke(BASE + 101, b"!"), "a poke of what a client has")
go_to(it, lambda: it.links[1].b() is not None)
it.links[1].b_taken()
it.links[1].c(4, T_TO_N, 0, BASE + 64)  # ProbeAck
go_to(it, it.is_quiet)
expect(it.peek(BASE + 100, 5) == b"p!ked", "a poke that waited")
expect(it.fault_count() == 0, it.faults())
raises(ValueError, "outside the memory", lambda: it.peek(BASE - 1, 1), "a peek before the memory")
raises(ValueError, "bits", lambda: it.peek(-1, 1), "an address that is none")
it.close()
raises(ValueError, "closed", it.next_due, "a closed home")
raises(ValueError, "closed", it.counts, "the counts of a closed home")

# ---- a memory in the library, and a checkpoint

it = home(latencies={"A": 7, "D": 9})
take(it, 0, BASE + 4096)
it.links[0].store(BASE + 4096, b"kept")
give(it, 0, BASE + 4096, b"kept" + bytes(60))
flushed(it)
expect(it.fault_count() == 0, it.faults())
file = os.path.join(folder, "kept")
it.save(file)
other = jinavoke.Home.restore(file, path=library)
expect(other.cycle == it.cycle and other.numbers == it.numbers, f"a restored home: {other.numbers}")
expect(take(other, 1, BASE + 4096)[:4] == b"kept", "restored bytes")
expect(other.counts()["clients"][0] == it.counts()["clients"][0], "restored counts")
behind = Bytes()
third = jinavoke.Home.restore(file, path=library, memory=behind)
expect(behind.blocks == {BASE + 4096: b"kept" + bytes(60)}, "a restored memory of one's own")
raises(OSError, "cannot be written", lambda: it.save(os.path.join(folder, "no", "such")), "no folder")
with open(file, "rb") as whole:
    text = bytearray(whole.read())
text[len(text) // 2] ^= 1
with open(file, "wb") as damaged:
    damaged.write(text)
for name in (file, os.path.join(folder, "nothing")):
    raises(ValueError, "no checkpoint", lambda: jinavoke.Home.restore(name, path=library), "a damaged file")
raises(ValueError, "no memory_bytes", lambda: home(memory=Bytes(), memory_bytes=0), "a memory of no size")
raises(ValueError, "", lambda: home(memory_bytes=100), "a size that is no block's")
raises(ValueError, "", lambda: home(blocks=100), "a window that is none")
raises(TypeError, "no channel", lambda: home(latencies={"F": 1}), "a channel that there is not")
raises(ValueError, "31 bits", lambda: home(latencies={"A": -1}), "a latency that is none")
print(f"{len(failed)} failed")
sys.exit(bool(failed))
