#!/usr/bin/env python3
"""Agents without a cache and two clients of one link, from Python: wide.py [LIBRARY].

Puts, Gets and atomics of an agent are answered with the bytes stored last, beside a cache that drops its clean copy in
silence. What no agent may send is a fault by its name, and sources that two have are refused. LIBRARY is
libjinavoke_dpi.so, where it is not installed with the module. Status 1 where it is otherwise.
"""
import pathlib
import sys

sys.path.append(str(pathlib.Path(__file__).resolve().parents[2] / "python"))
import jinavoke as jv  # noqa: E402

BASE = 0x80000000
PUT_FULL, PUT_PARTIAL, ARITHMETIC, GET, ACQUIRE_BLOCK, GRANT = 0, 1, 2, 4, 6, 4
NTOB, NTOT, ADD, TO_N, NTON, PROBE_ACK = 0, 1, 4, 2, 5, 4
CACHED, UNCACHED = [(0, 0, 3), (0, 4, 7)], [(0, 8, 8), (1, 0, 15)]


def until(home, link, opcode, source):
    """The beats of the next answer with that source, as they are taken."""
    data = b""
    for _ in range(2000):
        home.tick()
        if link.b():
            probe = link.b()
            link.b_taken()
            link.c(opcode=PROBE_ACK, param=NTON, source=probe.source, address=probe.address)  # it was dropped
        beat = link.d()
        if not beat:
            continue
        link.d_taken()
        data += beat.data
        is_last = beat.opcode % 2 == 0 or len(data) >= 1 << beat.size
        if is_last and beat.opcode >= GRANT:
            link.e(beat.sink)
        if is_last and beat.source == source and beat.opcode == opcode:
            return data
        data = b"" if is_last else data
    raise SystemExit("no answer came")


def answers(path):
    image = bytes(range(64)) * 4
    with jv.Home(image=image, path=path, clients=2, base=BASE, cached=CACHED, uncached=UNCACHED, silent_branch=1,
                 silent_tip=1) as home:
        cache, engine = home.links
        cache.a(opcode=ACQUIRE_BLOCK, param=NTOT, source=4, address=BASE)
        assert until(home, cache, GRANT + 1, 4) == image[:64]
        cache.load(BASE, image[:8], client=1)
        engine.a(opcode=PUT_PARTIAL, param=0, source=3, address=BASE, size=3, data=b"\xff" * 8, mask=0x0f)
        for _ in range(200):  # client 1 has dropped its copy, and says so when it is probed
            home.tick()
            if (probe := cache.b()):
                assert probe.source == 4
                cache.b_taken()
                cache.c(opcode=PROBE_ACK, param=NTON, source=4, address=BASE)
        until(home, engine, 0, 3)
        assert home.inferred() == 1
        engine.a(opcode=GET, param=0, source=1, address=BASE, size=4)
        assert until(home, engine, 1, 1) == b"\xff" * 4 + image[4:16]
        engine.a(opcode=ARITHMETIC, param=ADD, source=2, address=BASE + 8, size=2, data=b"\x01")
        assert until(home, engine, 1, 2)[:4] == image[8:12]
        cache.a(opcode=GET, param=0, source=8, address=BASE + 8, size=2)
        assert until(home, cache, 1, 8)[:4] == b"\x09" + image[9:12]
        assert (home.requests(), home.rooms(), home.faults()) == (4, 0, ""), (home.requests(), home.rooms())
        engine.a(opcode=GET, param=0, source=1, address=BASE + 60, size=3)
        engine.a(opcode=ARITHMETIC, param=ADD, source=1, address=BASE, size=4)
        told = home.faults()
        assert told.count("codes: ") == 2 and home.fault_count() == 2, told


def main():
    path = sys.argv[1] if len(sys.argv) > 1 else None
    answers(path)
    for cached, uncached in (CACHED, [(0, 7, 8)]), ([(0, 0, 3)], UNCACHED), ([], [(0, 0, 16)]), ([(0, 0)], []):
        try:
            jv.Home(path=path, clients=2, cached=cached, uncached=uncached)
            raise SystemExit(f"{cached}, {uncached} were taken")
        except ValueError:
            pass
    print("agents and two clients of a link: as they should be")


if __name__ == "__main__":
    main()
