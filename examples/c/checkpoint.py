#!/usr/bin/env python3
"""A cache is stopped, and goes on from a file: checkpoint.py [LIBRARY], the shared library, where it is not installed
with the module.

One cache makes random accesses of four clients without a stop. A second one makes half of them; then it is drained and
flushed while messages are under way, and the bytes of its memory are kept in a file. A third one over the bytes of the
file makes the other half: each load gets what the first cache's got, and both memories end the same. Each call that
moves a bank on is the one that `next_call` names, so none is refused; and a judge permits each event of each log.
Status 1 where it is otherwise.
"""
import pathlib
import random
import sys
import tempfile

sys.path.append(str(pathlib.Path(__file__).resolve().parents[2] / "python"))
import jinavoke as jv  # noqa: E402

NUMBERS = dict(clients=4, banks=2, block_bytes=16, sets=1, ways=2, registers=2, copies=8, memory_blocks=16)
SIZE = NUMBERS["block_bytes"] * NUMBERS["memory_blocks"]


def program(seed, count):
    """Accesses at random: client, address, and the bytes of a store; of a load none."""
    draw = random.Random(seed)
    for _ in range(count):
        stored = draw.randbytes(8) if draw.random() < 0.5 else b""
        yield draw.randrange(NUMBERS["clients"]), draw.randrange(SIZE // 8) * 8, stored


def go_on(cache):
    """Moves each bank on, call by call, until it is quiet: how many calls there were."""
    calls = 0
    for bank in range(NUMBERS["banks"]):
        while (request := cache.next_call(bank)) is not None:
            cache.make(request)
            calls += 1
    return calls


def acquire(cache, client, place, for_store):
    """The client asks for the block, where its copy is not enough: whether it does."""
    perm = cache.step("perm", client=client, place=place).serial
    if perm == jv.JV_TIP or (perm == jv.JV_BRANCH and not for_store):
        return False
    grow = jv.JV_BTOT if perm == jv.JV_BRANCH else jv.JV_NTOT if for_store else jv.JV_NTOB
    cache.step("acquire", client=client, place=place, param=grow)
    return True


def run(cache, accesses):
    """Makes the accesses: what the loads got."""
    loaded = []
    for client, address, stored in accesses:
        if acquire(cache, client, address // NUMBERS["block_bytes"], bool(stored)):
            go_on(cache)
        if stored:
            cache.step("store", client=client, place=address, bytes=stored)
        else:
            loaded.append(cache.step("load", client=client, place=address, len=8).data)
    return loaded


def stop(cache):
    """Begins something at each client, and takes the cache to rest: whether each event was counted."""
    begun = sum(acquire(cache, client, client, True) for client in range(NUMBERS["clients"]))
    before = sum(cache.counts().values())
    drained = cache.drain()
    is_quiet = all(cache.next_call(bank) is None for bank in range(NUMBERS["banks"]))
    flushed = cache.flush()
    came = sum(cache.counts().values()) - before
    held = sum(cache.step("held", bank=bank).serial for bank in range(NUMBERS["banks"]))
    print(f"{begun} Acquires under way: {drained} events to drain, {flushed} to flush")
    return begun > 0 and is_quiet and came == drained + flushed and flushed > 0 and held == 0


def permitted(cache, image, path):
    """How many events the logs have; SystemExit where a judge does not permit one."""
    judged = 0
    for bank in range(NUMBERS["banks"]):
        shape = {name: NUMBERS[name] for name in ("clients", "block_bytes", "memory_blocks")}
        with jv.Judge(image, path=path, **shape) as judge:
            for it in cache.events(bank):
                place = it.address if it.opcode <= jv.JV_EVENT_STORE else it.place
                if judge.see(it.opcode, it.data, client=it.client, place=place, param=it.param).status:
                    sys.exit(f"bank {bank}: event {judged} is not permitted")
                judged += 1
    return judged


def main():
    path = sys.argv[1] if len(sys.argv) > 1 else None
    image, accesses = random.Random(1).randbytes(SIZE), list(program(2, 4000))
    half = len(accesses) // 2
    whole, first = jv.Cache(image, path=path, **NUMBERS), jv.Cache(image, path=path, **NUMBERS)
    is_well = run(whole, accesses[:half]) == run(first, accesses[:half])
    is_well = stop(first) and is_well
    with tempfile.TemporaryDirectory() as folder:
        file = pathlib.Path(folder) / "memory"
        file.write_bytes(first.image())
        kept = file.read_bytes()
    second = jv.Cache(kept, path=path, **first.numbers)
    first_events = permitted(first, image, path)
    first.close()
    is_well = run(whole, accesses[half:]) == run(second, accesses[half:]) and is_well
    is_well = stop(whole) and stop(second) and is_well
    is_well = whole.image() == second.image() != kept and is_well
    is_well = sum(second.counts().values()) == permitted(second, kept, path) and is_well
    print(f"{len(accesses)} accesses: {permitted(whole, image, path)} events without a stop; "
          f"{first_events} to the stop and {permitted(second, kept, path)} behind it; {'ok' if is_well else 'WRONG'}")
    return 0 if is_well else 1


if __name__ == "__main__":
    sys.exit(main())
