#!/usr/bin/env python3
"""A Release crosses a Probe, from Python: race.py [LIBRARY], the shared library, where it is not installed with the module."""
import pathlib
import sys
import time

sys.path.append(str(pathlib.Path(__file__).resolve().parents[2] / "python"))
import jinavoke as jv  # noqa: E402


def take_grant(cache, client, place, grow):
    """The client's core gets the block, from its Acquire to the GrantAck, where home has the block or reads it."""
    cache.step("accept", **cache.ticket("acquire", client=client, place=place, param=grow))
    told = cache.step("advance", place=place)
    if told.what == jv.JV_TELLS_MEMORY:
        cache.step("serve_memory", place=place)
        cache.step("take_memory", place=place)
        told = cache.step("advance", place=place)
    grant = {name: getattr(told, name) for name in jv.TICKET}
    cache.step("take_grant_ack", **cache.ticket("take_grant", **grant))


def race(cache):
    """Client 0 stores and gives its copy up while home probes it for client 1: the two cross."""
    take_grant(cache, 0, 0, jv.JV_NTOT)
    cache.step("store", client=0, place=0, bytes=b"\xaa", index=8)
    cache.step("accept", **cache.ticket("acquire", client=1, place=0, param=jv.JV_NTOT))
    release = cache.ticket("release", client=0, place=0, param=jv.JV_TTON)
    probe = cache.ticket("advance", place=0)
    early = cache.ask("answer_probe", **probe)
    acknowledged = cache.ticket("take_c", **release)
    waits = cache.ask("advance", place=0)
    cache.step("take_release_ack", **acknowledged)
    cache.step("take_c", **cache.ticket("answer_probe", **probe))
    cache.step("take_grant_ack", **cache.ticket("take_grant", **cache.ticket("advance", place=0)))
    loaded = cache.step("load", client=1, place=0, len=8, index=22)
    print("refused", early.status, waits.status, "loaded", loaded.data.hex(), "perms",
          cache.ask("perm", client=0, place=0).serial, cache.ask("perm", client=1, place=0).serial,
          "events", cache.ask("events").serial, "quiet", cache.ask("is_quiet").serial)
    print(*(jv.name_of("JV_EVENT_", it.opcode, "jv_event_kind")[9:].lower() for it in cache.events()))
    return (early.status, waits.status, loaded.data) == (jv.JV_RELEASE_PENDING, jv.JV_NOT_YET, b"\xaa" + bytes(7))


def at_once(cache):
    """Calls of one batch: they end at the one that is refused, and answer as one by one."""
    load, store = jv.asked("load", client=1, place=0, len=8), jv.asked("store", client=1, place=0, bytes=b"\xbb")
    refused = jv.asked("store", client=0, place=0, bytes=b"\xcc")
    told = cache.many(load, store, load, refused, load)
    return [(it.status, it.data) for it in told] == [
        (0, b"\xaa" + bytes(7)), (0, b""), (0, b"\xbb" + bytes(7)), (jv.JV_NO_PERMISSION, b"")]


def judged(cache, path):
    """A judge takes each event of the log, and stops at one that is out of its turn."""
    with jv.Judge(path=path, clients=2, block_bytes=8, memory_blocks=4) as judge:
        for it in cache.events():
            place = it.address if it.opcode <= jv.JV_EVENT_STORE else it.place
            if judge.see(it.opcode, it.data, client=it.client, place=place, param=it.param).status:
                return False
        none, fault, again = judge.see(99), judge.see("take_put_ack", place=0), judge.see("load", b"\xbb", client=1, place=0)
        return (none.status, fault.status, bytes(fault)) == (jv.JV_BAD_ARGUMENT, jv.JV_NOT_PERMITTED, bytes(again)) \
            and fault.rule == jv.JJ_PUT_ACK_IS_OUTWARD


def accepts_the_second_first(path, each_block):
    """The status of an Acquire that is accepted before the one that its client sent first, of another block."""
    with jv.Judge(path=path, clients=2, block_bytes=8, memory_blocks=4, each_block=each_block) as judge:
        for block in 0, 1:
            judge.see("send_acquire", client=0, place=block, param=jv.JV_NTOB)
        return judge.see("accept_acquire", client=0, place=1).status


def seen_at_pins(path):
    """A judge at a client's pins takes what may be seen there, and stops at a Release that shows other bytes than were stored."""
    with jv.PinsJudge(0, path=path, clients=2, block_bytes=8, memory_blocks=4) as judge:
        told = [
            judge.see("message", client=0, place=0, channel=jv.JV_A, opcode=jv.JV_OP_ACQUIRE_BLOCK, param=jv.JV_NTOT),
            judge.see("message", bytes(8), client=0, place=0, channel=jv.JV_D, opcode=jv.JV_OP_GRANT_DATA, param=jv.JV_TO_T),
            judge.see("store", b"\xaa", client=0, place=0),
            judge.see("message", bytes(8), client=0, place=0, channel=jv.JV_C, opcode=jv.JV_OP_RELEASE_DATA, param=jv.JV_TTON),
            judge.see("load", b"\xaa", client=0, place=0)]
        return [it.status for it in told] == [0, 0, 0, jv.JV_NOT_PERMITTED, jv.JV_NOT_PERMITTED] \
            and told[0].wait == jv.JP_GRANT and told[3].rule == jv.JJ_OTHER_BYTES and bytes(told[3]) == bytes(told[4])


def main():
    path = sys.argv[1] if len(sys.argv) > 1 else None
    with jv.Cache(path=path, clients=2, banks=1, block_bytes=8, sets=1, ways=2, registers=2, copies=2, memory_blocks=4) as cache:
        is_well = race(cache)
        is_well = at_once(cache) and is_well
        is_well = judged(cache, path) and is_well
        is_well = seen_at_pins(path) and is_well
        is_well = accepts_the_second_first(path, False) == jv.JV_NOT_PERMITTED and is_well
        is_well = accepts_the_second_first(path, True) == jv.JV_OK and is_well
        load = jv.asked("load", client=1, place=0, len=8)
        for text, batch, rounds in ("one call", cache.batch(load), 100000), ("a call of 64", cache.batch(*[load] * 64), 2000):
            start = time.perf_counter()
            for _ in range(rounds):
                batch.run()
            nanos = (time.perf_counter() - start) * 1e9 / rounds / len(batch.requests)
            print(f"a load from Python, {text}: {nanos:.0f} ns", file=sys.stderr)
    return 0 if is_well else 1


if __name__ == "__main__":
    sys.exit(main())
