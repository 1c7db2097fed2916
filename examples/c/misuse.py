#!/usr/bin/env python3
"""What a wrong use of the module gets: misuse.py [LIBRARY], the shared library, where it is not installed with the
module.

What is closed answers each use with a ValueError; a number that no field has room for has the status of one that is not
there, and never that of another number; threads that share a cache make their calls one at a time. Status 1 where it is
otherwise.
"""
import functools
import pathlib
import sys
import threading

sys.path.append(str(pathlib.Path(__file__).resolve().parents[2] / "python"))
import jinavoke as jv  # noqa: E402

SHAPE = dict(clients=2, banks=1, block_bytes=8, sets=1, ways=2, registers=2, copies=2, memory_blocks=4)
JUDGED = dict(clients=2, block_bytes=8, memory_blocks=4)
BEYOND = 2**32
wrong = 0


def want(what, is_well):
    global wrong
    print(f"{what}: {'ok' if is_well else 'WRONG'}")
    wrong += not is_well


def raised_by(call):
    """The exception that a call raises, or None."""
    try:
        call()
    except Exception as why:  # pylint: disable=broad-except
        return why
    return None


def is_refused(call, kind, word=""):
    why = raised_by(call)
    return type(why) is kind and word in str(why)


def closed(path):
    cache, judge = jv.Cache(path=path, **SHAPE), jv.Judge(path=path, **JUDGED)
    pins = jv.PinsJudge(0, path=path, **JUDGED)
    batch = cache.batch(jv.asked("perm"))
    begun = cache.events()
    for it in cache, judge, pins:
        with it:
            pass
        it.close()
    uses = dict(
        ask=lambda: cache.ask("perm"), step=lambda: cache.step("perm"), ticket=lambda: cache.ticket("acquire"),
        saw=cache.saw, events=cache.events, goes_on=lambda: list(begun), many=lambda: cache.many(jv.asked("perm")),
        batch=cache.batch, run=batch.run, enter=cache.__enter__, drain=cache.drain, flush=cache.flush,
        image=cache.image, next_call=cache.next_call, counts=cache.counts, make=lambda: cache.make(jv.asked("perm")))
    for name, use in uses.items():
        want(f"a closed cache, {name}", is_refused(use, ValueError, "the cache is closed"))
    uses = dict(judge=lambda: judge.see("load"), pins=lambda: pins.see("load"), enter=judge.__enter__)
    for name, use in uses.items():
        want(f"a closed judge, {name}", is_refused(use, ValueError, "the judge is closed"))


def numbers_of_requests(path):
    rows = [
        ("perm", dict(client=BEYOND), jv.JV_OUT_OF_RANGE), ("perm", dict(client=-BEYOND), jv.JV_OUT_OF_RANGE),
        ("acquire", dict(place=BEYOND + 1), jv.JV_OUT_OF_RANGE), ("acquire", dict(param=BEYOND), jv.JV_BAD_ARGUMENT),
        ("load", dict(place=BEYOND, len=8), jv.JV_OUT_OF_RANGE), ("load", dict(len=BEYOND + 8), jv.JV_BAD_ARGUMENT),
        ("events", dict(bank=BEYOND), jv.JV_OUT_OF_RANGE), ("waiting", dict(channel=BEYOND), jv.JV_BAD_ARGUMENT),
        ("event", dict(serial=2**64), jv.JV_NOTHING_THERE),
        ("take_c", dict(channel=2, serial=2**64), jv.JV_NOTHING_THERE),
        ("store", dict(bytes=bytes(9)), jv.JV_BAD_ARGUMENT)]
    with jv.Cache(path=path, **SHAPE) as cache:
        for call, words, status in rows:
            told = cache.ask(call, **words).status
            many = cache.many(jv.asked(call, **words))[0].status
            want(f"{call} {words}: status {told}, {many}", told == many == status)
        batch = cache.batch(jv.asked("perm"))
        batch.requests[0].client = BEYOND
        batch.run()
        want("a number of a batch's request", batch.answers[0].status == jv.JV_OUT_OF_RANGE)
        batch.requests[0].call = BEYOND + 1
        batch.run()
        want("a call of a batch's request", batch.answers[0].status == jv.JV_NO_CALL)
        first = batch.requests[0]
        values = dict(
            index=lambda: cache.ask("load", len=8, index=BEYOND), byte=lambda: cache.ask("store", bytes=[300]),
            byte_of_a_batch=lambda: first.bytes.__setitem__(0, 300),
            bytes_of_a_batch=lambda: setattr(first, "bytes", [300]),
            nine_bytes=lambda: setattr(first, "bytes", bytes(9)), seen=lambda: cache.saw([300]))
        for name, use in values.items():
            want(f"{name} that there is not", is_refused(use, ValueError))
        want("a word that there is not", is_refused(lambda: cache.ask("perm", clint=1), TypeError, "clint"))
        rows = [
            (dict(channel=BEYOND), jv.JV_BAD_ARGUMENT), (dict(opcode=BEYOND + 6), jv.JV_OUTSIDE),
            (dict(client=BEYOND), jv.JV_OUT_OF_RANGE), (dict(block=BEYOND), jv.JV_OUT_OF_RANGE),
            (dict(options=BEYOND), jv.JV_BAD_ARGUMENT)]
        for words, status in rows:
            told = cache.saw(**{"channel": jv.JV_A, "opcode": 6, "param": jv.JV_NTOT, **words}).status
            want(f"seen {words}: status {told}", told == status)
        for name, use in dict(next_call=cache.next_call, counts=cache.counts).items():
            for bank in 1, BEYOND, BEYOND + 1, 2**64, -1:
                why = raised_by(lambda: use(bank))
                want(f"{name} of bank {bank}: {why}", isinstance(why, jv.Refused) and why.status == jv.JV_OUT_OF_RANGE)
            for bank in "0", 0.0, b"":
                want(f"{name} of bank {bank!r}", is_refused(lambda: use(bank), TypeError))
        want("a request that there is not", is_refused(lambda: cache.make("drain"), AttributeError))
        why = raised_by(lambda: cache.make(jv.asked("advance", place=BEYOND)))
        want(f"a request of a number that there is not: {why}", isinstance(why, jv.Refused) and why.status == 10)
        want("none of them did anything", cache.ask("events").serial == 0)


def numbers_of_openings(path):
    for name, status in zip(["clients", "banks", "block_bytes", "sets", "ways", "registers", "copies", "memory_blocks",
                             "version"], range(20, 29)):
        for value in 2**64 + 1, 2**64, 0, -1, -2**64 + 1:
            why = raised_by(lambda: jv.Cache(path=path, **{**SHAPE, name: value}))
            is_well = isinstance(why, jv.Refused) and why.status == status and f"{status}, {name}" in str(why)
            want(f"a cache of {name} {value}: {why}", is_well)
    rows = [(dict(clients=BEYOND + 2), 20), (dict(block_bytes=BEYOND + 8), 22), (dict(memory_blocks=BEYOND + 4), 27)]
    for words, status in rows:
        for what, opens in ("judge", jv.Judge), ("judge at pins", functools.partial(jv.PinsJudge, 0)):
            why = raised_by(lambda: opens(path=path, **{**JUDGED, **words}))
            want(f"a {what} of {words}: {why}", isinstance(why, jv.Refused) and why.status == status)
    for what, opens, status in (
            ("client", lambda: jv.PinsJudge(BEYOND, path=path, **JUDGED), jv.JV_OUT_OF_RANGE),
            ("cores_unseen", lambda: jv.PinsJudge(0, BEYOND, path=path, **JUDGED), jv.JV_BAD_ARGUMENT)):
        why = raised_by(opens)
        want(f"a judge at pins, {what}: {why}", isinstance(why, jv.Refused) and why.status == status)


def numbers_of_judges(path):
    with jv.Judge(path=path, **JUDGED) as judge, jv.PinsJudge(0, path=path, **JUDGED) as pins:
        told = [judge.see(BEYOND).status, judge.see("send_acquire", param=BEYOND).status, pins.see(BEYOND).status,
                pins.see("message", client=BEYOND).status, pins.see("message", place=BEYOND).status]
        want(f"entries and lines of numbers that there are not: {told}", told == 5 * [jv.JV_BAD_ARGUMENT])
        fault = judge.see("send_acquire", client=BEYOND)
        want("an entry of a client that there is not", (fault.status, fault.rule) == (31, jv.JJ_CLIENT_IS_THERE))


def run_on(batch):
    while True:
        batch.run()


def threads(path, each=20000):
    """Threads with a batch each on one cache: as many events as calls. One closes it at last, beside them all."""
    sys.setswitchinterval(1e-5)
    cache = jv.Cache(path=path, **SHAPE)
    cache.step("accept", **cache.ticket("acquire", client=0, place=0, param=jv.JV_NTOB))
    for call in "advance", "serve_memory", "take_memory":
        cache.step(call, place=0)
    told = cache.step("advance", place=0)
    cache.step("take_grant_ack", **cache.ticket("take_grant", **{name: getattr(told, name) for name in jv.TICKET}))
    before, done, ends = cache.ask("events").serial, [], []

    def loads():
        batch = cache.batch(jv.asked("load", client=0, place=0, len=8))
        done.append(sum(batch.run() for _ in range(each) if not batch.answers[0].status))
        ends.append(raised_by(lambda: run_on(batch)))

    all_of_them = [threading.Thread(target=loads) for _ in range(4)]
    for it in all_of_them:
        it.start()
    while len(done) < len(all_of_them):
        all_of_them[0].join(0.01)
    made = cache.ask("events").serial - before
    cache.close()
    for it in all_of_them:
        it.join()
    want(f"{sum(done)} calls of four threads, {made} events", made >= sum(done) == 4 * each)
    want("closed beside them", len(ends) == 4 and all(type(it) is ValueError for it in ends))


def main():
    path = sys.argv[1] if len(sys.argv) > 1 else None
    for trial in closed, numbers_of_requests, numbers_of_openings, numbers_of_judges, threads:
        trial(path)
    return 1 if wrong else 0


if __name__ == "__main__":
    sys.exit(main())
