#!/usr/bin/env python3
"""Judges of clients that drop clean copies, of a home that probes anyone, and of each block's order alone, from Python:
judges.py [LIBRARY].

A copy that was clean and is dropped is permitted where the judge is told so, by events and at the client's pins; one
that was stored to is refused, and so is a drop where the judge is not told. A Probe of a client that has nothing is
permitted where home may probe anyone. Messages of two blocks are taken in another order where each block's order alone
is asked. What cannot be opened has its status, and what is closed is a ValueError.
LIBRARY is libjinavoke_dpi.so, where it is not installed with the module. Status 1 where it is otherwise.
"""
import pathlib
import sys

sys.path.append(str(pathlib.Path(__file__).resolve().parents[2] / "python"))
import jinavoke as jv  # noqa: E402

SHAPE = dict(clients=2, block_bytes=8, memory_blocks=4)
IMAGE = bytes(range(32))
GRANT_DATA, PROBE_ACK = 5, 4
TO_T, TO_N, NTOB, NTOT, NTON = 0, 2, 0, 1, 5
wrong = 0


def want(what, is_well):
    global wrong
    print(f"{what}: {'ok' if is_well else 'WRONG'}")
    wrong += not is_well


def is_refused(call, kind, word=""):
    try:
        call()
    except Exception as why:  # pylint: disable=broad-except
        return type(why) is kind and word in str(why)
    return False


def served(client, param, block=0, asks_memory=False):
    """An Acquire, and what home does until its Grant is sent."""
    yield "send_acquire", dict(client=client, place=block, param=param)
    yield "accept_acquire", dict(client=client, place=block)
    for event in ("send_get", "serve", "take_data") if asks_memory else ():
        yield event, dict(place=block)


def granted(client, block=0, **shown):
    yield "send_grant", dict(client=client, place=block, **shown)
    yield "take_grant", dict(client=client, place=block)
    yield "take_grant_ack", dict(client=client, place=block)


def probed(client, param, block=0, answer=None):
    """A Probe, the answer that was seen to it, and home's taking of that."""
    shown = {} if answer is None else dict(shown=1, channel=jv.JV_C, opcode=PROBE_ACK, shown_param=answer)
    yield "send_probe", dict(client=client, place=block, param=param)
    yield "answer_probe", dict(client=client, place=block, **shown)
    yield "take_c", dict(client=client, place=block)


def tip(client):
    """The client is granted Tip of block 0, by the memory's bytes."""
    yield from served(client, NTOT, asks_memory=True)
    yield from granted(client, shown=1, channel=jv.JV_D, opcode=GRANT_DATA, shown_param=TO_T, bytes=IMAGE[:8])


def drops_and_asks_again():
    yield from tip(0)
    yield from served(0, NTOT)
    yield from granted(0)
    yield "load", dict(client=0, place=0, bytes=IMAGE[:8])


def drops_and_is_probed():
    yield from tip(0)
    yield from served(1, NTOT)
    yield from probed(0, TO_N, answer=NTON)
    yield from granted(1)


def stores_and_drops():
    yield from tip(0)
    yield "store", dict(client=0, place=0, bytes=b"\7")
    yield from served(0, NTOT)


def probes_who_has_nothing():
    yield from served(0, NTOT, asks_memory=True)
    yield from probed(1, TO_N, answer=NTON)
    yield from granted(0)


def accepts_the_second_first():
    for block in 0, 1:
        yield "send_acquire", dict(client=0, place=block, param=NTOB)
    for block in 1, 0:
        yield "accept_acquire", dict(client=0, place=block)


def judged(path, run, **options):
    """The last verdict of a run, how many copies were dropped, and how many entries were permitted."""
    with jv.Judge(IMAGE, path=path, **SHAPE, **options) as judge:
        verdicts = [judge.see(event, **words) for event, words in run()]
        return verdicts[-1], judge.inferred(), sum(it.status == 0 for it in verdicts) == len(verdicts)


def events(path):
    for run, drops in (drops_and_asks_again, 1), (drops_and_is_probed, 1), (probes_who_has_nothing, 0):
        anyone = run is probes_who_has_nothing
        _, inferred, is_permitted = judged(path, run, drops_clean=True, probes_anyone=anyone)
        want(f"{run.__name__} is permitted, {drops} dropped", is_permitted and inferred == drops)
        verdict, _, _ = judged(path, run, drops_clean=anyone, probes_anyone=not anyone)
        want(f"{run.__name__}, and the judge is not told", verdict.status == jv.JV_NOT_PERMITTED)
    verdict, inferred, _ = judged(path, stores_and_drops, drops_clean=True)
    told = verdict.status, verdict.rule, verdict.perm, verdict.is_at_home
    want(f"a copy that was stored to is dropped: {told}",
         told == (jv.JV_NOT_PERMITTED, jv.JJ_STARTS_FROM_ITS_COPY, jv.JV_TIP, 1) and inferred == 0)


def orders(path):
    for options in dict(drops_clean=True), dict(probes_anyone=True):
        verdict, _, _ = judged(path, accepts_the_second_first, **options)
        want(f"the second of two Acquires is accepted first, {options}: {verdict.rule}",
             (verdict.status, verdict.rule) == (jv.JV_NOT_PERMITTED, jv.JJ_OUT_OF_ORDER))
        verdict, _, is_permitted = judged(path, accepts_the_second_first, each_block=True, **options)
        want(f"the same where each block's order alone is asked, {options}", is_permitted)


def at_pins(path):
    def line(judge, channel, opcode, param=0, data=b""):
        return judge.see("message", bytes=data, client=0, channel=channel, opcode=opcode, param=param)

    def has_tip(judge):
        line(judge, jv.JV_A, jv.JV_OP_ACQUIRE_BLOCK, NTOT)
        return line(judge, jv.JV_D, GRANT_DATA, TO_T, IMAGE[:8])

    for words in (jv.JV_A, jv.JV_OP_ACQUIRE_BLOCK, NTOB), (jv.JV_C, PROBE_ACK, NTON):
        with jv.PinsJudge(0, path=path, drops_clean=True, **SHAPE) as judge:
            tips = has_tip(judge)
            told = line(judge, *words)
            want(f"a clean copy is dropped, {words}: {told.status}, {judge.inferred()} dropped",
                 (tips.perm, told.status, judge.inferred()) == (jv.JV_TIP, 0, 1))
        with jv.PinsJudge(0, path=path, drops_clean=True, **SHAPE) as judge:
            has_tip(judge)
            judge.see("store", client=0, place=0, bytes=b"\7")
            told = line(judge, *words)
            want(f"a copy that was stored to is dropped, {words}: {told.rule}",
                 (told.status, told.perm, judge.inferred()) == (jv.JV_NOT_PERMITTED, jv.JV_TIP, 0))


def wrong_uses(path):
    judge, pins = jv.Judge(path=path, drops_clean=True, **SHAPE), jv.PinsJudge(0, path=path, drops_clean=True, **SHAPE)
    told = [judge.see(2**32).status, judge.see("send_acquire", param=2**32).status, pins.see(2**32).status,
            pins.see("message", client=2**32).status, pins.see("message", place=2**32).status]
    want(f"entries and lines of numbers that there are not: {told}", told == 5 * [jv.JV_BAD_ARGUMENT])
    fault = judge.see("send_acquire", client=2**32)
    want("an entry of a client that there is not", (fault.status, fault.rule) == (31, jv.JJ_CLIENT_IS_THERE))
    for it in judge, pins:
        it.close()
        it.close()
        for use in it.inferred, lambda it=it: it.see(0), it.__enter__:
            want("a closed judge", is_refused(use, ValueError, "the judge is closed"))
    for words, status in (dict(clients=0), 20), (dict(clients=2**32 + 2), 20), (dict(block_bytes=24), 22), \
            (dict(memory_blocks=2**32 + 4), 27):
        for what, opens in ("judge", jv.Judge), ("judge at pins", lambda **it: jv.PinsJudge(0, **it)):
            call = lambda opens=opens: opens(path=path, drops_clean=True, **{**SHAPE, **words})
            want(f"no {what} of {words}", is_refused(call, jv.Refused, f"{status}, "))
    want("no judge of a longer image", is_refused(
        lambda: jv.Judge(bytes(33), path=path, drops_clean=True, **SHAPE), jv.Refused, "OUT_OF_RANGE"))
    want("no judge at the pins of client 2", is_refused(
        lambda: jv.PinsJudge(2, path=path, drops_clean=True, **SHAPE), jv.Refused, "OUT_OF_RANGE"))


def main():
    path = sys.argv[1] if len(sys.argv) > 1 else None
    for trial in events, orders, at_pins, wrong_uses:
        trial(path)
    return 1 if wrong else 0


if __name__ == "__main__":
    sys.exit(main())
