#!/usr/bin/env python3
"""explain.py TLWIRE [RECORDS] [SEED] [LINES..]: lawful records of messages, in each way of seeing, and how many of them
tlwire explains.

Random walks of the protocol, by the plain program of closed.py, are written as records of 100, 1,000 and 9,000 lines
(or as many as is said), of 1 to 16 clients and 1 to 64 blocks: as they are sent, between sending and taking, at the
clients' pins, at home's pins; and with lines moved. A walk goes on in one block for 1, up to 3 or up to 10 events, and
then in another one: so many blocks are interleaved in short bursts. Half of the walks take the messages of a channel in
their order over all blocks, the others in that of each block.

Moved lines: of a record between sending and taking each line goes up to 20 lines on, but for those of one wire, which
keep their order, and for a Grant, a GrantAck, a ReleaseAck and an answer of the memory, which stand behind what they
answer, as the format asks. With `skew NUM` the header names by how many lines one stands behind a later one then, at
most; with nothing named it says nothing. With `seen at client N` the lines of that client stand as at its pins, and
those of the others are moved by up to 12. Half of the moved records are whole, the others cut; of a third nobody
watched the memory's link or the cores. The others are cut at the end.

Dropped copies: each client gives clean copies up without a word, and the header says so. Home does not know of it, and
goes by its old record (closed.py says how). In the rows `seldom` one of SELDOM chances to drop is taken. Each run that
tlwire prints of these is replayed by the plain program, beside the lines of the record in full.

Prints a table of the answers, with the longest time of each row, and ends with status 1 where tlwire calls one
impossible, explains one by a run that is none of it, or explains fewer than 99 percent of a row (95 of moved lines in
records of more than 1,000 lines; of records with drops as many as it does). RECORDS is the number of records of each
row.
"""
import bisect
import os
import random
import subprocess
import sys
import tempfile
import time
from concurrent.futures import ThreadPoolExecutor

import closed

BURSTS = (1, 3, 10)
SKEW, BESIDE = 20, 12
# A row: its name, how closed.py sees the walk, and the header.
IN_ORDER = [
    ("at the sending", "sent", ["skew 0"]),
    ("between", "between", ["seen between"]),
    ("at clients", "clients", ["seen at clients"]),
    ("at home", "home", ["seen at home"]),
]
# A row of moved lines: its name, by how many lines they are moved, and whether one client is seen at its pins.
MOVED = [
    (f"moved by {SKEW}, skew named", SKEW, False),
    (f"moved by {SKEW}, nothing named", SKEW, False),
    (f"at client N, others by {BESIDE}", BESIDE, True),
]
# A row of records of clients that drop: as those in order.
SELDOM = 10
DROPPED = [(f"{name}, drops{often}", way, [*header, "drops clients"], of)
           for of, often in ((SELDOM, ", seldom"), (1, "")) for name, way, header in IN_ORDER]
REQUESTS = ("AcquireBlock", "Get", "PutFullData", "Release", "ReleaseData")


def walk_of(rng, lines, room, seldom=None):
    """A walk of so many lines and some more, in which all clients drop clean copies where it is said how seldom."""
    clients, blocks = rng.choice([1, 2, 3, 4, 6, 8, 12, 16]), rng.choice([1, 2, 4, 8, 16, 64])
    drops = range(clients) if seldom else ()
    return closed.Walk(rng, clients, blocks, 8, lines * room // 10 + 10, rng.random() < 0.5, burst=rng.choice(BURSTS), drops=drops,
                       seldom=seldom or 1)


def in_order(seed, row, lines):
    """A lawful record of at most so many lines, cut at its end; None where the walk gives fewer than half of them, or
    none that can be written. Of one with drops beside it what tells whether a run is one of it."""
    _, way, header, *seldom = row
    rng = random.Random(seed)
    walk = walk_of(rng, lines, 16 if seldom else 13, *seldom)
    what = closed.seen(walk, way, 0, False)
    if what is None or 2 * len(what[0]) < lines:
        return None
    there = what[0][:lines]
    text = closed.text(there, walk, header)
    return (text, lambda run: is_run_of(run, walk, there, way)) if text and seldom else text


def is_run_of(run, walk, lines, way):
    """Whether it is a run of lines with drops, in full or as they stand."""
    wires = closed.timed_run(closed.read_run(run, walk.size), walk)
    by = "between" if way == "sent" else way
    full = closed.in_full(lines, range(walk.clients), False)
    return any(closed.wrong_run(wires, some, by, 0, False, (), None) is None for some in (full, lines))


# ## Moved lines

def pair(messages):
    """Gives each message the number of its exchange, and what it answers."""
    waiting = {}
    for number, m in enumerate(messages):
        wire, kind = m["wire"], m["what"][0]
        if wire[0] == "core":
            continue
        key = ("m", m["block"]) if wire[0] == "m" else (wire[1], m["block"])
        if kind in REQUESTS:
            m["source"] = number
            waiting.setdefault((key, kind.startswith("Release")), []).append(m)
        elif kind in ("Grant", "GrantData", "ReleaseAck", "AccessAck", "AccessAckData"):
            m["after"] = waiting[key, kind == "ReleaseAck"].pop(0)
            m["source"] = m["after"]["source"]
            if kind.startswith("Grant"):
                m["sink"] = number
                waiting.setdefault((key, "grant"), []).append(m)
        elif kind == "GrantAck":
            m["after"] = waiting[key, "grant"].pop(0)
            m["sink"] = m["after"]["sink"]


def moment(rng, m, client, far, latest):
    """When a message is seen: between its sending and its taking, or as the pins of a client say."""
    wire, sent, taken = m["wire"], m["sent"], far if m["taken"] is None else m["taken"]
    if wire[0] == "core" or wire in (("c", client, "A"), ("c", client, "C")):
        return sent
    if wire == ("c", client, "D"):
        return taken
    return sent + rng.random() * (min(taken, latest.get(wire, taken)) - sent)


def between(rng, walk, whole, client):
    """The messages in an order in which they are seen; None where there is none."""
    timed, latest = [], {}
    far = walk.end + 1 if whole else walk.end + rng.randint(1, 20)
    for number, m in reversed(list(enumerate(walk.messages))):
        if whole and m["taken"] is None and m["wire"] == ("c", client, "D"):
            return None
        at = latest[m["wire"]] = moment(rng, m, client, far, latest)
        timed.append((at, number, m))
    timed.sort(key=lambda it: it[:2])
    if not walk.ordered:
        timed = closed.in_wires_order(timed)
    return timed and [m for at, _, m in timed if whole or at <= walk.end]


def moved(rng, lines, most, client):
    """The lines, each up to so many further on, those of a client as they stand; and by how many one stands behind a
    later one then, at most."""
    keyed, latest, keys = [], {}, {}
    for place, m in enumerate(lines):
        is_at_pins = client is not None and m["wire"][0] != "m" and m["wire"][1] == client
        groups = [m["wire"]] + ["pins"] * is_at_pins
        before = [latest.get(group, -1) for group in groups] + [keys.get(id(m.get("after")), -1)]
        key = max(place + (0 if is_at_pins else rng.random() * most), max(before) + 1e-7)
        keys[id(m)] = key
        latest.update((group, key) for group in groups)
        keyed.append((key, place, m))
    keyed.sort(key=lambda it: it[:2])
    return [it[2] for it in keyed], skew_of([it[1] for it in keyed])


def skew_of(order):
    """By how many places one stands behind a later one, at most."""
    most, highs = 0, []
    for place, number in enumerate(order):
        if not highs or number > highs[-1][0]:
            highs.append((number, place))
        else:
            most = max(most, place - highs[bisect.bisect_right(highs, (number, place))][1])
    return most


def written(lines, walk, header):
    """The record."""
    out = ["jvwire 1", f"shape clients={walk.clients} block={walk.size} blocks={walk.blocks} base=0x80000000", *header]
    out += [f"source client={c} from=0 to={closed.NONE}" for c in range(walk.clients)] + [f"image {walk.image.hex()}"]
    for cycle, m in enumerate(lines):
        wire, base = m["wire"], 0x8000_0000 + m["block"] * walk.size
        kind, word, data = m["what"]
        if wire[0] == "core":
            out.append(f"{cycle} c{wire[1]} {kind} 0x{base + word:08x} {data.hex()}")
            continue
        channel, opcode, params = closed.CODES[kind]
        words = [str(cycle), "m" if wire[0] == "m" else f"c{wire[1]}", channel, str(opcode)]
        words += [f"param={params[word]}"] if word in params else []
        words += [f"{key}={m[key]}" for key in ("source", "sink") if key in m and not (channel == "E" and key == "source")]
        words += [f"address=0x{base:08x}"] * (channel in ("A" if wire[0] == "m" else "ABC"))
        out.append(" ".join(words + ([] if data is None else [f"data={data.hex()}"])))
    return "\n".join(out) + "\n"


def out_of_order(seed, row, lines):
    """A lawful record with lines moved; None where the walk gives fewer than half of them, or none that can be seen so."""
    name, most, has_client = row
    rng = random.Random(f"{seed} {name} {lines}")
    walk = walk_of(rng, lines, 14)
    pair(walk.messages)
    whole, free = rng.random() < 0.5, rng.choice([(), (), (), (), ("m",), ("core",)])
    client = rng.randrange(walk.clients) if has_client else None
    there = between(rng, walk, whole, client)
    there = there and [m for m in there if m["wire"][0] not in free]
    if not there or 2 * len(there) < lines:
        return None
    if not whole:
        there = there[:lines]
    there, skew = moved(rng, there, most, client)
    header = [f"seen at client {client}"] if has_client else [f"skew {skew}"] if "skew" in name else []
    return written(there, walk, header + ["whole"] * whole + [closed.UNSEEN[link] for link in free])


# ## The trial

def answer(program, text):
    """What tlwire says of a record, and how long it takes."""
    with tempfile.NamedTemporaryFile("w", suffix=".txt") as file:
        file.write(text)
        file.flush()
        start = time.monotonic()
        run = subprocess.run([program, file.name], capture_output=True, text=True, timeout=600)
        return (run.stdout.split(":")[0] if run.stdout else "fault"), time.monotonic() - start


def tried(job):
    program, make, seed, row, lines = job
    made = make(seed, row, lines)
    if made is None:
        return None
    text, is_of = made if isinstance(made, tuple) else (made, None)
    word, seconds = answer(program, text)
    if word == "explained" and is_of and not is_of(closed.asked(program, text, "--run")):
        word = "explained by a wrong run"
    return word, seconds


def answers_of(pool, program, records, seed, make, row, lines):
    """The answers of a row, by number, and the longest time."""
    answers, slowest = {}, 0.0
    while sum(answers.values()) < records:
        jobs = [(program, make, s, row, lines) for s in range(seed, seed + records)]
        for it in pool.map(tried, jobs):
            if it and sum(answers.values()) < records:
                answers[it[0]] = answers.get(it[0], 0) + 1
                slowest = max(slowest, it[1])
        seed += records
    others = ", ".join(f"{n} {word}" for word, n in sorted(answers.items()) if word != "explained")
    print(f"{row[0]:28} {lines:7,} lines: {answers.get('explained', 0):5} of {records} explained{', ' + others if others else ''}; "
          f"longest {slowest:.2f} s", flush=True)
    return answers


def main():
    program, records, seed = sys.argv[1], int(sys.argv[2]) if len(sys.argv) > 2 else 100, int(sys.argv[3]) if len(sys.argv) > 3 else 0
    closed.skew_of = lambda walk, lines: 0  # (it is known here, and takes the square of the lines)
    wrong = 0
    with ThreadPoolExecutor(os.cpu_count()) as pool:
        for lines in [int(n) for n in sys.argv[4:]] or [100, 1000, 9000]:
            for make, row in [(in_order, it) for it in IN_ORDER] + [(out_of_order, it) for it in MOVED] + [(in_order, it) for it in DROPPED]:
                share = 0 if row in DROPPED else 0.95 if make is out_of_order and lines > 1000 else 0.99
                answers = answers_of(pool, program, records, seed, make, row, lines)
                wrong += answers.get("explained", 0) < share * records or "impossible" in answers or "explained by a wrong run" in answers
    print(f"{wrong} rows below what is asked")
    sys.exit(1 if wrong else 0)


if __name__ == "__main__":
    main()
