#!/usr/bin/env python3
"""wire.py TLCACHE TLWIRE [TRACES] [SEED] [--tlgen TLGEN] [--tlcheck TLCHECK] [--damages N]: the messages of random
traces, given to tlwire.

Each bank of a trace is a record of messages: each message that was sent, with a cycle, a source and a sink, and each
load and store. Each record is given to tlwire twice as `whole`: with each message at its sending, and with each one
later, as buffers would delay it: somewhere before it is taken, the messages of a channel in their order. Both must be
explained; with --tlcheck the run that `tlwire --run` prints must be lawful, but for the order of a channel over all
blocks, which an explanation need not keep. Each is given once more, with `ends quiet`, `patience NUM` or both in its
header, and the answer must be the one that headers.py reckons. Then it is given as it is seen at the clients' pins
(what a client has not taken is not seen), whole and cut at some line, with all that is seen, without the memory's link,
without the cores, without both: none of these may be impossible. Then N damages (10) of the record that is whole, and N
of the one at the clients' pins: a line dropped, a byte or a parameter changed, two lines of a channel of a link
exchanged. Prints how many of these are explained, impossible, not decided, and faults, and ends with status 1 where an
answer was another.
"""
import os
import random
import subprocess
import sys
import tempfile
from concurrent.futures import ThreadPoolExecutor

import headers
from soak import PATIENCE, GivenTrace, Trace, places

CODES = {
    "AcquireBlock": ("A", 6, {"NtoB": 0, "NtoT": 1, "BtoT": 2}), "ProbeBlock": ("B", 6, {"toB": 1, "toN": 2}),
    "ProbeAck": ("C", 4, {"TtoB": 0, "TtoN": 1, "BtoN": 2, "BtoB": 4, "NtoN": 5}), "ProbeAckData": ("C", 5, {"TtoB": 0, "TtoN": 1}),
    "Release": ("C", 6, {"TtoB": 0, "TtoN": 1, "BtoN": 2}), "ReleaseData": ("C", 7, {"TtoB": 0, "TtoN": 1}),
    "Grant": ("D", 4, {"toT": 0, "toB": 1}), "GrantData": ("D", 5, {"toT": 0, "toB": 1}), "ReleaseAck": ("D", 6, {}), "GrantAck": ("E", 0, {}),
}
# What tlcheck says of a run that takes the messages of several blocks in another order than they were sent.
OTHER_ORDER = b"a message is taken where it is the first of its channel"
# Which channel an event takes its message from.
TAKES = {"accept": "A", "answer_probe": "B", "take_c": "C", "take_grant": "D", "take_release_ack": "D", "take_grant_ack": "E"}


class WithBytes:
    """A trace whose events between home and the memory have their bytes."""

    def of_memory(self, call, block, answer, kinds, home):
        entry = super().of_memory(call, block, answer, kinds, home)
        if entry is not None and answer[0] == "memory" and answer[2] in ("AccessAckData", "PutFullData"):
            return f"{entry} {answer[-1]}"
        return entry


class RandomTrace(WithBytes, Trace):
    pass


class GeneratedTrace(WithBytes, GivenTrace):
    pass


class Numbers:
    """Numbers in use, by what uses them: each new one is the lowest that is free, from a first one on."""

    def __init__(self):
        self.used = {}

    def take(self, key, first=0):
        number = first
        while number in self.used.values():
            number += 1
        self.used[key] = number
        return number

    def free(self, key):
        return self.used.pop(key)


class Monitor:
    """The messages of one home's events: each with its link, its channel, its words, and from when to when it is on its
    way."""

    def __init__(self, numbers, rng, sources=16):
        self.numbers, self.rng, self.each = numbers, rng, sources
        self.base = rng.choice([0, 0x8000_0000, 0xFFFF_FFFF_8000_0000])
        self.size = numbers["block_bytes"].bit_length() - 1
        self.seen, self.waiting = [], {}
        self.requests = [Numbers() for _ in range(numbers["clients"])]
        self.releases = [Numbers() for _ in range(numbers["clients"])]
        self.sinks, self.outward, self.kind = Numbers(), Numbers(), {}

    def address(self, block):
        return f"address=0x{self.base + block * self.numbers['block_bytes']:08x}"

    def send(self, time, link, channel, words):
        message = {"link": link, "channel": channel, "words": words, "from": time, "to": None}
        self.seen.append(message)
        self.waiting.setdefault((link, channel), []).append(message)

    def take(self, time, link, channel):
        self.waiting[link, channel].pop(0)["to"] = time

    def event(self, time, words):
        call = words[0]
        if call in ("load", "store"):
            address = self.base + int(words[2], 16)
            self.seen.append({"link": f"c{words[1]}", "channel": "core", "words": [call, f"0x{address:08x}", words[3]], "from": time, "to": time})
        elif call in ("get", "put", "serve", "take_data", "take_put_ack", "drop"):
            self.memory(time, call, int(words[1]), words[2:])
        else:
            client, block = int(words[1]), int(words[2])
            if call in TAKES:
                self.take(time, f"c{client}", TAKES[call])
            shown = words[4:] if call in ("acquire", "release", "probe") else words[3:]
            if shown:
                self.message(time, client, block, *shown)
            self.close(call, client, block)

    def close(self, call, client, block):
        """Which numbers are free once an event has taken its message."""
        if call == "take_grant":
            self.requests[client].free(block)
        elif call == "take_release_ack":
            self.releases[client].free(block)
        elif call == "take_grant_ack":
            self.sinks.free(block)

    def message(self, time, client, block, kind, param=None, data=None):
        channel, opcode, params = CODES[kind]
        words = [channel, str(opcode)]
        if channel != "E":
            words += [f"param={params.get(param, 0)}", f"size={self.size}"]
        if channel == "A":
            words.append(f"source={self.requests[client].take(block, client * self.each)}")
        elif kind in ("Release", "ReleaseData"):
            words.append(f"source={self.releases[client].take(block, client * self.each)}")
        elif channel in "BC":
            words.append(f"source={client * self.each}")
        elif kind == "ReleaseAck":
            words.append(f"source={self.releases[client].used[block]}")
        elif channel == "D":
            words += [f"source={self.requests[client].used[block]}", f"sink={self.sinks.take(block)}"]
        else:
            words.append(f"sink={self.sinks.used[block]}")
        if channel in "ABC":
            words.append(self.address(block))
        if data is not None:
            words.append(f"data={data}")
        self.send(time, f"c{client}", channel, words)

    def memory(self, time, call, block, data):
        data = [f"data={data[0]}"] if data else []
        if call in ("get", "put"):
            self.kind[block] = call
            source = self.outward.take(block)
            opcode = "4" if call == "get" else "0"
            self.send(time, "m", "A", ["A", opcode, f"size={self.size}", f"source={source}", self.address(block), *data])
        elif call == "serve":
            # (the memory answers blocks in any order, so what it takes need not be the first)
            opcode = "1" if self.kind[block] == "get" else "0"
            self.answered(time, "A", block)
            self.send(time, "m", "D", ["D", opcode, f"size={self.size}", f"source={self.outward.used[block]}", *data])
        elif call in ("take_data", "take_put_ack"):
            self.answered(time, "D", block)
            self.outward.free(block)

    def answered(self, time, channel, block):
        source = f"source={self.outward.used[block]}"
        waiting = self.waiting["m", channel]
        message = next(it for it in waiting if source in it["words"])
        waiting.remove(message)
        message["to"] = time

    def at_pins(self):
        """What is seen at the clients' pins, in order of time: what comes from home as it is taken, all else as it is
        sent."""
        timed = []
        for place, it in enumerate(self.seen):
            at = it["to"] if it["channel"] in "BD" and it["link"] != "m" else it["from"]
            if at is not None:
                timed.append((at, place, it))
        return [[str(at * 10), it["link"], *it["words"]] for at, place, it in sorted(timed, key=lambda one: one[:2])]

    def lines(self, delayed):
        """The messages in the order in which a monitor sees them, each with its cycle."""
        last = self.seen[-1]["from"] + 1 if self.seen else 0
        # (from the last on, so that none is seen behind one that is sent after it on its channel)
        latest, timed = {}, []
        for place, it in reversed(list(enumerate(self.seen))):
            wire, to = (it["link"], it["channel"]), last if it["to"] is None else it["to"]
            at = it["from"]
            if delayed and it["channel"] != "core":
                at += self.rng.random() * (min(to, latest.get(wire, to)) - at) * 0.99
            latest[wire] = at
            timed.append((at, place, it))
        return [[str(int(at * 10)), it["link"], *it["words"]] for at, place, it in sorted(timed, key=lambda one: one[:2])]


def record(trace, entries, rng, delayed, monitor=None):
    """The lines of a record, the first lines and those of the messages."""
    numbers = trace.numbers
    if monitor is None:
        monitor = Monitor(numbers, rng)
        for time, line in enumerate(entries):
            monitor.event(time, line.split(" "))
    head = ["jvwire 1", f"shape clients={numbers['clients']} block={numbers['block_bytes']} blocks={numbers['memory_blocks']} base=0x{monitor.base:08x}"]
    head += [f"source client={c} from={c * monitor.each} to={c * monitor.each + monitor.each - 1}" for c in range(numbers["clients"])]
    head += [f"image {trace.image.hex()}"] if trace.image else []
    return head, monitor.lines(delayed)


def headed(head, *premises):
    """The head with lines that say how the record was seen, which stand before the image."""
    at = len(head) - head[-1].startswith("image ")
    return [*head[:at], *premises, *head[at:]]


def without(lines, memory, cores):
    """The lines that are left where nobody watched the memory's link, or the cores; and the premises that say so."""
    premises = ["memory unseen"] * memory + ["cores unseen"] * cores
    return premises, [line for line in lines if not (memory and line[1] == "m" or cores and line[2] in ("load", "store"))]


def text(head, lines):
    return "\n".join(head + [" ".join(line) for line in lines]) + "\n"


def damaged(rng, lines):
    """A record with one thing changed, and what; None where there is nothing of it."""
    lines = [list(line) for line in lines]
    what = rng.choice(["dropped", "byte", "param", "exchanged"])
    if what == "dropped":
        del lines[rng.randrange(len(lines))]
        return what, lines
    if what == "byte":
        places = [(i, k) for i, line in enumerate(lines) for k, word in enumerate(line)
                  if word.startswith("data=") or line[2] in ("load", "store") and k == 4]
        if not places:
            return None
        i, k = rng.choice(places)
        key, _, data = lines[i][k].rpartition("=")
        at = 2 * rng.randrange(len(data) // 2)
        byte = (int(data[at:at + 2], 16) + rng.randrange(1, 256)) % 256
        lines[i][k] = (key + "=" if key else "") + data[:at] + f"{byte:02x}" + data[at + 2:]
        return what, lines
    if what == "param":
        places = [(i, k) for i, line in enumerate(lines) for k, word in enumerate(line) if word.startswith("param=")]
        if not places:
            return None
        i, k = rng.choice(places)
        old = int(lines[i][k].removeprefix("param="))
        lines[i][k] = f"param={rng.choice([p for p in range(6) if p != old])}"
        return what, lines
    i = rng.randrange(len(lines))
    others = [j for j, line in enumerate(lines) if line[1:3] == lines[i][1:3] and line[3:] != lines[i][3:]]
    if not others:
        return None
    j = rng.choice(others)
    lines[i][3:], lines[j][3:] = lines[j][3:], lines[i][3:]
    return what, lines


class Wire:
    def __init__(self, tlcache, tlwire, tlgen, tlcheck, damages, folder):
        self.tlcache, self.tlwire, self.tlgen, self.tlcheck = tlcache, tlwire, tlgen, tlcheck
        self.damages, self.folder = damages, folder

    def ask(self, words, given):
        try:
            ran = subprocess.run([*words, "-"], input=given.encode(), capture_output=True, timeout=PATIENCE)
        except subprocess.TimeoutExpired:
            return "no answer", b"", b""
        return ran.returncode, ran.stdout, ran.stderr

    def trace_of(self, name, given):
        path = os.path.join(self.folder, name)
        with open(path, "w", encoding="utf-8") as it:
            it.write(given)
        ran = subprocess.run([self.tlcache, "trace", path], capture_output=True, timeout=PATIENCE)
        os.remove(path)
        return ran.returncode, ran.stdout, ran.stderr

    def grown(self, seed):
        ask = lambda given: self.trace_of(f"trace{seed}", given)
        if self.tlgen:
            words = [self.tlgen, str(seed), "trace", "ways=1"]
            script = subprocess.run(words, capture_output=True, timeout=PATIENCE, check=True).stdout.decode()
            trace = GeneratedTrace(script, ask)
        else:
            trace = RandomTrace(seed, ask)
        trace.learn(*places(trace.numbers))
        return trace, trace.grow()

    def explained(self, head, lines):
        """What is wrong with the answer to a record that has an explanation, if anything is."""
        status, output, fault = self.ask([self.tlwire], text(head, lines))
        if status != 0 or not output.startswith(f"explained: {len(lines)} seen, ".encode()):
            return f"status {status}: {output.decode()}{fault.decode()}"
        if self.tlcheck:
            _, run, _ = self.ask([self.tlwire, "--run"], text(head, lines))
            status, output, fault = self.ask([self.tlcheck], run.decode())
            # (a run of no events over no image is no record)
            if status != 0 and lines and OTHER_ORDER not in output:
                return f"the run: status {status}: {output.decode()}{fault.decode()}"
        return None

    def expected(self, rng, head, lines):
        """What is wrong with the answer to such a record, whose header expects something of its exchanges."""
        texts, end = [" ".join(line) for line in lines], int(lines[-1][0])
        quiet, patience, expects = headers.expectation(rng, headers.exchanges(list(enumerate(texts, 1))), end)
        head = headed(head, *expects)
        all_of = headers.exchanges(list(enumerate(texts, len(head) + 1)))
        wrong = headers.unmet(all_of, end, quiet, patience)
        status, output, fault = self.ask([self.tlwire], text(head, lines))
        first, rest = headers.parted(output.decode())
        if (status, rest) != (1 if wrong else 0, headers.behind(all_of, end)) or wrong and first != wrong:
            return f"status {status}: {output.decode()}{fault.decode()}instead of {wrong}{headers.behind(all_of, end)}"
        return None

    def trace(self, seed):
        rng = random.Random(f"wire {seed}")
        trace, wrong = self.grown(seed)
        if wrong:
            return [f"trace {seed}: {wrong}"], 0, 0, {}
        said, records, messages, counts = [], 0, 0, {}
        for bank, given in enumerate(trace.records()):
            entries = [line for line in given.splitlines() if not line.startswith(("clients", "image"))]
            for delayed in (False, True):
                head, lines = record(trace, entries, rng, delayed)
                whole = headed(head, "whole")
                wrong = self.explained(whole, lines) or lines and self.expected(random.Random(f"{seed} {bank} {delayed}"), whole, lines)
                records, messages = records + 1, messages + len(lines)
                if wrong:
                    said.append(f"trace {seed}, bank {bank}, delayed {delayed}: {wrong}")
            for _ in range(self.damages):
                self.damage(rng, headed(head, "whole"), lines, counts, "whole, ")
            monitor = Monitor(trace.numbers, rng)
            for time, line in enumerate(entries):
                monitor.event(time, line.split(" "))
            head, lines = record(trace, entries, rng, False, monitor)
            said += [f"trace {seed}, bank {bank}: {it}" for it in self.at_pins(rng, head, monitor.at_pins(), counts)]
        return said, records, messages, counts

    def at_pins(self, rng, head, lines, counts):
        """What is wrong with the answers to a record at the clients' pins, cut or not, of which some may not have been
        seen."""
        said = []
        for cut in (False, True):
            some = lines[:rng.randrange(len(lines) + 1)] if cut else lines
            for memory, cores in ((False, False), (True, False), (False, True), (True, True)):
                premises, left = without(some, memory, cores)
                what = " ".join(["seen at clients", *(["cut"] if cut else []), *premises])
                given = text(headed(head, "seen at clients", *premises), left)
                status, output, fault = self.ask([self.tlwire], given)
                told = {0: "explained", 6: "not decided"}.get(status, f"status {status}")
                # (a record of no line over no image is no record)
                if status == 3 and fault.startswith(b"error 51"):
                    continue
                counts[what, told] = counts.get((what, told), 0) + 1
                if status not in (0, 6):
                    said.append(f"{what}: status {status}: {output.decode()}{fault.decode()}")
        for _ in range(self.damages):
            self.damage(rng, headed(head, "seen at clients"), lines, counts, "seen at clients, ")
        return said

    def damage(self, rng, head, lines, counts, what):
        if not lines:
            return
        changed = damaged(rng, lines)
        if changed is None:
            return
        status, output, fault = self.ask([self.tlwire], text(head, changed[1]))
        told = {0: "explained", 1: "impossible", 6: "not decided", 3: fault.decode()[:8]}.get(status, f"status {status}")
        counts[what + changed[0], told] = counts.get((what + changed[0], told), 0) + 1


def option(words, name):
    if name not in words[:-1]:
        return None
    place = words.index(name)
    value = words[place + 1]
    del words[place:place + 2]
    return value


def main():
    words = sys.argv[1:]
    tlgen, tlcheck, damages = option(words, "--tlgen"), option(words, "--tlcheck"), option(words, "--damages")
    if len(words) < 2:
        sys.exit(__doc__)
    traces, seed = ([int(word) for word in words[2:]] + [200, 1][len(words) - 2:])[:2]
    tools = [it and os.path.abspath(it) for it in (words[0], words[1], tlgen, tlcheck)]
    wrong, records, messages, counts = [], 0, 0, {}
    with tempfile.TemporaryDirectory() as folder, ThreadPoolExecutor(2) as pool:
        wire = Wire(*tools, int(damages or 10), folder)
        for said, some, more, told in pool.map(wire.trace, range(seed, seed + traces)):
            wrong, records, messages = wrong + said, records + some, messages + more
            for key, count in told.items():
                counts[key] = counts.get(key, 0) + count
    print(f"{traces} traces: {records} records of {messages} lines, whole; {len(wrong)} wrong answers")
    for (what, told), count in sorted(counts.items()):
        print(f"{what}: {count} {told}")
    for it in wrong[:20]:
        print(it)
    sys.exit(1 if wrong or any(told.startswith("status") for _, told in counts) else 0)


if __name__ == "__main__":
    main()
