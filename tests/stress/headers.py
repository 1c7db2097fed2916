#!/usr/bin/env python3
"""headers.py TLWIRE [RECORDS] [SEED]: what a header expects of a record's exchanges, and which lines it leaves out.

Small records of closed.py, as they are and damaged, in each way of seeing, of clients that drop clean copies too, get
cycles of their own. tlwire answers each twice: as it is, and with lines more. What stands behind the first answer, the
exchanges that are open at the end and the longest wait, is compared byte for byte with a reckoning of its own, which
reads the record by docs/RECORD.md alone. The second answer is foretold whole from the first:

- expected: the header has `ends quiet`, `patience NUM` or both. A record that is not impossible is `too long` or
  `not quiet` just where the reckoning says so, with the first such exchange; else the answer stays as it was.
- left out: the header names agents by their sources, or addresses, and the record has messages, loads and stores of
  them: Gets and Intents anywhere, Puts, atomics and exchanges of the coherence protocol beside the judged memory, on
  each link, with sources that the judged messages use at other times. The answer stays as it was, by the new numbers of
  the lines, and counts those that are left out. The header may expect something too.
- refused: one such line could write the judged memory, or is of an agent or at an address that the header does not
  name. Then the record has no answer: that line is refused, with the status 3 and its cause.

RECORDS is the number of records of each of the three. Prints a table of the answers, and ends with status 1 where an
answer was another.
"""
import os
import random
import re
import subprocess
import sys
import tempfile
from concurrent.futures import ThreadPoolExecutor

import closed

KINDS = ("expected", "left out", "refused")
LAST = 2 ** 32 - 1
TOP = 2 ** 64


# ## Exchanges

def exchanges(lines):
    """The exchanges of numbered lines in their order, each with its line, its response and the answer's line or None."""
    requests, releases, grants, opened, answers = {}, {}, {}, [], {}
    for number, line in lines:
        _, link, channel, opcode, *rest = line.split(" ")
        if channel in ("load", "store"):
            continue
        fields = dict(word.split("=") for word in rest)
        source, sink, place = (link, fields.get("source")), (link, fields.get("sink")), fields.get("address")
        opens = answer = None
        if channel == "A":
            opens = {"6": "Grant", "4": "AccessAckData", "0": "AccessAck"}[opcode]
            requests[source] = place
        elif channel == "B":
            opens = "ProbeAck"
        elif channel == "C" and opcode in "45":
            answer = "ProbeAck"
        elif channel == "C":
            opens = "ReleaseAck"
            releases[source] = place
        elif channel == "D" and opcode == "6":
            answer, place = "ReleaseAck", releases.pop(source)
        elif channel == "D":
            answer, place = {"4": "Grant", "5": "Grant", "1": "AccessAckData", "0": "AccessAck"}[opcode], requests.pop(source)
            if answer == "Grant":
                opens = "GrantAck"
                grants[sink] = place
        else:
            answer, place = "GrantAck", grants.pop(sink)
        if opens:
            opened.append((number, line, (link, place, opens)))
        if answer:
            answers.setdefault((link, place, answer), []).append((number, line))
    return [(number, line, key[2], answers[key].pop(0) if answers.get(key) else None) for number, line, key in opened]


def cycle_of(line):
    return int(line.split(" ", 1)[0])


def wait_of(exchange, end):
    """For how many cycles an exchange is open."""
    _, line, _, answer = exchange
    return max(0, (cycle_of(answer[1]) if answer else end) - cycle_of(line))


def told(head, exchange, end):
    """A line of the answer on an exchange."""
    number, line, response, answer = exchange
    wait = wait_of(exchange, end)
    until = f"until its {response} in line {answer[0]}" if answer else f"without its {response}"
    return f"{head}: line {number}, since cycle {cycle_of(line)}, for {wait} cycle{'' if wait == 1 else 's'}, {until}: {line}\n"


def behind(all_of, end):
    """What stands behind an answer."""
    answered = [it for it in all_of if it[3]]
    longest = [max(answered, key=lambda it: wait_of(it, end))] if answered else []
    return "".join([told("open at the end", it, end) for it in all_of if not it[3]] + [told("longest wait", it, end) for it in longest])


def unmet(all_of, end, quiet, patience):
    """What the header expects and the record does not keep; nothing where it keeps all."""
    long = [it for it in all_of if patience and wait_of(it, end) > min(patience)]
    left = [it for it in all_of if quiet and not it[3]]
    return told("too long", long[0], end) if long else told("not quiet", left[0], end) if left else ""


def parted(output):
    """An answer, and what stands behind it."""
    lines = output.splitlines(keepends=True)
    first = next((i for i, line in enumerate(lines) if line.startswith(("open at the end", "longest wait"))), len(lines))
    return "".join(lines[:first]), "".join(lines[first:])


# ## Records

def with_cycles(rng, lines):
    """The lines with cycles that go on by small and large steps."""
    cycle, most, out = rng.choice([0, 0, 1000, LAST - 100_000]), rng.choice([1, 3, 30]), []
    for line in lines:
        cycle += rng.choice([0, rng.randint(0, most), rng.randint(0, most), rng.randint(0, 20 * most)])
        out.append(f"{cycle} {line.split(' ', 1)[1]}")
    return out


def base_record(rng):
    """A small record: its header, its image and its lines, its shape, and where its memory begins and ends; None where
    the walk gives none."""
    it = (closed.small if rng.random() < 0.7 else closed.small_with_drops)(rng)
    if it is None:
        return None
    walk, lines, record = it[0], it[1], it[-1]
    size = walk.size * walk.blocks
    base = rng.choice([0x8000_0000, 0x8000_0000, 0x1000, 0, TOP - size])
    moved = re.sub(r"0x([0-9a-f]+)", lambda found: f"0x{int(found[1], 16) - 0x8000_0000 + base:x}", record).splitlines()
    head, image, rest = moved[:-len(lines) - 1], moved[-len(lines) - 1], moved[-len(lines):]
    return head, image, with_cycles(rng, rest), walk, base, base + size


def expectation(rng, all_of, end):
    """Lines of the header that expect something of the exchanges: whether they end quiet, and their patience."""
    waits = sorted({wait_of(it, end) for it in all_of}) or [0]
    quiet = rng.random() < 0.5
    patience = [max(0, min(LAST, rng.choice([rng.choice(waits), waits[-1], 100]) + rng.randint(-1, 1))) for _ in range(rng.choice([0, 1, 1, 2, 3]))]
    return quiet, patience, ["ends quiet"] * quiet + [f"patience {most}" for most in patience]


# ## Lines that are left out

class Inserted:
    """Lines of agents and at addresses that a header names, among the lines of a record."""

    def __init__(self, rng, clients, lines, base, end):
        self.rng, self.clients, self.lines, self.base, self.end = rng, clients, lines, base, end
        self.agents = {c: self.range_of_sources() for c in range(clients) if rng.random() < 0.7}
        self.places = [self.range_of_addresses() for _ in range(rng.choice([0, 1, 1, 2]))]
        self.number, self.added = 0, []

    def header(self):
        return ([f"ignored client {c} from {a} to {b}" for c, (a, b) in self.agents.items()]
                + [f"ignored addresses from 0x{a:x} to 0x{b:x}" for a, b in self.places])

    def range_of_sources(self):
        # (judged messages have sources up to some hundreds; a range may have those too)
        return self.rng.choice([(80_000, 80_007), (90_000, 90_000 + 999), (0, LAST), (50_000, 100_000), (LAST, LAST)])

    def range_of_addresses(self):
        rng = self.rng
        first = min(TOP - 1, rng.choice([0, max(0, self.base - 4096), self.base, self.end, 0x1000_0000, rng.randrange(TOP)]))
        last = rng.choice([TOP - 1, first + rng.randint(64, 1 << 20), max(first, self.base - 1), max(first, self.end)])
        return first, min(last, TOP - 1)

    def is_apart(self, address, size):
        return address >= self.end or address + size <= self.base

    def apart(self, size, named):
        """An address of so many bytes beside the memory, of those that are named where it has to be; None for none."""
        rng = self.rng
        ranges = self.places if named else [(0, TOP - 1)]
        for _ in range(8):
            first, last = rng.choice(ranges)
            address = rng.choice([first, last, self.base - size, self.end, rng.randint(first, last), rng.randint(first, last) // size * size])
            if 0 <= address < TOP and (not named or any(a <= address <= b for a, b in self.places)) and self.is_apart(address, size):
                return address
        return None

    def fresh(self):
        self.number += 1
        return self.number

    def data(self, size):
        rng = self.rng
        return [f"data={bytes(rng.randrange(256) for _ in range(min(size, 64))).hex()}"] if rng.random() < 0.8 else []

    def words(self, channel, opcode, **fields):
        rng = self.rng
        out = [f"{key}={value}" for key, value in fields.items() if value is not None]
        out += [f"mask={rng.randrange(256)}"] * (channel in "AB" and rng.random() < 0.2)
        out += ["corrupt=1"] * (channel in "ACD" and rng.random() < 0.05)
        rng.shuffle(out)
        return [channel, str(opcode), *out]

    def uncached(self, link, source, address, bits, opcode):
        """A Get, an Intent, a Put or an atomic, and its answer."""
        size = 1 << bits
        param = self.rng.choice([None, 0, 1, 3]) if opcode in (2, 3) else self.rng.choice([None, 0, 1]) if opcode == 5 else None
        ask = self.words("A", opcode, param=param, size=bits, source=source, address=f"0x{address:x}") + (self.data(size) if opcode < 4 else [])
        answer = self.words("D", {0: 0, 1: 0, 2: 1, 3: 1, 4: 1, 5: 2}[opcode], size=bits, source=source, denied=self.rng.choice([None, None, 1]))
        return [[link, *ask], [link, *answer, *(self.data(size) if opcode in (2, 3, 4) else [])]]

    def acquired(self, link, source, address, bits):
        sink, rng = 1_000_000 + self.fresh(), self.rng
        ask = self.words("A", rng.choice([6, 6, 7]), param=rng.randrange(3), size=bits, source=source, address=f"0x{address:x}")
        opcode = rng.choice([4, 5])
        grant = self.words("D", opcode, param=rng.randrange(2), size=bits, source=source, sink=sink) + (self.data(1 << bits) if opcode == 5 else [])
        return [[link, *ask], [link, *grant], [link, "E", "0", f"sink={sink}"]]

    def released(self, link, source, address, bits):
        rng = self.rng
        opcode = rng.choice([6, 7])
        given = self.words("C", opcode, param=rng.randrange(3), size=bits, source=source, address=f"0x{address:x}")
        given += self.data(1 << bits) if opcode == 7 else []
        return [[link, *given], [link, *self.words("D", 6, size=bits, source=source)]]

    def probed(self, link, source, address, bits):
        rng = self.rng
        opcode = rng.choice([4, 5])
        probe = self.words("B", 6, param=rng.randrange(3), size=bits, source=source, address=f"0x{address:x}")
        answer = self.words("C", opcode, param=rng.randrange(6), size=bits, source=source, address=f"0x{address:x}")
        answer += self.data(1 << bits) if opcode == 5 else []
        return [[link, *probe], [link, *answer]]

    def size(self):
        """The logarithm of a message's bytes: mostly of few, at times of more than there are addresses."""
        return self.rng.randint(0, 6) if self.rng.random() < 0.95 else self.rng.choice([12, 63, 64, 100])

    def agents_lines(self):
        """An exchange of an agent that is named."""
        rng = self.rng
        c = rng.choice(sorted(self.agents))
        a, b = self.agents[c]
        # (those of judged messages are below 50,000)
        source = b if a == b else rng.randint(max(a, 50_000), b)
        bits = self.size()
        opcode = rng.choice([4, 4, 4, 5, 5, 0, 1, 2, 3, "acquire", "release", "probe"])
        if opcode in (4, 5) and rng.random() < 0.6:
            address = rng.randrange(self.base, self.end) >> bits << bits
            return f"c{c}", source, self.uncached(f"c{c}", source, address, bits, opcode)
        address = self.apart(1 << bits, False)
        return None if address is None else (f"c{c}", source, self.exchange(f"c{c}", source, address, bits, opcode))

    def exchange(self, link, source, address, bits, opcode):
        by = {"acquire": self.acquired, "release": self.released, "probe": self.probed}
        return by[opcode](link, source, address, bits) if opcode in by else self.uncached(link, source, address, bits, opcode)

    def named_lines(self):
        """An exchange or an access at an address that is named."""
        rng = self.rng
        link = rng.choice([*(f"c{c}" for c in range(self.clients)), "m"])
        if link != "m" and rng.random() < 0.3:
            size = rng.randint(1, 8)
            address = self.apart(size, True)
            return address is not None and (link, None, [[link, rng.choice(["load", "store"]), f"0x{address:x}", bytes(size).hex()]]) or None
        bits = self.size()
        address = self.apart(1 << bits, True)
        opcode = rng.choice([0, 1, 2, 3, 4, 5] if link == "m" else [0, 1, 2, 3, 4, 5, "acquire", "acquire", "release", "release", "probe", "probe"])
        source = rng.choice([rng.randint(0, 30), 60_000 + self.fresh()])
        return None if address is None else (link, source, self.exchange(link, source, address, bits, opcode))

    def is_free(self, link, source, first, last):
        """Whether a source is that of no judged message that is open between two places."""
        opened = {}
        for place, line in enumerate(self.lines):
            _, at, channel, opcode, *rest = line.split(" ")
            if at != link or f"source={source}" not in rest or channel not in "ACD":
                continue
            table = "release" if channel == "C" or opcode == "6" and channel == "D" else "request"
            if channel == "D":
                if opened.pop(table, place) < last and first <= place:
                    return False
            else:
                opened[table] = place
        return all(place >= last for place in opened.values())

    def add(self):
        """An exchange more, somewhere among the lines; it may have no end."""
        rng = self.rng
        can = [make for make, there in ((self.agents_lines, self.agents), (self.named_lines, self.places)) if there]
        it = rng.choice(can)() if can else None
        if it is None:
            return
        link, source, lines = it
        lines = lines[:rng.randint(1, len(lines))] if rng.random() < 0.15 else lines
        near = rng.randrange(len(self.lines) + 1)
        places = sorted(rng.choice([near, rng.randrange(len(self.lines) + 1)]) for _ in lines)
        first, last = places[0], len(self.lines) + 1 if len(lines) == 1 else places[-1]
        if any((link, source) == (l, s) and first <= q and p <= last for l, s, p, q in self.spans):
            return
        if source is not None and not self.is_free(link, source, first, last):
            return
        self.spans.append((link, source, first, last))
        order = rng.random()
        self.added += [(place, order, i, line) for i, (place, line) in enumerate(zip(places, lines))]

    def all_added(self, rng):
        """The lines with those that are left out among them, each with its cycle, and whether it is."""
        self.spans = []
        for _ in range(rng.randint(1, 12)):
            self.add()
        out, cycle, waiting = [], 0, sorted(self.added, key=lambda it: it[:3])
        for place, line in enumerate([*self.lines, None]):
            there = cycle_of(line) if line else min(LAST, cycle + rng.choice([0, 5, 500]))
            while waiting and waiting[0][0] == place:
                cycle = rng.choice([cycle, rng.randint(cycle, there)])
                out.append((" ".join([str(cycle), *waiting.pop(0)[3]]), True))
            if line:
                cycle = there
                out.append((line, False))
        return out


def refused_line(rng, inserted, are_cores_seen):
    """A line that is not left out, and that the record may not have, without its cycle; and how it is refused."""
    kind = rng.choice(["put", "put", "put", "across", "agent"] + ["address"] * are_cores_seen)
    c, source = rng.randrange(inserted.clients), 40_000
    if inserted.agents:
        c = rng.choice(sorted(inserted.agents))
        source = inserted.agents[c][1]
    names = ["PutFullData", "PutPartialData", "ArithmeticData", "LogicalData"]
    if kind in ("put", "across"):
        opcode, bits = rng.randrange(4), rng.randint(0, 3)
        address = rng.randrange(inserted.base, inserted.end) >> bits << bits
        if kind == "across" and inserted.base:
            # (from below the memory into it)
            bits = rng.randint(1, 6)
            address = max(0, inserted.base - rng.randint(1, (1 << bits) - 1))
        data = [f"data={bytes(min(64, 1 << bits)).hex()}"]
        return f"c{c} A {opcode} size={bits} source={source} address=0x{address:x} {data[0]}", "error 52", names[opcode]
    if kind == "agent":
        others = [x for x in range(inserted.clients) if x not in inserted.agents]
        if not others:
            return None
        address = inserted.base
        return f"c{rng.choice(others)} A 4 size=3 source=40000 address=0x{address:x}", "error 52", "Get"
    for address in (inserted.end, inserted.base - 8):
        if 0 <= address < TOP and not any(a <= address <= b for a, b in inserted.places):
            return f"c0 {rng.choice(['load', 'store'])} 0x{address:x} 00", "error 50", ": the address is outside the memory"
    return None


# ## The trial

def asked(program, lines):
    """The status of tlwire, and what it writes."""
    with tempfile.NamedTemporaryFile("w", suffix=".txt") as file:
        file.write("\n".join(lines) + "\n")
        file.flush()
        run = subprocess.run([program, file.name], capture_output=True, text=True, timeout=600)
        return run.returncode, run.stdout, run.stderr


def renumbered(text, numbers):
    return re.sub(r"\bline (\d+)", lambda found: f"line {numbers[int(found[1])]}", text)


def tried(program, kind, seed):
    """What a record was answered, and what is wrong with it; None where the walk gives none."""
    rng = random.Random(f"{kind} {seed}")
    it = base_record(rng)
    if it is None:
        return None
    head, image, lines, walk, base, end_of_memory = it
    inserted, header, more = None, [], [(line, False) for line in lines]
    if kind != "expected":
        inserted = Inserted(rng, walk.clients, lines, base, end_of_memory)
        header, more = inserted.header(), inserted.all_added(rng)
        if kind == "left out" and not inserted.added:
            return None
    # (in the first record a line that is ignored stands for each line more of the header)
    quiet, patience, expects = False, [], []
    first = len(head) + 2
    if kind == "expected" or rng.random() < 0.3:
        quiet, patience, expects = expectation(rng, exchanges(list(enumerate(lines, first))), cycle_of(lines[-1]))
    header = header + expects
    rng.shuffle(header)
    first += len(header)
    before = list(enumerate(lines, first))
    status, output, fault = asked(program, [*head, *["#"] * len(header), image, *lines])
    if status == 3:
        return (kind, "no record", "no record"), None
    answer, rest = parted(output)
    name = answer.split(":")[0]
    end, all_of = cycle_of(lines[-1]), exchanges(before)
    if status not in (0, 1, 6) or rest != ("" if status == 1 else behind(all_of, end)):
        return (kind, name, "?"), f"status {status}, behind the answer stands:\n{rest}{fault}"
    at = rng.randrange(2, len(head) + 1)
    head = head[:at] + header + head[at:]
    if kind == "refused":
        return refusal(program, rng, inserted, head, image, more, name)
    numbers = dict(zip((number for number, _ in before), (number for number, (_, left) in enumerate(more, first) if not left)))
    there = [(number, line) for number, (line, left) in enumerate(more, first) if not left]
    all_of, end = exchanges(there), cycle_of(more[-1][0])
    left = sum(left for _, left in more)
    counted = f"lines left out: {left}\n" if left else ""
    wrong = unmet(all_of, end, quiet, patience) if status != 1 else ""
    told_now = (wrong or renumbered(answer, numbers)) + counted + ("" if status == 1 else behind(all_of, end))
    got = asked(program, [*head, image, *(line for line, _ in more)])
    row = kind, name, got[1].split(":")[0] if got[1] else "fault"
    if got[:2] != (1 if wrong else status, told_now):
        return row, f"status {got[0]}:\n{got[1]}{got[2]}instead of\n{told_now}"
    return row, None


def refusal(program, rng, inserted, head, image, more, name):
    """The same, of a record with a line that has to be refused."""
    it = refused_line(rng, inserted, "cores unseen" not in head)
    if it is None:
        return None
    line, error, word = it
    place = rng.randrange(len(more) + 1)
    cycle = cycle_of(more[place - 1][0]) if place else 0
    lines = [line for line, _ in more]
    lines.insert(place, f"{cycle} {line}")
    got = asked(program, [*head, image, *lines])
    row = "refused", name, got[2].split(" line ")[0] if got[2] else got[1].split(":")[0]
    if got[:2] != (3, "") or not got[2].startswith(f"{error} line {len(head) + 2 + place}: ") or word not in got[2]:
        return row, f"status {got[0]}:\n{got[1]}{got[2]}instead of\n{error} line {len(head) + 2 + place}: .. {word}"
    return row, None


def main():
    program, records, seed = sys.argv[1], int(sys.argv[2]) if len(sys.argv) > 2 else 1000, int(sys.argv[3]) if len(sys.argv) > 3 else 0
    table, wrong = {}, []
    with ThreadPoolExecutor(os.cpu_count()) as pool:
        for kind in KINDS:
            number, begin = 0, seed
            while number < records:
                seeds = range(begin, begin + records)
                for one, it in zip(seeds, pool.map(lambda s: tried(program, kind, s), seeds)):
                    if it is None or number >= records:
                        continue
                    number += 1
                    table[it[0]] = table.get(it[0], 0) + 1
                    if it[1]:
                        wrong.append(f"{kind} {one}: {it[1]}")
                begin += records
    for row, count in sorted(table.items()):
        print(f"{count:7} {row[0]}: {row[1]}, then {row[2]}")
    print(f"{3 * records} records, {len(wrong)} wrong answers", *wrong[:10], sep="\n")
    sys.exit(1 if wrong else 0)


if __name__ == "__main__":
    main()
