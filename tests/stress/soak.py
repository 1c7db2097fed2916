#!/usr/bin/env python3
"""soak.py TLCACHE TLCHECK [RUNS] [TRACES] [SEED] [--tlgen TLGEN]: plays random scripts through `run` and `trace`, and
checks each answer by itself.

A run: status 0; each client's lines are its commands, in order; a client sees its own last store to a byte, where no
other stores there; of the stores of one writer it never sees an older one after a newer one; with one client each load
is exact; each bank's held equals its recorded. A trace: random steps, each next one made of the answers before, a share
of them refused; the events that the answers tell are given to tlcheck, bank by bank, which must call them lawful.
Prints the figures, and ends with status 1 where an answer was another.

With --tlgen the scripts are those that TLGEN, a built tlgen, prints. Their stores are of any bytes: of a run each byte
of a load is the image's or was stored there by somebody, and where nobody else stores there, the client's own last one;
of a trace as many steps are refused as the script's first line says.
"""
import os
import random
import subprocess
import sys
import tempfile
import tomllib
from concurrent.futures import ThreadPoolExecutor

PATIENCE = 120


def geometry(rng, clients):
    banks = rng.choice([1, 1, 2, 4, 8])
    return {
        "version": 2 if clients > 8 else rng.choice([1, 2]), "clients": clients, "banks": banks, "block_bytes": rng.choice([8, 16, 32, 64]),
        "sets": rng.choice([1, 2, 4]), "ways": rng.randint(1, 4), "registers": rng.randint(1, 4), "copies": rng.randint(1, 6),
        "memory_blocks": rng.randint(1, 24), "turns": 1_000_000,
    }


def document(numbers, image, tail):
    lines = [f"{key} = {value}" for key, value in numbers.items()] + [f'image = "{image.hex()}"', tail, ""]
    return "\n".join(lines)


def array(texts):
    return "[" + ", ".join(f'"{it}"' for it in texts) + "]"


def wrong_report(run, banks, status, output, fault):
    """What is wrong with the answer of a run, if anything is: its own `line` judges each line of a client."""
    if status or fault:
        return f"status {status}, {fault!r}"
    lines = iter(output.decode().splitlines())
    for client, commands in enumerate(run.commands):
        if next(lines) != f"client {client}":
            return f"no line of client {client}"
        seen = {}
        for index, command in enumerate(commands):
            said = run.line(client, index, command, next(lines), seen)
            if said:
                return said
    for bank in range(banks):
        words = next(lines).split(" ")
        if words[:3] != ["bank", str(bank), "held"] or words[4] != "recorded" or words[3] != words[5]:
            return f"bank {bank}: {words}"
    return None if list(lines) == ["ok"] else "no end"


class Run:
    """A random script of commands, and the check of its report. Each byte has at most one writer: the client of its
    address's place."""

    def __init__(self, seed):
        rng = self.rng = random.Random(f"run {seed}")
        self.clients = rng.choice([1, 1, 2, 2, 3, 4, 8, 16])
        self.numbers = geometry(rng, self.clients)
        self.size = self.numbers["block_bytes"] * self.numbers["memory_blocks"]
        # (no byte of the image looks like the number of a store)
        self.image = bytes(rng.randrange(128, 256) for _ in range(rng.randint(0, min(self.size, 64))))
        self.written = [0] * self.clients
        self.commands = [[self.command(client) for _ in range(rng.choice([0, 5, 20, 60]))] for client in range(self.clients)]

    def address(self, length):
        block = self.rng.randrange(self.numbers["memory_blocks"])
        return block * self.numbers["block_bytes"] + self.rng.randrange(self.numbers["block_bytes"] - length + 1)

    def command(self, client):
        """A store writes one byte of the client's own, with the number of its store; a load or a drop is of any."""
        kind = self.rng.choice(["load", "load", "store", "store", "drop"])
        if kind == "load":
            length = self.rng.randint(1, 8)
            return ("load", self.address(length), length)
        if kind == "drop":
            return ("drop", self.address(1), None)
        own = [at for at in range(min(self.size, 256)) if at % self.clients == client]
        if not own or self.written[client] >= 127:
            return ("load", self.address(1), 1)
        self.written[client] += 1
        return ("store", self.rng.choice(own), bytes([self.written[client]]))

    def text(self):
        words = []
        for commands in self.commands:
            words.append(array([f"{kind} 0x{at:x}" + ("" if kind == "drop" else f" {it.hex() if kind == 'store' else it}") for kind, at, it in commands]))
        return document(self.numbers, self.image, "commands = [" + ", ".join(words) + "]")

    def first(self, at):
        return self.image[at] if at < len(self.image) else 0

    def wrong(self, status, output, fault):
        """What is wrong with an answer, if anything is."""
        return wrong_report(self, self.numbers["banks"], status, output, fault)

    def line(self, client, index, command, line, seen):
        kind, at, it = command
        begin = f"{index} {kind} 0x{at:08x}"
        if kind == "drop":
            return None if line == begin else f"{line}, and not {begin}"
        if kind == "store":
            seen[at] = it[0]
            return None if line == f"{begin} {it.hex()}" else f"{line}, and not a store of {it.hex()}"
        got = bytes.fromhex(line.removeprefix(begin + " "))
        if len(got) != it:
            return f"{line}: {len(got)} bytes"
        for place, byte in enumerate(got, at):
            writer = place % self.clients if place < min(self.size, 256) else None
            stored = {c[2][0] for c in self.commands[writer] if c[0] == "store" and c[1] == place} if writer is not None else set()
            if writer == client or not stored:
                if byte != seen.get(place, self.first(place)):
                    return f"{line}: byte {place:#x} of client {client} is not its last store"
            elif place in seen and byte != seen[place] and (byte not in stored or seen[place] in stored and byte < seen[place]):
                return f"{line}: byte {place:#x} went back"
            elif byte not in stored and byte != self.first(place):
                return f"{line}: byte {place:#x} was never stored"
            seen[place] = byte
        return None


class Trace:
    """A random script of steps, grown by what the answers before it offer."""

    ROUNDS, STEPS = 12, 12

    def __init__(self, seed, ask):
        rng = self.rng = random.Random(f"trace {seed}")
        self.ask = ask
        self.numbers = geometry(rng, rng.randint(1, 4))
        # (a trace does not name the victim that home probes or drops: with one way it is the one block of the set)
        self.numbers["ways"] = 1
        size = self.numbers["block_bytes"] * self.numbers["memory_blocks"]
        self.image = rng.randbytes(rng.randint(0, min(size, 32)))
        self.size, self.steps, self.waiting, self.answers = size, [], [], []

    def text(self):
        return document(self.numbers, self.image, f"steps = {array(self.steps)}")

    def grow(self):
        for _ in range(self.ROUNDS):
            self.steps += [self.step() for _ in range(self.STEPS)]
            status, output, fault = self.ask(self.text())
            if status or fault:
                return f"status {status}, {fault!r}"
            lines = output.decode().splitlines()
            self.answers = [line.split(" ")[1:] for line in lines[:len(self.steps)]]
            self.look()
        return None

    def look(self):
        """Which tickets were sent and not yet taken."""
        sent, taken = {}, set()
        for step, answer in zip(self.steps, self.answers):
            words = step.split(" ")
            if answer[0] != "refused" and words[1].count(".") == 3:
                taken.add(words[1])
            if answer[0] == "sent":
                sent[answer[1]] = answer[3]
        self.waiting = [(ticket, kind) for ticket, kind in sent.items() if ticket not in taken]

    def step(self):
        rng, block = self.rng, self.rng.randrange(self.numbers["memory_blocks"])
        client = rng.randrange(self.numbers["clients"])
        if self.waiting and rng.random() < 0.45:
            ticket, kind = rng.choice(self.waiting)
            calls = {"AcquireBlock": "accept", "ProbeBlock": "answer_probe", "Grant": "take_grant", "GrantData": "take_grant",
                     "ReleaseAck": "take_release_ack", "GrantAck": "take_grant_ack"}
            return f"{calls.get(kind, 'take_c')} {ticket}"
        at = rng.randrange(self.size)
        return rng.choice([
            f"acquire {client} {block} {rng.choice(['NtoB', 'NtoT', 'BtoT'])}", f"acquire {client} {block} {rng.choice(['NtoB', 'NtoT'])}",
            f"release {client} {block} {rng.choice(['TtoB', 'TtoN', 'BtoN'])}", f"advance {block}", f"advance {block}", f"advance {block}",
            f"serve_memory {block}", f"take_memory {block}", f"serve_memory {block}", f"take_memory {block}", f"evict {block}",
            f"load {client} 0x{at:x} 1", f"store {client} 0x{at:x} {rng.getrandbits(8):02x}",
        ])

    def records(self):
        """A record for each bank; None where a block's place is not known."""
        numbers = self.numbers
        head = f"clients {numbers['clients']} block_bytes {numbers['block_bytes']} memory_blocks {numbers['memory_blocks']}\n"
        head += f"image {self.image.hex()}\n" if self.image else ""
        records, of_block, kinds, home = {}, {}, {}, {}
        for step, answer in zip(self.steps, self.answers):
            if answer[0] == "refused":
                continue
            line = self.entry(step.split(" "), answer, of_block, kinds, home)
            if line is not None:
                records.setdefault(self.bank_of(step), []).append(line)
        return [head + "".join(line + "\n" for line in lines) for lines in records.values()]

    def bank_of(self, step):
        words = step.split(" ")
        return words[1].split(".")[0] if words[1].count(".") == 3 else self.banks[self.block_of(words)]

    def block_of(self, words):
        if words[0] in ("load", "store"):
            return int(words[2], 16) // self.numbers["block_bytes"]
        return int(words[2] if words[0] in ("acquire", "release") else words[1])

    def entry(self, words, answer, of_block, kinds, home):
        call, shown = words[0], " ".join(answer[3:]) if answer[0] == "sent" else ""
        if call in ("load", "store"):
            return f"{call} {words[1]} {words[2]} {answer[1] if call == 'load' else words[3]}"
        if words[1].count(".") == 3:
            client, block = words[1].split(".")[1], of_block[words[1]]
            if answer[0] == "sent":
                of_block[answer[1]] = block
            return f"{call} {client} {block} {shown}".strip()
        block = self.block_of(words)
        if answer[0] == "sent":
            if answer[3] == "ProbeBlock":
                block = home[self.place(block)]
            of_block[answer[1]] = block
            client = answer[1].split(".")[1]
            if call in ("acquire", "release"):
                return f"{call} {client} {block} {words[3]} {shown}"
            return f"probe {client} {block} {answer[4]} {shown}" if answer[3] == "ProbeBlock" else f"grant {client} {block} {shown}"
        return self.of_memory(call, block, answer, kinds, home)

    def of_memory(self, call, block, answer, kinds, home):
        place = self.place(block)
        if call == "evict":
            return None
        if answer[0] == "drop":
            return f"drop {home.pop(place)}"
        if call == "serve_memory":
            return f"serve {block}"
        if call == "take_memory":
            if kinds.pop(block) == "Get":
                home[place] = block
                return f"take_data {block}"
            return f"take_put_ack {block}"
        moved = int(answer[4], 16) // self.numbers["block_bytes"]
        kinds[moved] = answer[2]
        if answer[2] == "Get":
            return f"get {moved}"
        home.pop(place)
        return f"put {moved}"

    def place(self, block):
        return (self.banks[block], self.sets[block])

    def learn(self, banks, sets):
        self.banks, self.sets = banks, sets


class GivenRun:
    """A script that tlgen prints for `run`, and the check of its report."""

    def __init__(self, text):
        script = tomllib.loads(text)
        self.script, self.banks = text, script["banks"]
        self.image = bytes.fromhex(script["image"])
        self.commands = [[command.split(" ") for command in commands] for commands in script["commands"]]
        # (who stored which bytes at each address)
        self.stores = {}
        for client, commands in enumerate(self.commands):
            for words in commands:
                if words[0] == "store":
                    for at, byte in enumerate(bytes.fromhex(words[2]), int(words[1], 16)):
                        self.stores.setdefault(at, []).append((client, byte))

    def text(self):
        return self.script

    def wrong(self, status, output, fault):
        """What is wrong with an answer, if anything is."""
        return wrong_report(self, self.banks, status, output, fault)

    def line(self, client, index, words, line, own):
        begin = " ".join([str(index), *words[:2]])
        if words[0] != "load":
            own.update(enumerate(bytes.fromhex(words[2]), int(words[1], 16)) if words[0] == "store" else ())
            return None if line == " ".join([str(index), *words]) else f"{line}, and not {words}"
        got = bytes.fromhex(line.removeprefix(begin + " "))
        if len(got) != int(words[2]):
            return f"{line}: {len(got)} bytes"
        for at, byte in enumerate(got, int(words[1], 16)):
            first = self.image[at] if at < len(self.image) else 0
            stores = self.stores.get(at, [])
            if all(writer == client for writer, _ in stores):
                if byte != own.get(at, first):
                    return f"{line}: byte {at:#x} of client {client} is not its last store"
            elif byte != first and all(byte != stored for _, stored in stores):
                return f"{line}: byte {at:#x} was never stored"
        return None


class GivenTrace(Trace):
    """A script that tlgen prints for `trace`."""

    def __init__(self, text, ask):
        script = tomllib.loads(text)
        self.ask, self.script, self.numbers, self.steps = ask, text, script, script["steps"]
        self.image = bytes.fromhex(script["image"])

    def grow(self):
        status, output, fault = self.ask(self.script)
        if status or fault:
            return f"status {status}, {fault!r}"
        self.answers = [line.split(" ")[1:] for line in output.decode().splitlines()[:len(self.steps)]]
        refused = sum(answer[0] == "refused" for answer in self.answers)
        told = self.script.splitlines()[0]
        return None if told == f"# {len(self.steps)} steps, {refused} of them refused" else f"{refused} refused, and not {told}"


def places(numbers):
    """Each block's bank, the exclusive or of its groups of bits, and its set."""
    bank_bits, set_bits = numbers["banks"].bit_length() - 1, numbers["sets"].bit_length() - 1
    banks, sets = [], []
    for block in range(numbers["memory_blocks"]):
        bank, rest = 0, block
        while bank_bits and rest:
            bank ^= rest & (numbers["banks"] - 1)
            rest >>= bank_bits
        banks.append(str(bank))
        sets.append((block >> bank_bits) & ((1 << set_bits) - 1))
    return banks, sets


class Soak:
    def __init__(self, tlcache, tlcheck, tlgen, folder):
        self.tlcache, self.tlcheck, self.tlgen, self.folder = tlcache, tlcheck, tlgen, folder

    def given(self, seed, *words):
        """What tlgen prints."""
        return subprocess.run([self.tlgen, str(seed), *words], capture_output=True, timeout=PATIENCE, check=True).stdout.decode()

    def answer(self, words, name, text):
        path = os.path.join(self.folder, name)
        with open(path, "w", encoding="utf-8") as it:
            it.write(text)
        try:
            ran = subprocess.run([*words, path], capture_output=True, timeout=PATIENCE)
        except subprocess.TimeoutExpired:
            return "no answer", b"", b""
        os.remove(path)
        return ran.returncode, ran.stdout, ran.stderr

    def run(self, seed):
        run = GivenRun(self.given(seed, "run")) if self.tlgen else Run(seed)
        return run.wrong(*self.answer([self.tlcache, "run"], f"run{seed}", run.text()))

    def trace(self, seed):
        ask = lambda text: self.answer([self.tlcache, "trace"], f"trace{seed}", text)
        # (with one way, as above)
        trace = GivenTrace(self.given(seed, "trace", "ways=1"), ask) if self.tlgen else Trace(seed, ask)
        trace.learn(*places(trace.numbers))
        wrong = trace.grow()
        if wrong:
            return wrong, 0, 0
        entries = 0
        for record in trace.records():
            status, output, fault = self.answer([self.tlcheck], f"record{seed}", record)
            entries += sum(not line.startswith(("clients", "image")) for line in record.splitlines())
            if status:
                return f"{output.decode()}{fault.decode()}", 0, 0
        return None, len(trace.steps), entries


def main():
    words, tlgen = sys.argv[1:], None
    if "--tlgen" in words[:-1]:
        place = words.index("--tlgen")
        tlgen = os.path.abspath(words[place + 1])
        del words[place:place + 2]
    if len(words) < 2:
        sys.exit(__doc__)
    runs, traces, seed = ([int(word) for word in words[2:]] + [1000, 200, 1][len(words) - 2:])[:3]
    wrong = []
    with tempfile.TemporaryDirectory() as folder, ThreadPoolExecutor(2) as pool:
        soak = Soak(os.path.abspath(words[0]), os.path.abspath(words[1]), tlgen, folder)
        for number, said in enumerate(pool.map(soak.run, range(seed, seed + runs)), seed):
            if said:
                wrong.append(f"run {number}: {said}")
        print(f"{runs} runs: {len(wrong)} others", flush=True)
        steps = entries = 0
        for number, (said, played, judged) in enumerate(pool.map(soak.trace, range(seed, seed + traces)), seed):
            steps, entries = steps + played, entries + judged
            if said:
                wrong.append(f"trace {number}: {said}")
        print(f"{traces} traces of {steps} steps, {entries} of them events that were judged lawful")
    for it in wrong[:20]:
        print(it)
    sys.exit(1 if wrong else 0)


if __name__ == "__main__":
    main()
