#!/usr/bin/env python3
"""What `tlwave --drops clean` infers, tried: drops.py [LIBRARY [TLWIRE]], the shared library, where it is not installed
with the module.

A home whose directory does not know what its clients dropped, and clients at random that drop clean copies in silence,
are written down as they are seen at the clients' pins. With what is inferred a judge at each client's pins permits
every line, and tlwire, where it is named, calls none of these records impossible. Where a client drops a dirty copy,
the judge stops there. Status 1 where it is otherwise.
"""
import pathlib
import random
import runpy
import subprocess
import sys
import tempfile
import types

HERE = pathlib.Path(__file__).resolve().parent
sys.path.append(str(HERE.parents[1] / "python"))
import jinavoke as jv  # noqa: E402

PLACES = [HERE.parents[1] / "tlwave", HERE.parents[3] / "bin" / "tlwave"]  # in a checkout; installed
CLIENTS, BLOCKS, SIZE = 3, 4, 8
NONE, BRANCH, TIP = range(3)
ACQUIRE, PROBE, PROBE_ACK, RELEASE, GRANT, RELEASE_ACK = 6, 6, 4, 6, 4, 6
N_TO_B, N_TO_T, B_TO_T = range(3)
REPORT = {(TIP, BRANCH): 0, (TIP, NONE): 1, (BRANCH, NONE): 2, (TIP, TIP): 3, (BRANCH, BRANCH): 4, (NONE, NONE): 5}


tlwave = types.SimpleNamespace(**runpy.run_path(str(next(it for it in PLACES if it.is_file()))))


class Copy:
    """What a client has of a block, and what home records of it."""

    def __init__(self):
        self.perm, self.recorded, self.is_dirty, self.waits, self.data = NONE, NONE, False, "", bytes(SIZE)


class Serving:
    """An Acquire that home serves."""

    def __init__(self, client, param):
        self.client, self.param, self.asked, self.unanswered, self.is_granted = client, param, set(), set(), False


class Run:
    """Home and clients at random, and the lines that are seen: (client, channel, fields). `keeps`: home counts what it
    records of the one that asks; `loses`: clients drop dirty copies too."""

    def __init__(self, rng, keeps, loses=False):
        self.rng, self.keeps, self.loses = rng, keeps, loses
        self.copies = {(k, block): Copy() for k in range(CLIENTS) for block in range(BLOCKS)}
        self.wires = {(k, channel): [] for k in range(CLIENTS) for channel in "ABCDE"}
        self.serving, self.memory, self.lines = {}, [bytes(SIZE)] * BLOCKS, []
        self.silent = self.lost = 0

    def seen(self, k, channel, block, **fields):
        self.lines.append((k, channel, dict(block=block, **fields)))

    def step(self):
        k, kind = self.rng.randrange(CLIENTS), self.rng.randrange(12)
        block = self.rng.randrange(BLOCKS)
        it = self.copies[k, block]
        if kind == 0 and not it.waits and it.perm != TIP:
            self.acquire(k, block, it)
        elif kind == 1 and it.perm:
            self.access(k, block, it)
        elif kind == 2 and it.perm and not it.waits:
            self.give_up(k, block, it)
        elif kind == 3 and self.wires[k, "B"]:
            self.answer(k)
        elif kind in (4, 5) and self.wires[k, "D"]:
            self.take(k)
        elif kind == 6 and self.wires[k, "E"]:
            del self.serving[self.wires[k, "E"].pop(0)]
        elif kind in (7, 8) and self.wires[k, "C"]:
            self.on_c(k)
        elif kind == 9 and self.wires[k, "A"] and self.wires[k, "A"][0][0] not in self.serving:
            block, param = self.wires[k, "A"].pop(0)
            self.serving[block] = Serving(k, param)
        elif kind > 9:
            any(self.serve(block, it) for block, it in list(self.serving.items()))

    # ---- clients

    def acquire(self, k, block, it):
        param = B_TO_T if it.perm else self.rng.choice((N_TO_B, N_TO_T))
        it.waits = "Grant"
        self.wires[k, "A"].append((block, param))
        self.seen(k, "A", block, opcode=ACQUIRE, param=param)

    def access(self, k, block, it):
        at = self.rng.randrange(SIZE)
        if it.perm == TIP and self.rng.random() < 0.5:
            it.data, it.is_dirty = it.data[:at] + self.rng.randbytes(1) + it.data[at + 1:], True
            self.lines.append((k, "store", dict(place=block * SIZE + at, data=it.data[at:at + 1])))
        else:
            self.lines.append((k, "load", dict(place=block * SIZE + at, data=it.data[at:at + 1])))

    def give_up(self, k, block, it):
        loses = self.loses and it.is_dirty and self.rng.random() < 0.1
        if loses or not it.is_dirty and self.rng.random() < 0.7:
            self.silent += 1
            self.lost += loses
            it.perm, it.is_dirty = NONE, False
            return
        it.waits = "ReleaseAck"
        self.send_c(k, block, it, RELEASE, NONE)

    def send_c(self, k, block, it, opcode, to):
        words = dict(opcode=opcode + it.is_dirty, param=REPORT[it.perm, to], data=it.data if it.is_dirty else b"")
        it.perm, it.is_dirty = to, False
        self.wires[k, "C"].append((block, words))
        self.seen(k, "C", block, **words)

    def answer(self, k):
        block, cap = self.wires[k, "B"][0]
        it = self.copies[k, block]
        if it.waits == "ReleaseAck":
            return
        self.wires[k, "B"].pop(0)
        self.seen(k, "B", block, opcode=PROBE, param=2 - cap)
        self.send_c(k, block, it, PROBE_ACK, min(cap, it.perm))

    def take(self, k):
        block, words = self.wires[k, "D"].pop(0)
        it = self.copies[k, block]
        it.waits = ""
        self.seen(k, "D", block, **words)
        if words["opcode"] != RELEASE_ACK:
            it.perm, it.data = (BRANCH if words["param"] else TIP), words["data"] or it.data
            self.wires[k, "E"].append(block)
            self.seen(k, "E", block, opcode=0)

    # ---- home

    def on_c(self, k):
        block, words = self.wires[k, "C"].pop(0)
        self.copies[k, block].recorded = {0: BRANCH, 4: BRANCH}.get(words["param"], NONE)
        self.memory[block] = words["data"] or self.memory[block]
        if words["opcode"] >= RELEASE:
            self.wires[k, "D"].append((block, dict(opcode=RELEASE_ACK, param=0, data=b"")))
        else:
            self.serving[block].unanswered.discard(k)

    def serve(self, block, it):
        """A Probe, or the Grant; whether one was sent."""
        cap = BRANCH if it.param == N_TO_B else NONE
        others = [k for k in range(CLIENTS) if k != it.client]
        probed = next((k for k in others if self.copies[k, block].recorded > cap and k not in it.asked), None)
        if probed is not None:
            it.asked.add(probed)
            it.unanswered.add(probed)
            self.wires[probed, "B"].append((block, cap))
        elif not it.unanswered and not it.is_granted:
            it.is_granted = True
            self.grant(block, it, others)
        else:
            return False
        return True

    def grant(self, block, it, others):
        mine = self.copies[it.client, block]
        count = others + ([it.client] if self.keeps and it.param == N_TO_B else [])
        to = TIP if it.param or all(self.copies[k, block].recorded == NONE for k in count) else BRANCH
        has_data = it.param != B_TO_T or mine.recorded == NONE
        mine.recorded = to
        words = dict(opcode=GRANT + has_data, param=TIP - to, data=self.memory[block] if has_data else b"")
        self.wires[it.client, "D"].append((block, words))


def record(lines):
    """The lines as a record has them; sources and sinks are the block's number."""
    for at, (client, channel, it) in enumerate(lines):
        head = f"{at} c{client} {channel}"
        if channel in ("load", "store"):
            yield f"{head} {it['place']:#010x} {it['data'].hex()}"
            continue
        text = f"{head} {it['opcode']}"
        if channel != "E":
            text += f" param={it['param']} size=3"
        if channel in "AD" or channel == "C" and it["opcode"] >= RELEASE:
            text += f" source={it['block']}"
        if channel == "E" or channel == "D" and it["opcode"] != RELEASE_ACK:
            text += f" sink={it['block']}"
        if channel in "ABC":
            text += f" address={it['block'] * SIZE:#010x}"
        yield text + (f" data={it['data'].hex()}" if it.get("data") else "")


def judged(path, lines, client):
    """What a judge at a client's pins says of lines of a record: its first fault, or None."""
    sources = {}
    with jv.PinsJudge(client, path=path, clients=CLIENTS, block_bytes=SIZE, memory_blocks=BLOCKS) as judge:
        for line in lines:
            words = line.split(" ")
            if words[0] == "#" or words[1] != f"c{client}" or words[2] in "BE":
                continue
            if words[2] in ("load", "store"):
                told = judge.see(words[2], bytes.fromhex(words[4]), client=client, place=int(words[3], 16))
            else:
                it = dict(word.split("=") for word in words[4:])
                key = words[2] == "D" and words[3] == "6", it.get("source")
                if "address" in it:
                    sources[words[2] == "C", it.get("source")] = int(it["address"], 16) // SIZE
                block = int(it["address"], 16) // SIZE if "address" in it else sources[key]
                told = judge.see("message", bytes.fromhex(it.get("data", "")), client=client, place=block,
                                 channel="ABCDE".index(words[2]), opcode=int(words[3]), param=int(it["param"]))
            if told.status:
                return line, jv.name_of("JJ_", told.rule, "jj_rule")
    return None


def is_impossible(program, lines, sources):
    """Whether tlwire answers so of a record of these lines, each client at its pins."""
    head = ["jvwire 1", f"shape clients={CLIENTS} block={SIZE} blocks={BLOCKS} base=0x00000000", "memory unseen"]
    head += [f"source client={k} from=0 to={BLOCKS - 1 + sources[k]}" for k in range(CLIENTS)]
    head += [f"seen at client {k}" for k in range(CLIENTS)]
    with tempfile.NamedTemporaryFile("w", suffix=".txt") as file:
        file.write("\n".join([*head, *lines]) + "\n")
        file.flush()
        told = subprocess.run([program, file.name], capture_output=True, text=True, check=False)
    if told.returncode not in (0, 1, 6):
        print(told.stderr)
    return told.returncode, told.returncode not in (0, 6)


def lines_of(seed, loses):
    """What is seen of a run, and of how many copies that were dropped in silence, and of how many dirty ones."""
    rng = random.Random(seed)
    run = Run(rng, seed % 2 == 0, loses)
    while len(run.lines) < 300:
        run.step()
    return list(record(run.lines)), run.silent, run.lost


def main():
    path, program = (sys.argv[1:] + [None, None])[:2]
    the_map = types.SimpleNamespace(clients=CLIENTS, block=SIZE, size=3, sources=[(0, BLOCKS - 1)] * CLIENTS)
    wrong = silent = inferred = undecided = lost = found = 0
    answers = {}
    for seed in range(400):
        lines, count, _ = lines_of(seed, False)
        silent += count
        try:
            drops = tlwave.Drops(lines, the_map)
        except tlwave.Trouble:
            undecided += 1
            continue
        inferred += drops.count
        told = [judged(path, list(drops.all_lines()), k) for k in range(CLIENTS)]
        if any(told):
            print(f"seed {seed}: {told}")
            wrong += 1
        if program and seed < 60:
            status, is_wrong = is_impossible(program, list(drops.all_lines()), drops.sources)
            answers[status] = answers.get(status, 0) + 1
            wrong += is_wrong
    for seed in range(400):
        lines, _, count = lines_of(seed, True)
        try:
            drops = tlwave.Drops(lines, the_map)
        except tlwave.Trouble:
            continue
        stops = any(judged(path, list(drops.all_lines()), k) for k in range(CLIENTS))
        lost, found, wrong = lost + (count > 0), found + stops, wrong + (stops and not count)
    print(f"400 runs: {silent} copies were dropped, {inferred} Releases inferred; {wrong} runs were called illegal, "
          f"{undecided} not decided; of {lost} in which a dirty copy was dropped {found} were found; "
          f"statuses of tlwire: {answers}")
    return 1 if wrong or not inferred or found < lost // 2 else 0


if __name__ == "__main__":
    sys.exit(main())
