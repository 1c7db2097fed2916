#!/usr/bin/env python3
"""sweep.py PROGRAM [MOST]: refuses each request for memory and each start of a thread in turn, and each with all that
follow it.

PROGRAM is a built tlcache. For each script, for N from 1 on until no Nth request is met, the Nth request alone is
refused, and then the Nth and all later ones. With MOST, at most so many N are tried of a script, evenly spread. Each
time the answer must be the whole output with status 0, or `error 41 memory` with status 4 and nothing on standard
output. A C compiler (cc) builds refuse.c. Prints a line for each script, and ends with status 1 where an answer was
another.
"""
import os
import struct
import subprocess
import sys
import tempfile
from concurrent.futures import ThreadPoolExecutor

HERE = os.path.dirname(os.path.abspath(__file__))
TOP = os.path.dirname(os.path.dirname(HERE))
ROWS = f"{TOP}/crates/golden/data"
SCRIPTS = [
    ("run", f"{ROWS}/two-bytes.toml"),
    ("run", f"{ROWS}/drop-between.toml"),
    ("run", f"{ROWS}/a-client-for-each-bank.toml"),
    ("run", f"{ROWS}/two-clients-one-block.toml"),
    ("run", f"{ROWS}/one-memory-over-two-banks.toml"),
    ("run", f"{ROWS}/sixteen-clients.toml"),
    ("run", f"{TOP}/examples/readers-and-a-writer.toml"),
    ("trace", f"{ROWS}/store-and-reader.toml"),
    ("trace", f"{TOP}/examples/release-crosses-probe.toml"),
    ("trace", f"{TOP}/examples/eviction-writes-back.toml"),
]
# How long an answer may take, in seconds.
PATIENCE = 60


def reports(script, whole):
    """The outputs that a script may have."""
    base = os.path.splitext(script)[0]
    beside = os.path.join(ROWS, os.path.basename(base))
    told = [f"{beside}.{number}.out" for number in range(1, 10)]
    return {whole, *(open(it, "rb").read() for it in told if os.path.exists(it))}


class Sweep:
    def __init__(self, program, library, folder):
        self.program, self.library, self.folder = program, library, folder

    def answer(self, words, setting=None, number=0):
        env = {"PATH": "/usr/bin:/bin", "LD_PRELOAD": self.library}
        told = os.path.join(self.folder, f"told.{setting}.{number}")
        env["REFUSE_TOLD"] = told
        if setting:
            env[setting] = str(number)
        try:
            ran = subprocess.run([self.program, *words], env=env, capture_output=True, timeout=PATIENCE)
        except subprocess.TimeoutExpired:
            return 0, "no answer", b"", b""
        with open(told, "rb") as it:
            met = struct.unpack("Q", it.read(8))[0]
        os.remove(told)
        return met, ran.returncode, ran.stdout, ran.stderr

    def script(self, words, most):
        met, status, whole, fault = self.answer(words)
        if status != 0 or fault:
            return f"not swept: status {status}", 1
        lawful, tried, whole_ones, faults, wrong = reports(words[1], whole), 0, 0, 0, []
        last = met + 16
        numbers = range(1, last + 1, -(-last // most))
        tries = [(setting, number) for setting in ("REFUSE_AT", "REFUSE_FROM") for number in numbers]
        with ThreadPoolExecutor(2) as pool:
            for (setting, number), (_, status, output, fault) in zip(tries, pool.map(lambda it: self.answer(words, *it), tries)):
                tried += 1
                if status == 0 and output in lawful and not fault:
                    whole_ones += 1
                elif (status, output, fault) == (4, b"", b"error 41 memory\n"):
                    faults += 1
                else:
                    wrong.append(f"{setting}={number}: status {status}, {fault[:60]!r}")
        text = f"{met} requests met, {tried} runs: {faults} faults, {whole_ones} whole outputs, {len(wrong)} others"
        return "; ".join([text, *wrong[:5]]), len(wrong)


def main():
    if len(sys.argv) < 2:
        sys.exit(__doc__)
    program, most = os.path.abspath(sys.argv[1]), int(sys.argv[2]) if len(sys.argv) > 2 else 1 << 30
    bad = 0
    with tempfile.TemporaryDirectory() as folder:
        library = os.path.join(folder, "refuse.so")
        source = os.path.join(HERE, "refuse.c")
        subprocess.run(["cc", "-O1", "-shared", "-fPIC", "-o", library, source, "-ldl"], check=True)
        sweep = Sweep(program, library, folder)
        for words in SCRIPTS:
            text, wrong = sweep.script(list(words), most)
            bad += wrong
            print(f"{words[0]} {os.path.basename(words[1])}: {text}", flush=True)
    sys.exit(1 if bad else 0)


main()
