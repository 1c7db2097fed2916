#!/usr/bin/env python3
"""strange.py PROGRAM [OTHER ..]: strange scripts, files, outputs and words. PROGRAM is a built tlcache; the others are
built tlchart, tlcheck, tlwire and tlgen.

Each script gives its one fault line and nothing else, or its report; so do a directory, a file that may not be read, a
full device and a closed pipe. Each program answers words that it does not take, and a word that is no UTF-8, with
`error usage` and status 2, and want of memory with `error 41 memory` and status 4, also while it reads its words (a C
compiler, cc, builds refuse.c). Then an address-space limit that grows by steps from where tlcache starts: each answer
is whole, or `error 41 memory`. Prints what was tried, and ends with status 1 where an answer was another.
"""
import os
import resource
import subprocess
import sys
import tempfile
import time

HERE = os.path.dirname(os.path.abspath(__file__))
TOP = os.path.dirname(os.path.dirname(HERE))
PATIENCE = 120

NUMBERS = {
    "version": "1", "clients": "1", "banks": "1", "block_bytes": "8", "sets": "1", "ways": "1", "registers": "1", "copies": "1",
    "memory_blocks": "1", "turns": "1000000",
}
REPORT = b"client 0\n0 load 0x00000000 00\nbank 0 held 1 recorded 1\nok\n"
LOAD = 'commands = [["load 0x0 1"]]\n'


def script(tail=LOAD, **changed):
    """The script of one load, with numbers changed and another tail."""
    return "".join(f"{key} = {value}\n" for key, value in {**NUMBERS, **changed}.items()) + tail


def commands(*texts):
    return "commands = [[" + ", ".join(f'"{text}"' for text in texts) + "]]\n"


def strange_scripts():
    """Each strange script: what it is, its bytes, and its fault line (None: the report of the load)."""
    plain = script()
    yield "an empty file", "", "error 31 missing version"
    yield "a byte order mark", "\ufeff" + plain, None
    yield "CRLF lines", plain.replace("\n", "\r\n"), None
    yield "CR lines", plain.replace("\n", "\r"), "error 30 not toml"
    yield "a byte 0", plain + "\0", "error 30 not toml"
    yield "bytes that are no UTF-8 inside a text", plain.encode() + b'note = "\xff\xfe"\n', "error 30 not toml"
    yield "a lone surrogate", plain.encode() + b'note = "\xed\xa0\x80"\n', "error 30 not toml"
    yield "a key twice", plain + "clients = 1\n", "error 30 not toml"
    yield "a dotted key of its own", "note.of.mine = 1\n" + plain, None
    yield "a number as a table", script(clients="{ many = 1 }"), "error 31 missing clients"
    yield "a number as a dotted key", plain.replace("clients = 1", "clients.many = 1"), "error 31 missing clients"
    yield "a number past 64 bits", script(clients="9223372036854775808"), "error 30 not toml"
    yield "the least number of 64 bits", script(clients="-9223372036854775808"), "error 32 geometry 20"
    yield "a number in hexadecimal digits", script(clients="0x1"), None
    yield "a number with a fraction", script(clients="1.0"), "error 31 missing clients"
    yield "a key in quotes", plain.replace("clients", '"clients"'), None
    yield "an unknown key", plain + "colour = 'red'\n", None
    yield "a number with a sign", script(clients="+1"), None
    yield "an inline table over lines, with a last comma", plain + "note = { a = 1,\n b = 2, }\n", None
    yield "the escapes of TOML 1.1", plain + 'note = "\\x41\\e"\n', None
    yield "a time without seconds", plain + "note = 07:32\n", None
    for deep in (80, 81):
        fault = None if deep <= 80 else "error 30 not toml"
        yield f"arrays {deep} deep", plain + "deep = " + "[" * deep + "]" * deep + "\n", fault
        yield f"tables {deep} deep", plain + "deep = " + "{a=" * deep + "1" + "}" * deep + "\n", fault
        yield f"a dotted key of {deep} parts", plain + ".".join(["a"] * deep) + " = 1\n", fault
    yield "nesting ten thousand deep", plain + "deep = " + "[" * 10_000 + "]" * 10_000 + "\n", "error 30 not toml"
    yield "nesting of tables ten thousand deep", plain + "deep = " + "{a=" * 10_000 + "1" + "}" * 10_000 + "\n", "error 30 not toml"
    yield "an open array ten thousand deep", plain + "deep = " + "[" * 10_000, "error 30 not toml"
    yield "4,097 commands", script(commands(*["load 0x0 1"] * 4097)), "error 34 too many"
    yield "4,097 steps", script('steps = [' + '"advance 0",' * 4097 + "]\n"), "error 34 too many"
    yield "17 clients", script(version="2", clients="17"), "error 32 geometry 20"
    yield "9 clients in version 1", script(clients="9"), "error 32 geometry 20"
    yield "9 banks", script(banks="9"), "error 32 geometry 21"
    yield "version 3", script(version="3"), "error 31 missing version"
    yield "version as a text", script(version='"1"'), "error 31 missing version"
    yield "clients as a truth", script(clients="true"), "error 31 missing clients"
    yield "no turns", script(turns="0"), "error 31 missing turns"
    for image in ("0g", "abc", "00" * 9, "AB", "0a 0b"):
        yield f"the image {image}", script(f'image = "{image}"\n' + LOAD), "error 31 missing image"
    yield "an image that is no text", script("image = 1\n" + LOAD), "error 31 missing image"
    yield "commands that are no texts", script("commands = [1]\n"), "error 31 missing commands"
    yield "commands in no array", script('commands = "load 0x0 1"\n'), "error 31 missing commands"
    for text in ("load 0x0 9", "load  0x0 1", "store 0x0 1", "load 0X0 1", "drop 0x8", " load 0x0 1", "load 0x0 1 ", "load 0x7 2",
                 "load 0x100000000 1", "load 0x 1", "load 0x0 0", "store 0x0 AA", "Load 0x0 1", "", "load\\t0x0 1", "l\\u00f6ad 0x0 1"):
        yield f"the command '{text}'", script(commands(text)), "error 33 command 0 0"
    for text in ("advance 01", "take_c 0.0.F.0", "acquire 0 0 TtoB", "accept 0.0.A", "accept 0.0.A.0.0", "advance -1", "advance 4294967296"):
        yield f"the step '{text}'", script(f'steps = ["{text}"]\n'), "error 35 step 0"


# What each program takes: words that it answers, and others that it does not take.
WORDS = {
    "tlcache": ([b"run", b"no such file"], [[], [b"run"], [b"run", b"a", b"b"], [b"walk", b"a"], [b"--", b"run"], [b"--help"]]),
    "tlchart": ([b"no such file"], [[], [b"a", b"b"], [b"--block", b"a"], [b"--block", b"-1", b"a"], [b"--html", b"--mermaid", b"a"],
                                    [b"--html", b"--block", b"1", b"a"], [b"--help"]]),
    "tlcheck": ([b"no such file"], [[], [b"a", b"b"], [b"--chart"], [b"--chart", b"--progress", b"a"]]),
    "tlwire": ([b"--run", b"no such file"], [[], [b"--run"], [b"--walk", b"a"], [b"--run", b"a", b"b"], [b"--run", b"--progress", b"a"],
                                [b"--run", b"--chart", b"a"]]),
    "tlgen": ([b"1", b"run"], [[], [b"1"], [b"x", b"run"], [b"1", b"walk"], [b"1", b"run", b"colour=1"], [b"4294967296", b"run"]]),
}
# Words that are no UTF-8: a byte that none begins with, a lone continuation, a surrogate, and a character that is cut
# off.
NO_TEXTS = [b"\xff", b"a\x80", b"\xed\xa0\x80", b"\xe2\x82"]


class Tried:
    def __init__(self, program, folder):
        self.program, self.folder, self.number, self.wrong = program, folder, 0, 0

    def ask(self, words, program=None, **given):
        given.setdefault("stdout", subprocess.PIPE)
        command = [program or self.program, *words]
        ran = subprocess.run(command, stdin=subprocess.DEVNULL, stderr=subprocess.PIPE, timeout=PATIENCE, **given)
        return ran.returncode, ran.stdout or b"", ran.stderr

    def file(self, data):
        path = os.path.join(self.folder, "script.toml")
        with open(path, "wb") as it:
            it.write(data if isinstance(data, bytes) else data.encode())
        return path

    def expect(self, what, got, wanted):
        self.number += 1
        if got != wanted:
            self.wrong += 1
            print(f"{what}: {got}, and not {wanted}")

    def scripts(self):
        for what, text, fault in strange_scripts():
            wanted = (0, REPORT, b"") if fault is None else (1, b"", fault.encode() + b"\n")
            self.expect(what, self.ask(["run", self.file(text)]), wanted)
            if fault is not None:
                self.expect(f"{what}, by trace", self.ask(["trace", self.file(text)]), wanted)

    def files(self):
        refused, path = (5, b"", b"error file\n"), self.file(script())
        self.expect("no file of that name", self.ask(["run", path + ".no"]), refused)
        self.expect("a directory", self.ask(["run", self.folder]), refused)
        self.expect("an empty name", self.ask(["run", ""]), refused)
        if os.geteuid() == 0:
            os.chmod(path, 0o600)
            os.chmod(self.folder, 0o755)
            self.expect("a file that may not be read", self.ask(["run", path], user=65534, group=65534, extra_groups=[]), refused)
        with open("/dev/full", "wb") as full:
            self.expect("a full device", self.ask(["run", path], stdout=full), refused)
        reader, writer = os.pipe()
        os.close(reader)
        self.expect("a closed pipe", self.ask(["run", path], stdout=writer), refused)
        os.close(writer)

    def words(self, program):
        """Words that a program does not take, and that are no UTF-8, in each place."""
        taken, others = WORDS[os.path.basename(program)]
        usage = (2, b"", b"error usage\n")
        for words in others:
            self.expect(f"{program} {words}", self.ask(words, program), usage)
        for word in NO_TEXTS:
            for place in range(len(taken) + 1):
                words = [*taken[:place], word, *taken[place:]]
                self.expect(f"{program} {words}", self.ask(words, program), usage)

    def words_without_memory(self, program, library):
        """The first requests for memory, which the words make, refused in turn."""
        taken, _ = WORDS[os.path.basename(program)]
        right, without, faults = self.ask(taken, program), (4, b"", b"error 41 memory\n"), 0
        for number in range(1, 33):
            env = {"LD_PRELOAD": library, "REFUSE_AT": str(number)}
            got = self.ask(taken, program, env=env)
            faults += got == without
            self.expect(f"{program} {taken} with request {number} refused", got, without if got != right else right)
        self.expect(f"{program}: want of memory was told", faults > 0, True)

    def limits(self, words):
        """Grows the address space by steps of 64 kB from where the program starts until it has answered whole ten times
        in a row."""
        whole, faults, unstarted, row, kilobytes = 0, 0, 0, 0, 1024
        right = self.ask(words)
        while row < 10 and kilobytes < 4_000_000:
            space = kilobytes * 1024
            status, output, fault = self.ask(words, preexec_fn=lambda: resource.setrlimit(resource.RLIMIT_AS, (space, space)))
            if (status, output, fault) == right:
                whole, row = whole + 1, row + 1
            elif (status, output, fault) == (4, b"", b"error 41 memory\n"):
                faults, row = faults + 1, 0
            elif faults == whole == 0 and not output and (status == 127 or status < 0):
                unstarted += 1
            else:
                self.wrong += 1
                print(f"{words} with {kilobytes} kB: status {status}, {fault[:80]!r}")
            self.number += 1
            kilobytes += 64 if kilobytes < 65536 else 4096
        print(f"{words[0]} {os.path.basename(words[1])} under a limit of the address space: {unstarted} not started, {faults} faults, {whole} whole")

    def growth(self):
        """The time of reading grows as the file does."""
        for what, line in (("comments", "# nothing to see here\n"), ("unknown keys", None)):
            for size in (1_000_000, 4_000_000):
                lines = size // 22
                text = line * lines if line else "".join(f"key_{number:07} = 123456\n" for number in range(lines))
                path = self.file(script() + text)
                start = time.time()
                self.expect(f"{size} bytes of {what}", self.ask(["run", path]), (0, REPORT, b""))
                print(f"{size} bytes of {what}: {time.time() - start:.2f} s")


def main():
    if len(sys.argv) < 2:
        sys.exit(__doc__)
    programs = [os.path.abspath(program) for program in sys.argv[1:]]
    with tempfile.TemporaryDirectory() as folder:
        library = os.path.join(folder, "refuse.so")
        subprocess.run(["cc", "-O1", "-shared", "-fPIC", "-o", library, os.path.join(HERE, "refuse.c"), "-ldl"], check=True)
        tried = Tried(programs[0], folder)
        for program in programs:
            tried.words(program)
            tried.words_without_memory(program, library)
        tried.scripts()
        tried.files()
        tried.growth()
        for words in (["run", f"{TOP}/examples/two-bytes.toml"], ["run", f"{TOP}/crates/golden/data/sixteen-clients.toml"],
                      ["trace", f"{TOP}/examples/release-crosses-probe.toml"]):
            tried.limits(words)
    print(f"{tried.number} tried, {tried.wrong} others")
    sys.exit(1 if tried.wrong else 0)


main()
