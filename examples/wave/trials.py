#!/usr/bin/env python3
"""Small waves, and what tlwave makes of them: trials.py. Status 1 where it makes another thing.

Each wave is written here, a cycle at a time, of one or two links; wanted is the record line by line, or the status and
a word of the line that says why there is none.
"""
import gzip
import pathlib
import re
import subprocess
import sys
import tempfile

HERE = pathlib.Path(__file__).resolve().parent
PLACES = [HERE.parents[1] / "tlwave", HERE.parents[3] / "bin" / "tlwave"]  # in a checkout; installed
TLWAVE = next((it for it in PLACES if it.is_file()), "tlwave")
WIDTHS = dict(valid=1, ready=1, opcode=3, param=3, source=4, address=64, data=64, sink=3)
FIELDS = dict(a="opcode param source address", b="opcode param address", c="opcode param source address data",
              d="opcode param source sink data", e="sink")
MAP = """
clients = {clients}
block = {block}
beat = {beat}
{more}
clock = "top.clk"
reset = "top.rst"
[signals]
{names}
"""
BASE = "base = 0x80000000\nblocks = 4"
NAMES = '"*.{field}" = "top.l{{k}}.{{ch}}_{field}"'
ALL = "\n".join(NAMES.format(field=it) for it in WIDTHS)
TAPS = {"l0.tap_valid": 1, "l0.tap_store": 1, "l0.tap_size": 2, "l0.tap_address": 32, "l0.tap_data": 64}
WITH_TAPS = ALL + "".join(f'\n"tap.{it[7:]}" = "top.{it.replace("l0", "l{k}")}"' for it in TAPS)
wrong = 0


def pins(clients=1):
    """The pins of some links and their widths."""
    found = {"clk": 1, "rst": 1}
    for k in range(clients):
        for channel, fields in FIELDS.items():
            found |= {f"l{k}.{channel}_{it}": WIDTHS[it] for it in ("valid", "ready", *fields.split())}
    return found


def vcd(widths, cycles, ranged=True):
    """A wave: each cycle's values, given by name, stand before its rising edge; what is not given stays, and valid
    falls. `x` is unknown."""
    codes = {name: f"s{at}" for at, name in enumerate(widths)}
    lines = ["$timescale 1ns $end", "$scope module top $end"]
    for name, width in widths.items():
        *scope, leaf = name.split(".")
        lines += [f"$scope module {it} $end" for it in scope]
        bits = f" [{width - 1}:0]" if width > 1 and ranged else f"[{width - 1}:0]" if width > 1 else ""
        lines += [f"$var wire {width} {codes[name]} {leaf}{bits} $end"] + ["$upscope $end" for _ in scope]
    lines += ["$upscope $end", "$enddefinitions $end", "#0", "$dumpvars"]
    lines += [f"b0 {code}" for code in codes.values()] + ["$end"]

    def change(name, value):
        text = value if isinstance(value, str) else f"{value:b}"
        return f"{text}{codes[name]}" if widths[name] == 1 else f"b{text} {codes[name]}"

    for at, values in enumerate(cycles):
        falls = {it: 0 for it in widths if it.endswith("_valid")}
        lines += [f"#{10 * at}", change("clk", 0)] + [change(*it) for it in {**falls, **values}.items()]
        lines += [f"#{10 * at + 5}", change("clk", 1)]
    return "\n".join(lines) + "\n"


def fired(k, channel, **values):
    """The values of a beat that fires."""
    return {f"l{k}.{channel}_{name}": it for name, it in {"valid": 1, "ready": 1, **values}.items()}


def made(wave, text, *words, name="wave.vcd"):
    """What tlwave answers: its status, the record's lines behind the header's comment, the fault."""
    with tempfile.TemporaryDirectory() as folder:
        room = pathlib.Path(folder)
        for file, what in ("map.toml", text), (name, wave):
            if what is not None:
                (room / file).write_bytes(what if isinstance(what, bytes) else what.encode())
        told = subprocess.run([sys.executable, TLWAVE, room / name, "--map", room / "map.toml", *words],
                              capture_output=True, text=True, check=False)
        lines = told.stdout.splitlines()
        comment = f"# {' '.join(name.split())}, by tlwave"
        return told.returncode, [it for it in lines if not it.startswith(comment)], told.stderr.strip()


def want(what, is_well, *said):
    global wrong
    print(f"{what}: {'ok' if is_well else 'WRONG'}")
    if not is_well:
        print(*said, sep="\n    ")
    wrong += not is_well


def tapped(**values):
    """The values of a load or a store."""
    return {"l0.tap_valid": 1, **{f"l0.tap_{name}": it for name, it in values.items()}}


def map_of(clients=1, block=16, beat=8, more=BASE, names=ALL):
    return MAP.format(clients=clients, block=block, beat=beat, more=more, names=names)


def gives(what, wave, text, wanted, *words, name="wave.vcd"):
    """The record has these lines, from its first line behind the shape on."""
    status, lines, said = made(wave, text, *words, name=name)
    got = lines[2:] if lines else []
    want(what, status == 0 and got == wanted, status, said, *got)


def fails(what, wave, text, status, word, *words, name="wave.vcd"):
    """There is no record, the status is this one, and the one line that says why has this word."""
    got, lines, said = made(wave, text, *words, name=name)
    is_one_line = len(said.splitlines()) == 1 and said.startswith("tlwave: ")
    want(what, (got, lines) == (status, []) and word in said and is_one_line, got, said, *lines)


SOURCE, UNSEEN = "source client=0 from=0 to=15", ["memory unseen", "cores unseen"]
BETWEEN = "seen between"
NO_RESET = "# the wave does not show the reset on, so nothing is said of how it was seen"
HEAD = [SOURCE, *UNSEEN, BETWEEN]
RESET = {"rst": 1}
MISS = [RESET, {**RESET, "l0.a_valid": "x"}, {"rst": 0},
        fired(0, "a", opcode=6, param=1, source=3, address=0x80000010),
        fired(0, "d", opcode=5, param=0, source=3, sink=2, data=0x0706050403020100),
        {}, {**fired(0, "d", data=0x0f0e0d0c0b0a0908), **fired(0, "e", sink=2)}, {}]
DATA = "000102030405060708090a0b0c0d0e0f"
RECORD = [*HEAD, f"image {'00' * 16}{DATA}", "1 c0 A 6 param=1 size=4 source=3 address=0x80000010",
          f"2 c0 D 5 param=0 size=4 source=3 sink=2 data={DATA}", "4 c0 E 0 sink=2"]


def names():
    """Signals by each way of naming them."""
    miss = vcd(pins(), MISS)
    gives("a miss", miss, map_of(), RECORD)
    gives("a time that is named twice", re.sub(r"(#\d+5\n)", r"\1\1", miss), map_of(), RECORD)
    gives("a range without a blank", vcd(pins(), MISS, ranged=False), map_of(), RECORD)
    gives("lines that end with CR LF", miss.replace("\n", "\r\n"), map_of(), RECORD)
    coded = re.sub(r"(?<![a-z])s2\b", "end", miss)  # a line `$end` is no change of this signal
    gives("a signal whose code is a word", coded.replace("\n#35\n", "\n$dumpall\n$end\n#35\n"), map_of(), RECORD)
    gives("a compressed wave", gzip.compress(miss.encode()), map_of(), RECORD)
    gives("a file whose name has two lines", miss, map_of(), RECORD, name="wave\nshape.vcd")
    no_b = ALL + '\n"b.valid" = "=0"\n"b.opcode" = "=6"\n"b.param" = "=0"\n"b.address" = "=0x0"\n"b.ready" = "=1"'
    gives("a channel of constants", miss, map_of(names=no_b), RECORD)
    lists = ALL.replace('"top.l{k}.{ch}_sink"', '["top.l0.{ch}_sink"]')
    gives("a name for each client", miss, map_of(names=lists), RECORD)
    low = [{**it, **({"rst": 1 - it["rst"]} if "rst" in it else {})} for it in MISS]
    gives("a reset that is on at 0", vcd(pins(), low), map_of().replace('"top.rst"', '"!top.rst"'), RECORD)
    packed = vcd({**pins(), "v": 4, "s": 8}, [{**it, "v": it.get("l0.d_valid", 0) << 2, "s": 0x3a} for it in MISS])
    for bit in ":2", "[2]", "[2:2]":
        gives(f"a bit of a vector, {bit}", packed, map_of(names=ALL + f'\n"d.valid" = "top.v{bit}"'), RECORD)
    for bits in ":1*4", "[7:4]":
        gives(f"bits of a vector, {bits}", packed, map_of(names=ALL + f'\n"d.source" = "top.s{bits}"'), RECORD)
    seen = BASE + '\nseen = ["seen at clients", "whole"]\nimage = "zero"\nsources = [[3, 3]]'
    premises = ["source client=0 from=3 to=3", *UNSEEN, "seen at clients", "whole"]
    gives("how it was seen", miss, map_of(more=seen), premises + RECORD[5:])
    gives("an image", miss, map_of(more=BASE + '\nimage = "0011"'), HEAD + ["image 0011"] + RECORD[5:])
    nothing = RECORD[:3] + RECORD[4:]
    gives("nothing of how it was seen", miss, map_of(more=BASE + "\nseen = []"), nothing)
    gives("a wave that begins behind the reset", vcd(pins(), MISS[2:]), map_of(), [*RECORD[:3], NO_RESET, *RECORD[4:]])


def orders():
    """Messages stand at their first beats, and those behind one that is not whole wait for it."""
    two = [RESET, {"rst": 0}, {**fired(0, "a", opcode=6, param=0, source=0, address=0x80000000),
                        **fired(1, "a", opcode=6, param=0, source=1, address=0x80000010)},
           fired(0, "d", opcode=5, param=1, source=0, sink=0, data=1),
           {**fired(1, "c", opcode=4, param=5, address=0x80000020), **fired(0, "e", sink=0)},
           {**fired(0, "d", data=2), **fired(0, "b", opcode=6, param=2, address=0x80000000)},
           {**fired(0, "c", opcode=7, param=1, source=2, address=0x80000000, data=3),
            **fired(1, "d", opcode=6, param=0, source=1)},
           fired(0, "c", data=4)]
    sources = [SOURCE, "source client=1 from=0 to=15"]
    data = "01000000000000000200000000000000"
    gives("two links", vcd(pins(2), two), map_of(2), sources + UNSEEN + [
        BETWEEN, f"image {data}", "1 c0 A 6 param=0 size=4 source=0 address=0x80000000",
        "1 c1 A 6 param=0 size=4 source=1 address=0x80000010", f"2 c0 D 5 param=1 size=4 source=0 sink=0 data={data}",
        "3 c0 E 0 sink=0", "3 c1 C 4 param=5 size=4 address=0x80000020", "4 c0 B 6 param=2 size=4 address=0x80000000",
        "5 c0 C 7 param=1 size=4 source=2 address=0x80000000 data=03000000000000000400000000000000",
        "5 c1 D 6 param=0 size=4 source=1"])
    far = [RESET, {"rst": 0}, *(fired(0, "a", opcode=6, param=0, source=n, address=it)
                         for n, it in enumerate((0xffff_ffff_0000, 0x40, 0xffff_ffff_0000)))]
    gives("addresses that are folded", vcd(pins(), far), map_of(more=""), HEAD + [
        "# block 0 is 0xffffffff0000", "# block 1 is 0x00000040", "1 c0 A 6 param=0 size=4 source=0 address=0x00000000",
        "2 c0 A 6 param=0 size=4 source=1 address=0x00000010", "3 c0 A 6 param=0 size=4 source=2 address=0x00000000"])
    narrow = [RESET, {"rst": 0}, fired(0, "a", opcode=6, param=1, source=0, address=0x80000008),
              fired(0, "d", opcode=5, param=0, source=0, sink=0, data=0x1111111111111111_2222222222222222),
              fired(0, "c", opcode=7, param=1, source=0, address=0x80000008, data=0x3333333333333333_4444444444444444)]
    wide = {name: 128 if name.endswith("data") else width for name, width in pins().items()}
    gives("a bus that is wider than a block", vcd(wide, narrow), map_of(block=8, beat=16), HEAD + [
        f"image {'00' * 8}{'11' * 8}", "1 c0 A 6 param=1 size=3 source=0 address=0x80000008",
        f"2 c0 D 5 param=0 size=3 source=0 sink=0 data={'11' * 8}",
        f"3 c0 C 7 param=1 size=3 source=0 address=0x80000008 data={'33' * 8}"])


def further():
    """Taps, the memory's link, fields that a link may have."""
    cycles = [*MISS, tapped(store=1, size=1, address=0x80000012, data=0xaabb),
              tapped(store=0, size=3, address=0x80000018, data=1)]
    gives("taps", vcd({**pins(), **TAPS}, cycles), map_of(names=WITH_TAPS), [
        SOURCE, "memory unseen", *RECORD[3:], "6 c0 store 0x80000012 bbaa", "7 c0 load 0x80000018 0100000000000000"])
    for what, store in ("load", 0), ("store", 1):
        there = {**fired(0, "c", opcode=4, param=1, address=0x80000010),
                 **tapped(store=store, size=0, address=0x80000010, data=7)}
        lines = [f"6 c0 {what} 0x80000010 07", "6 c0 C 4 param=1 size=4 address=0x80000010"]
        gives(f"a {what} in the cycle of a ProbeAck", vcd({**pins(), **TAPS}, [*MISS, there]), map_of(names=WITH_TAPS),
              [SOURCE, "memory unseen", *RECORD[3:], *(reversed(lines) if store else lines)])
    link = dict(a_valid=1, a_ready=1, a_opcode=3, a_source=4, a_address=32, a_data=64, d_valid=1, d_ready=1, d_opcode=3,
                d_source=4, d_data=64)
    memory = {f"m.{name}": width for name, width in link.items()}
    names = ALL + '\n[memory]\n' + "\n".join(
        f'"*.{it}" = "top.m.{{ch}}_{it}"' for it in ("valid", "ready", "opcode", "source", "address", "data"))
    asked = {"m.a_valid": 1, "m.a_ready": 1, "m.a_opcode": 4, "m.a_source": 7, "m.a_address": 0x80000010}
    answered = [{"m.d_valid": 1, "m.d_ready": 1, "m.d_opcode": 1, "m.d_source": 7, "m.d_data": it}
                for it in (0x0706050403020100, 0x0f0e0d0c0b0a0908)]
    wave = vcd({**pins(), **memory}, [*MISS[:4], asked, *answered, *MISS[4:]])
    gives("the memory's link", wave, map_of(names=names), [
        SOURCE, "cores unseen", BETWEEN, *RECORD[4:6], "2 m A 4 size=4 source=7 address=0x80000010",
        f"3 m D 1 size=4 source=7 data={DATA}", "5" + RECORD[6][1:], "7" + RECORD[7][1:]])
    more = {"l0.d_denied": 1, "l0.a_size": 4}
    names = ALL + "".join(f'\n"{it}" = "top.l{{k}}.{it.replace(".", "_")}"' for it in ("d.denied", "a.size"))
    status, lines, _ = made(vcd({**pins(), **more}, [{**it, **more} for it in MISS]), map_of(names=names))
    is_told = any(it.endswith(f"sink=2 denied=1 data={DATA}") for it in lines)
    want("a message that is denied", status == 0 and is_told, *lines)


def uncached():
    """Gets and their answers, which are left out where that is asked for."""
    got = [MISS[0], MISS[2], fired(0, "a", opcode=4, param=0, source=9, address=0x80000008), *MISS[3:5],
           fired(0, "d", data=0x0f0e0d0c0b0a0908), fired(0, "d", opcode=1, param=0, source=9, sink=0, data=5),
           fired(0, "d", data=6), fired(0, "e", sink=2)]
    wave = vcd(pins(), got)
    fails("a Get", wave, map_of(), 3, "time 25, cycle 1: c0 A: Get: a message of an agent without a cache; --uncached")
    more = BASE + '\nseen = ["seen at clients", "whole"]\nuncached = [{from = 8, to = 15}]'
    rest = [f"image {'00' * 16}{DATA}", "2 c0 A 6 param=1 size=4 source=3 address=0x80000010",
            f"3 c0 D 5 param=0 size=4 source=3 sink=2 data={DATA}", "7 c0 E 0 sink=2"]
    said = "# 3 beats of agents without a cache are left out, so each client's pins stand alone"
    gives("a Get that is left out", wave, map_of(more=more), [*HEAD[:3], said, "seen at client 0", *rest], "--uncached")
    gives("a Get of any source", wave, map_of(), [*HEAD[:3], said, *rest], "--uncached")
    other = more.replace("from = 8", "from = 10")
    fails("a Get of another source", wave, map_of(more=other), 3, "Get of source 9, which is none of", "--uncached")
    other = more.replace("from = 8", "client = 1, from = 8")
    fails("a Get of another link", wave, map_of(more=other), 3, "Get of source 9, which is none of", "--uncached")


def granted(source, address, param, data):
    """The cycles of an Acquire and its Grant."""
    return [fired(0, "a", opcode=6, param=1, source=source, address=address),
            {**fired(0, "d", opcode=5, param=param, source=source, sink=source, data=data),
             **fired(0, "e", sink=source)}]


def drops():
    """Releases that are inferred."""
    one, two = 0x80000000, 0x80000008
    again = fired(0, "a", opcode=6, param=0, source=0, address=one)
    begin = [{"rst": 0}, *granted(0, one, 0, 1)]
    head = ["source client=0 from=0 to=15", "source client=0 from=16 to=16", *UNSEEN]
    said = ("# 1 Releases of clean copies are inferred, so each client's pins stand alone: `explained` is with them, "
            "`impossible` holds of any client that drops clean copies alone")
    first = ["1 c0 A 6 param=1 size=3 source=0 address=0x80000000",
             "2 c0 D 5 param=0 size=3 source=0 sink=0 data=0100000000000000", "2 c0 E 0 sink=0"]
    end = "3 c0 A 6 param=0 size=3 source=0 address=0x80000000"
    inferred = ["# inferred", "3 c0 C 6 param=1 size=3 source=16 address=0x80000000", "# inferred",
                "3 c0 D 6 param=0 size=3 source=16"]
    text = map_of(block=8, more=BASE + '\nseen = ["seen at clients", "whole"]')
    gives("a Tip that was dropped", vcd(pins(), [*begin, again]), text, [
        *head, said, "seen at client 0", "image 0100000000000000", *first, *inferred, end], "--drops", "clean")
    answer = [fired(0, "b", opcode=6, param=2, address=one), fired(0, "c", opcode=4, param=5, address=one)]
    gives("a Branch that was dropped, and a Probe", vcd(pins(), [{"rst": 0}, *granted(0, one, 1, 1), *answer]), text, [
        *head, said, "seen at client 0", "image 0100000000000000",
        first[0], first[1].replace("param=0", "param=1"), first[2],
        "3 c0 B 6 param=2 size=3 address=0x80000000",
        *(it.replace("3 c0", "4 c0").replace("param=1", "param=2") for it in inferred),
        "4 c0 C 4 param=5 size=3 address=0x80000000"], "--drops", "clean")
    release = fired(0, "c", opcode=6, param=1, source=0, address=two)
    other = ["3 c0 A 6 param=1 size=3 source=1 address=0x80000008",
             "4 c0 D 5 param=0 size=3 source=1 sink=1 data=0200000000000000", "4 c0 E 0 sink=1"]
    gives("before a Release that is open", vcd(pins(), [*begin, *granted(1, two, 0, 2), release, again]), text, [
        *head, said, "seen at client 0", "image 01000000000000000200000000000000", *first, *other,
        "# inferred", "5 c0 C 6 param=1 size=3 source=16 address=0x80000000",
        "5 c0 C 6 param=1 size=3 source=0 address=0x80000008",
        "# inferred", "6 c0 D 6 param=0 size=3 source=16", "6" + end[1:]], "--drops", "clean")
    late = [{"rst": 0}, *granted(1, two, 0, 2), release, *granted(0, one, 0, 1), again]
    passing = [*begin, answer[0], again, fired(0, "c", opcode=4, param=1, address=one)]
    status, lines, _ = made(vcd(pins(), passing), text, "--drops", "clean")
    want("an Acquire that passes its own ProbeAck", status == 0 and "# inferred" not in lines, *lines)
    fails("where it has no place", vcd(pins(), late), text, 3, "cycle 6: c0 dropped the block of 0x80000000",
          "--drops", "clean")
    wave = vcd({**pins(), **TAPS}, [*begin, tapped(store=1, size=0, address=one, data=7), again])
    status, lines, _ = made(wave, map_of(block=8, names=WITH_TAPS), "--drops", "clean")
    want("a dirty Tip stays a fault", status == 0 and "# inferred" not in lines and lines[-1] == "4" + end[1:], *lines)


def faults():
    """What the wave may not have."""
    miss, at = vcd(pins(), MISS), "time 45, cycle 2: c0 D: "
    for name in "d_valid", "d_ready", "d_source", "d_data":
        cycles = [dict(it) for it in MISS]
        cycles[4][f"l0.{name}"] = "x"
        fails(f"{name} is unknown", vcd(pins(), cycles), map_of(), 3, at)
    torn = [dict(it) for it in MISS]
    torn[6]["l0.d_source"] = 4
    fails("a beat of another source", vcd(pins(), torn), map_of(), 3,
          "time 65, cycle 4: c0 D: beat 2 of the message of time 45 has another source")
    short = vcd(pins(), MISS[:6])
    fails("a burst that never ends", short, map_of(), 3, "c0 D: the message of time 45 stops after 1 of its beats")
    cut = "# cut: a message is not all there, and 0 lines behind it are left out"
    gives("a burst that never ends, cut", short, map_of(), [*HEAD, RECORD[5], cut], "--cut")
    fails("a second reset", vcd(pins(), [*MISS, RESET]), map_of(), 3, "time 85, cycle 6: the reset top.rst is on again")
    fails("a reset that never ends", vcd(pins(), [RESET] * 4), map_of(), 3, "time 35: the reset top.rst never ends")
    stands = map_of().replace("top.clk", "top.l0.b_valid")
    fails("a clock that stands", miss, stands, 3, "the clock top.l0.b_valid never rises")
    fails("a wave without a cycle", vcd(pins(), []), map_of(), 3, "the clock top.clk never rises")
    for what, wave in ("no wave", "hello\n"), ("nothing", ""), ("half a header", miss[:200]), ("a map", map_of()):
        fails(what, wave, map_of(), 3, "this is no VCD")
    fails("no FST", b"\x00\x00\x01", map_of(), 5, "")
    packed = gzip.compress(miss.encode())
    fails("half of a compressed wave", packed[:300], map_of(), 5, "")
    fails("a compressed wave that is damaged", packed[:200] + bytes(100) + packed[300:], map_of(), 5, "")
    fails("no file", None, map_of(), 5, "No such file")


def maps():
    """What a map may not have."""
    miss, at = vcd({**pins(), "v": 4}, MISS), 'clock = "top.clk"'
    rows = [
        ("an unknown clock", map_of().replace("top.clk", "top.clck"), "no signal top.clck in the wave; there is top."),
        ("an unknown signal", map_of(names=ALL.replace("}_sink", "}_sinc")), "no signal top.l0.d_sinc in the wave;"),
        ("a client that is not there", map_of(2), "no signal top.l1."),
        ("no signal of a channel", map_of(names=ALL.replace('"*.sink"', '"e.sink"')), "signals have no d.sink"),
        ("a vector in place of a bit", map_of(names=ALL + '\n"d.valid" = "top.v"'), "top.v has 4 bits, where one is"),
        ("a bit beyond", map_of(names=ALL + '\n"d.valid" = "top.v:4"'), "top.v:4: the signal has 4 bits"),
        ("an element of no bits", map_of(names=ALL + '\n"d.source" = "top.v:1*0"'), "top.v:1*0: the signal has 4 bits"),
        ("bits from the wrong end", map_of(names=ALL + '\n"d.source" = "top.v[1:3]"'), "top.v[1:3]: the signal has 4"),
        ("another beat", map_of(beat=16), "has 64 bits, and the map's beat is 16 bytes"),
        ("no clock", map_of().replace(at, ""), "the map has no clock"),
        ("an unknown key", map_of(more="bloks = 4"), "the map has a key bloks"),
        ("no number", map_of(more='base = "8"'), "the map's base is '8'"),
        ("too many clients", map_of(65), "the map's clients is 65: a number from 1 to 64"),
        ("no power of two", map_of(block=24), "the map's block is 24: a power of two"),
        ("a base between blocks", map_of(more="base = 8"), "where no block begins"),
        ("an image that is none", map_of(more='image = "xy"'), "the map's image"),
        ("sources that are none", map_of(more="sources = [1]"), "the map's sources"),
        ("a field that a name has not", map_of(names=ALL.replace("{k}", "{n}")), "a name with {k} and {ch}"),
        ("no TOML", "clients = ", "is no TOML"),
        ("a map that is no text", map_of().encode("utf-16"), "is no TOML"),
    ]
    for what, text, word in rows:
        fails(what, miss, text, 2, word)
    status = subprocess.run([sys.executable, TLWAVE], capture_output=True, check=False).returncode
    want("no word", status == 2, status)


def main():
    for trial in names, orders, further, uncached, drops, faults, maps:
        trial()
    return 1 if wrong else 0


if __name__ == "__main__":
    sys.exit(main())
