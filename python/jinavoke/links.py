"""A home for the TL-C links of a design, from Python: jinavoke.hpp by ctypes, for cocotb or a bench of one's own.

    home = jv.Home(clients=2, base=0x80000000)
    link = home.links[0]
    at each clock edge what fired is told, D and B first, then C, loads and stores, A and E:
        link.a(opcode=6, param=1, source=0, address=0x80000000)
    home.tick()
    beat = link.d()                      # what is to be driven next, or None; link.d_taken() where it fired
    for fault in home.faults(): ..       # the texts of what a client did that it may not

docs/RTL.md says what is a fault. JINAVOKE_DPI names another library than the installed one. As of a cache: what is
closed answers each use with a ValueError, threads may share a home, and no number wraps: one that no wire carries is a
ValueError.
"""
import ctypes as c
import functools
import operator
import os
import pathlib
import typing

from . import Entry, JudgeNumbers, Line, Opened, PinsNumbers, PinsVerdict, Verdict, loaded, octets
from .simulator import Simulated, behind_of, declare

# The numbers of a home in the order in which the library takes them, each with what it is where nobody says it.
NUMBERS = dict(clients=2, banks=1, block_bytes=64, sets=16, ways=4, registers=8, copies=64, blocks=4096, base=0,
               beat_bytes=8, sources=16, sinks=16, has_taps=1, pace=3, memory_cycles=20, evict_every=0, patience=20000,
               slack=0, seed=1, silent_branch=0, gives_more=0, silent_tip=0, acquire_perm=0, cleans=0)
# How many bits a number has where that is not 31.
BITS = dict(base=64, seed=32)
B, D = 1, 3


def fitting(name, number, bits=32):
    """The number; ValueError where it has not so many bits."""
    number = operator.index(number)
    if not 0 <= number < 1 << bits:
        raise ValueError(f"{name}={number}: it is a number of {bits} bits")
    return number


def record_file(file):
    """The name of a record, as bytes; OSError where that cannot be written. What it has is kept until it is begun."""
    is_file = os.path.isfile(file) or os.path.isdir(file) or not os.path.exists(file)
    if file and (is_file or not os.access(file, os.W_OK)):  # a pipe is opened once, by the library
        open(file, "ab").close()
    return os.fsencode(file)


class Down(typing.NamedTuple):
    """A beat that home offers, on B or on D."""
    opcode: int
    param: int
    source: int
    sink: int = 0
    address: int = 0
    data: bytes = b""
    size: int = 0


def ranges(all_of):
    """Sources of links, each (link, first, last), as the library takes them."""
    numbers = [[fitting("a source, or a link", it, 31) for it in one] for one in all_of]
    if any(len(it) != 3 for it in numbers):
        raise ValueError("sources of a link are (link, first, last)")
    return " ".join("{}:{}-{}".format(*it) for it in numbers).encode()


@functools.lru_cache(maxsize=None)
def library(path):
    lib = loaded(path)
    numbers = [c.c_longlong if name == "base" else c.c_int for name in NUMBERS]
    at, number, wide, out = c.c_void_p, c.c_int, c.c_longlong, c.POINTER(c.c_int)
    lib.jvh_new_expected.argtypes = [at, *numbers, *[c.c_char_p] * 5, number, wide]
    lib.jvh_new_expected.restype = at
    for name, words, result in [
            ("free", [], None), ("a_wide", [number] * 5 + [wide, wide, c.c_char_p, c.c_char_p], None),
            ("c", [number] * 5 + [wide, c.c_char_p], None),
            ("e", [number, number], None), ("taken", [number, number], number),
            ("access", [number, number, wide, number, wide], number), ("tick", [], None),
            ("b", [number, out, out, c.POINTER(wide)], number), ("d_wide", [number, *[out] * 5, c.c_char_p], number),
            ("links", [], number), ("link_of", [number], number),
            ("inferred", [], wide), ("rooms", [], wide), ("requests", [], wide),
            ("is_quiet", [], number), ("faults", [], number), ("fault", [], c.c_char_p), ("script", [], c.c_char_p),
            ("cycle", [], wide)]:
        function = getattr(lib, "jvh_" + name)
        function.argtypes, function.restype = [at, *words], result
    judges(lib)
    declare(lib)
    return lib


def judges(lib):
    """The types of the calls of the judges of jinavoke.hpp."""
    at, number, why = c.c_void_p, c.c_int, c.POINTER(c.c_uint32)
    lib.jjd_open.argtypes = [c.POINTER(JudgeNumbers), c.c_char_p, c.c_size_t, number, number, why]
    lib.jpd_open.argtypes = [c.POINTER(PinsNumbers), number, why]
    lib.jjd_judge.argtypes = [at, c.POINTER(Entry), c.POINTER(Verdict)]
    lib.jpd_judge.argtypes = [at, c.POINTER(Line), c.POINTER(PinsVerdict)]
    for prefix in "jjd", "jpd":
        for name, result in ("open", at), ("judge", None), ("free", None), ("inferred", c.c_longlong):
            getattr(lib, f"{prefix}_{name}").restype = result
        for name in "free", "inferred":
            getattr(lib, f"{prefix}_{name}").argtypes = [at]


def library_file():
    """The library: JINAVOKE_DPI, or the installed one."""
    return os.environ.get("JINAVOKE_DPI") or str(pathlib.Path(__file__).resolve().parents[2] / "libjinavoke_dpi.so")


class Home(Simulated, Opened):
    """A home of `clients` links. `image` is the memory's first bytes; `wire` and `events` name files for records, which
    `close` ends (OSError where one cannot be written). `ends_quiet` and `wire_patience` are what the first says of its
    end: that the bench runs on until `is_quiet`, and how many cycles an exchange may be open. `memory_blocks` is
    another name of `blocks`. `uncached` has the sources of each agent without a cache, and `cached` those of each
    client, where one link has several: (link, first, last).

    For a simulator: `memory_bytes` of memory behind the home, of which `blocks` are a window where it is longer, and
    `memory` with read(address, count), write(address, data), and where it likes ready(address, count, is_write, sent,
    now), which says in which cycle it answers; without one that memory is 0. `latencies` by the name of the channel."""

    kind = "home"

    def __init__(self, image=b"", wire="", events="", path=None, cached=(), uncached=(), memory=None, memory_bytes=0,
                 latencies=None, ends_quiet=False, wire_patience=0, **numbers):
        if "memory_blocks" in numbers:
            if "blocks" in numbers:
                raise TypeError("memory_blocks is another name of blocks: one of them")
            numbers["blocks"] = numbers.pop("memory_blocks")
        unknown = set(numbers) - set(NUMBERS)
        if unknown:
            raise TypeError(f"a home has no number {', '.join(sorted(unknown))}")
        self.numbers = {name: fitting(name, it, BITS.get(name, 31)) for name, it in {**NUMBERS, **numbers}.items()}
        self.lib = library(path or library_file())
        files = [record_file(it) for it in (wire, events)]
        words = [ranges(cached), ranges(uncached), octets(image).hex().encode(), *files]
        expected = bool(ends_quiet), fitting("wire_patience", wire_patience, 63)
        behind, self.behind = behind_of(self.lib, memory, memory_bytes, latencies)
        at = self.lib.jvh_new_expected(behind, *self.numbers.values(), *words, *expected)
        if not at:
            raise ValueError("there is no cache of these numbers")
        self.begin(at)

    @classmethod
    def restore(cls, file, wire="", events="", path=None, memory=None, ends_quiet=False, wire_patience=0):
        """The home that `save` kept in a file; ValueError where it is none, cut short, damaged or of another version
        (standard error says which). `memory` as when it was made: it gets the bytes of the file."""
        self = cls.__new__(cls)
        self.lib = library(path or library_file())
        files = [record_file(it) for it in (wire, events)]
        expected = bool(ends_quiet), fitting("wire_patience", wire_patience, 63)
        behind, self.behind = behind_of(self.lib, memory, 1, None)
        at = self.lib.jvh_restore_expected(os.fsencode(file), behind, *files, *expected)
        if not at:
            raise ValueError(f"{file} is no checkpoint that can be restored")
        numbers = (c.c_longlong * len(NUMBERS))()
        self.lib.jvh_numbers(at, numbers)
        self.numbers = dict(zip(NUMBERS, numbers))
        self.begin(at)
        return self

    def begin(self, at):
        self.hold(at)
        self.size = self.numbers["block_bytes"].bit_length() - 1
        self.link_count = self.call("jvh_links")
        self.links = [Link(self, k) for k in range(self.link_count)]

    def tick(self):
        """The cycle's end: home and the memory make their own steps."""
        self.call("jvh_tick")
        self.raise_of_memory()

    @property
    def cycle(self):
        return self.call("jvh_cycle")

    def is_quiet(self):
        return bool(self.call("jvh_is_quiet"))

    def fault_count(self):
        return self.call("jvh_faults")

    def inferred(self):
        """How many copies clients are taken to have dropped in silence."""
        return self.call("jvh_inferred")

    def rooms(self):
        """How many copies home took back since a client's table was full."""
        return self.call("jvh_rooms")

    def requests(self):
        """How many requests of agents without a cache were carried out."""
        return self.call("jvh_requests")

    def faults(self):
        """The texts of the faults since this was last asked, as one."""
        return self.call("jvh_fault").decode()

    def script(self):
        """What came of the last fault's block, as a script for `tlchart`; empty where it is too long."""
        return self.call("jvh_script").decode()

    def end(self, at):
        self.lib.jvh_free(at)


class Link:
    """A TL-C link, seen from home: of one client, or of those whose sources `cached` has there. A beat's bytes are the
    lanes of the bus, lane 0 first."""

    def __init__(self, home, client):
        self.home, self.number = home, operator.index(client)
        if not 0 <= self.number < home.link_count:
            raise ValueError(f"there is no client {self.number}: the home has {home.link_count}")

    @property
    def client(self):
        return self.number

    def call(self, name, *words):
        answer = self.home.call("jvh_" + name, self.number, *words)
        self.home.raise_of_memory()
        return answer

    def beat(self, opcode, param, source, address, size):
        """The words of a beat that came up; ValueError where no wire carries one of them."""
        size = self.home.size if size is None else size
        words = dict(opcode=opcode, param=param, size=size, source=source)
        return [*(fitting(name, it) for name, it in words.items()), fitting("address", address, 64)]

    def a(self, opcode, param, source, address, size=None, raised=None, data=b"", mask=None):
        """A beat fired on A; `raised`: the cycle in which valid rose for it. Of a request without a cache its data, and
        the mask of its lanes (all of the request's where there is none)."""
        words = self.beat(opcode, param, source, address, size)
        lanes = self.lanes(address, words[2]) if mask is None else fitting("mask", mask, 64)
        raised = self.home.cycle if raised is None else fitting("raised", raised, 64)
        self.call("a_wide", *words, raised, self.on_bus(data), lanes.to_bytes(8, "little"))

    def lanes(self, address, size):
        """The lanes of so many bytes at an address."""
        bus = self.home.numbers["beat_bytes"]
        count = 1 << min(size, bus.bit_length() - 1)
        return (1 << count) - 1 << address % bus // count * count

    def on_bus(self, data):
        """The lanes that a beat drives; ValueError where there are more than those of the bus."""
        lanes, most = octets(data), self.home.numbers["beat_bytes"]
        if len(lanes) > most:
            raise ValueError(f"a beat of {len(lanes)} bytes, on a bus of {most}")
        return lanes.ljust(64, b"\0")

    def c(self, opcode, param, source, address, data=b"", size=None):
        """A beat fired on C."""
        self.call("c", *self.beat(opcode, param, source, address, size), self.on_bus(data))

    def e(self, sink):
        """A GrantAck fired on E."""
        self.call("e", fitting("sink", sink))

    def b(self):
        """What B is to be driven with next, or None."""
        param, source, address = c.c_int(), c.c_int(), c.c_longlong()
        if self.call("b", param, source, address):
            return Down(6, param.value, source.value, address=address.value % 2**64, size=self.home.size)
        return None

    def d(self):
        """The beat that D is to be driven with next, or None."""
        words = [c.c_int() for _ in range(5)]
        lanes = c.create_string_buffer(64)
        if self.call("d_wide", *words, lanes):
            opcode, param, size, source, sink = (it.value for it in words)
            return Down(opcode, param, source, sink, data=lanes.raw[:self.home.numbers["beat_bytes"]], size=size)
        return None

    def b_taken(self):
        """The beat of b() fired."""
        self.take(B)

    def d_taken(self):
        """The beat of d() fired."""
        self.take(D)

    def take(self, channel):
        if not self.call("taken", channel):
            raise ValueError(f"nothing is offered on {'ABCDE'[channel]}")

    def load(self, address, data, client=None):
        """The core loaded these bytes; of which client, where the link has several."""
        self.access(0, address, data, client)

    def store(self, address, data, client=None):
        """The core stored these bytes; of which client, where the link has several."""
        self.access(1, address, data, client)

    def access(self, is_store, address, data, client=None):
        whose = self.number if client is None else fitting("client", client, 31)
        if whose >= self.home.numbers["clients"]:
            raise ValueError(f"there is no client {whose}: the home has {self.home.numbers['clients']}")
        data = octets(data)
        fitting("address", address, 64)
        fitting("address", address + max(len(data) - 1, 0), 64)
        for at in range(0, len(data), 8):
            eight = data[at:at + 8]
            word = int.from_bytes(eight.ljust(8, b"\0"), "little", signed=True)
            self.home.call("jvh_access", whose, is_store, address + at, len(eight), word)
