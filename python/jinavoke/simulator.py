"""What a home of links (links.py) has for a simulator: what is due, counts, a memory of any size, a checkpoint.
docs/SIMULATOR.md leads through it; jinavoke.hpp says what each function does."""
import ctypes as c
import json
import operator
import sys

# The channels of a message, in the order of jv_channel.
CHANNELS = "A B C D E MEMORY_A MEMORY_D".split()
NEVER = 2**64 - 1
READ = c.CFUNCTYPE(c.c_int, c.c_longlong, c.POINTER(c.c_uint8), c.c_int)
READY = c.CFUNCTYPE(c.c_longlong, c.c_longlong, c.c_int, c.c_int, c.c_longlong, c.c_longlong)


def declare(lib):
    """The functions of the library that are called here."""
    at, number, wide = c.c_void_p, c.c_int, c.c_longlong
    lib.jvh_behind.argtypes = [wide, c.c_void_p, c.c_void_p, c.c_void_p, c.POINTER(wide)]
    lib.jvh_behind.restype = c.c_void_p
    lib.jvh_restore_expected.argtypes = [c.c_char_p, at, c.c_char_p, c.c_char_p, number, wide]
    lib.jvh_restore_expected.restype = c.c_void_p
    for name, words, result in [
            ("failed", [], c.c_char_p), ("counts", [number], c.c_char_p), ("reset_counts", [], None),
            ("next_due", [], c.c_ulonglong), ("advance_to", [wide], number),
            ("poke", [wide, c.c_char_p, number], number), ("peek", [wide, c.c_char_p, number], number),
            ("flush", [], number), ("save", [c.c_char_p], number), ("numbers", [c.POINTER(wide)], None)]:
        function = getattr(lib, "jvh_" + name)
        function.argtypes, function.restype = [at, *words], result


def latencies_of(given):
    """Cycles on each channel, by name: {"A": 4, "MEMORY_D": 10}; 0 where none is given."""
    given = dict(given or {})
    unknown = set(given) - set(CHANNELS)
    if unknown:
        raise TypeError(f"there is no channel {', '.join(sorted(unknown))}, but {', '.join(CHANNELS)}")
    numbers = [operator.index(given.get(name, 0)) for name in CHANNELS]
    if not all(0 <= it < 2**31 for it in numbers):
        raise ValueError("a latency is a number of 31 bits")
    return (c.c_longlong * len(CHANNELS))(*numbers)


class Behind:
    """A memory of the caller's, called by the library. What it raises is kept, and raised by the home's call."""

    def __init__(self, memory):
        self.memory, self.raised = memory, None
        self.reads, self.writes = READ(self.read), READ(self.write)
        self.is_ready = READY(self.ready) if hasattr(memory, "ready") else None

    def guarded(self, call, other):
        try:
            return call()
        except BaseException:  # it goes through a call of the library's, which knows no exceptions of Python
            self.raised = sys.exc_info()[1]
            return other

    def read(self, address, to, count):
        def call():
            data = bytes(self.memory.read(address % 2**64, count))
            if len(data) != count:
                raise ValueError(f"the memory read {len(data)} bytes, and not {count}")
            c.memmove(to, data, count)
            return 1
        return self.guarded(call, 0)

    def write(self, address, data, count):
        return self.guarded(lambda: self.memory.write(address % 2**64, c.string_at(data, count)) or 1, 0)

    def ready(self, address, count, is_write, sent, now):
        def call():
            return operator.index(self.memory.ready(address % 2**64, count, bool(is_write), sent, now))
        return self.guarded(call, now + 1)

    def made(self, lib, size, latencies):
        pointers = [c.cast(it, c.c_void_p) if it else None for it in (self.reads, self.writes, self.is_ready)]
        return lib.jvh_behind(size, *pointers, latencies)


def behind_of(lib, memory, memory_bytes, latencies):
    """What the library is handed of a memory, and what has to stay as long as the home; None where there is nothing."""
    size = operator.index(memory_bytes)
    if not 0 <= size < 2**63:
        raise ValueError(f"memory_bytes={size}: it is a number of 63 bits")
    if memory is not None and not size:
        raise ValueError("a memory of one's own, and no memory_bytes")
    if not size and latencies is None:
        return None, None
    times = latencies_of(latencies)
    if memory is None:
        return lib.jvh_behind(size, None, None, None, times), None
    kept = Behind(memory)
    return kept.made(lib, size, times), kept


class Simulated:
    """What a home has beyond its links, in a simulator."""

    behind = None

    def told(self, name, *words):
        """A call that may fail: OSError or ValueError with what was wrong."""
        answer = self.call("jvh_" + name, *words)
        if answer < 0:
            why = self.call("jvh_failed").decode()
            self.raise_of_memory()
            raise (OSError if name == "save" and "cannot be written" in why else ValueError)(why)
        return answer

    def raise_of_memory(self):
        """What a memory of the caller's has raised in a call."""
        if self.behind and self.behind.raised:
            raised, self.behind.raised = self.behind.raised, None
            raise raised

    def next_due(self):
        """The next cycle in which home does something by itself, or None."""
        due = self.call("jvh_next_due")
        return None if due == NEVER else due

    def advance_to(self, cycle):
        """As tick() until this cycle; what is not due takes no time. ValueError where it is behind."""
        cycle = operator.index(cycle)
        if not 0 <= cycle < 2**63 or not self.call("jvh_advance_to", cycle):
            raise ValueError(f"cycle {cycle} is none to come: it is {self.cycle}")
        self.raise_of_memory()

    def counts(self):
        """What was counted, as a dictionary: home's numbers, "all", and "clients", a list."""
        return json.loads(self.call("jvh_counts", 1))

    def counts_text(self):
        """What was counted, as a table."""
        return self.call("jvh_counts", 0).decode()

    def reset_counts(self):
        self.call("jvh_reset_counts")

    def poke(self, address, data):
        """Writes the memory behind a window: whether it is done, or home first takes the block back."""
        data = bytes(data)
        done = bool(self.told("poke", self.address(address), data, len(data)))
        self.raise_of_memory()
        return done

    def peek(self, address, count):
        """The newest bytes, as a client, home or the memory has them."""
        count = operator.index(count)
        if not 0 <= count < 2**31:
            raise ValueError(f"{count} bytes: a number of 31 bits")
        out = c.create_string_buffer(count or 1)
        self.told("peek", self.address(address), out, count)
        self.raise_of_memory()
        return out.raw[:count]

    @staticmethod
    def address(number):
        number = operator.index(number)
        if not 0 <= number < 2**64:
            raise ValueError(f"address={number}: it is a number of 64 bits")
        return number - 2**64 if number >= 2**63 else number

    def flush(self):
        """Whether home holds nothing and is quiet; else it takes all blocks back: ask again after each cycle."""
        return bool(self.call("jvh_flush"))

    def save(self, file):
        """Keeps a home that is flushed in a file; ValueError where it is not, OSError where it cannot be written."""
        self.told("save", str(file).encode())
