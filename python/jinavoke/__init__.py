"""The banks of a Jinavoke cache from Python, by ctypes; `jinavoke.h` says what each call, field and number means.

    import jinavoke as jv
    cache = jv.Cache(clients=2, banks=1, block_bytes=8, sets=1, ways=2, registers=2, copies=2, memory_blocks=4)
    asked = cache.ticket("acquire", client=0, place=0, param=jv.JV_NTOT)
    cache.step("accept", **asked)
    cache.drain()                                     # takes what is under way, until every bank is quiet

A design's links have a home of their own, `jv.Home` (links.py).

Each JV_, JJ_ and JP_ name of the header is a name of this module; `jv.Judge` judges events as a bench runs, and
`jv.PinsJudge` messages at a client's pins. To import it opens no file: the header is read where a number is first
needed, and the shared library is loaded by the first cache. Both are those that were installed with this file, or, in a
checkout, the repository's header. JINAVOKE_HEADER and JINAVOKE_LIBRARY name others.

What is closed answers each use with a ValueError. Threads may share a cache, a judge or a home: a call keeps the
interpreter's lock (ctypes.PyDLL), so calls are made one at a time. No number wraps: one that its field has no room for
is handed in as the field's greatest, which the library refuses with its status; an `index` or a byte, which has no such
status, is a ValueError.
"""
import ctypes as c
import functools
import operator
import os
import pathlib
import re
import struct
import sys

NUMBERS = "version clients banks block_bytes sets ways registers copies memory_blocks".split()
ASKED = "call index client place param bank channel len".split()
TOLD = "status what bank client channel opcode param place address size index len stores reserved".split()
SEEN = "channel opcode param client block len options index".split()
ENTRY = "event client place param shown channel opcode shown_param len".split()
VERDICT = "status rule opcode param len perm is_at_home why".split()
LINE = "what client place channel opcode param len".split()
PINS_VERDICT = "status rule opcode param len perm wait why".split()
# What a ticket is made of.
TICKET = "bank client channel serial".split()
# What the statuses 20 to 28 are of: the numbers of a cache, in the order in which they are asked.
ILLEGAL = dict(zip(range(20, 29), NUMBERS[1:] + NUMBERS[:1]))
# What each number of a type can be, and how `struct` names it.
RANGES = {c.c_uint32: (0, 2**32 - 1), c.c_uint64: (0, 2**64 - 1), c.c_int64: (-2**63, 2**63 - 1)}
CODES = {c.c_uint32: "I", c.c_uint64: "Q", c.c_int64: "q"}


def octets(data):
    """Bytes of what has them, of numbers from 0 to 255 too; a ValueError where one is no byte."""
    if isinstance(data, bytes):
        return data
    if isinstance(data, int):
        raise TypeError("bytes are wanted, and no number")
    return bytes(data)


class Octets(c.Array):
    """Bytes of a struct: what is no byte is a ValueError, where ctypes keeps its lowest eight bits."""
    _type_, _length_ = c.c_uint8, 0

    def __setitem__(self, at, value):
        super().__setitem__(at, octets(value) if isinstance(at, slice) else octets([value])[0])

    @classmethod
    def of(cls, data):
        """These bytes, and 0 behind them; ValueError where they are too many."""
        if len(data) > cls._length_:
            raise ValueError(f"{len(data)} bytes, where {cls._length_} have room")
        return cls.from_buffer_copy(data.ljust(cls._length_, b"\0"))


class Octets8(Octets):
    _length_ = 8


class Octets64(Octets):
    _length_ = 64


class Asking(c.Structure):
    """What a library is asked, in which no number wraps: one that its field has no room for becomes the field's
    greatest (or least), which no cache has. `index` may be any number of 32 bits, so another is a ValueError."""

    def __init_subclass__(cls):
        """A 0 for each number, and what packs them with the bytes behind them: at once, since one by one takes long."""
        *numbers, (_, last) = cls._fields_
        cls.zeros = {name: 0 for name, _ in numbers}
        if issubclass(last, Octets):
            codes = "".join(CODES[kind] for _, kind in numbers)
            cls.pack = struct.Struct(f"={codes}{last._length_}s").pack

    @classmethod
    def made(cls, data, **words):
        """One of these numbers, 0 where none is given, and the bytes that have room."""
        numbers = {**cls.zeros, **words}
        if len(numbers) == len(cls.zeros):
            try:
                return cls.from_buffer_copy(cls.pack(*numbers.values(), data))
            except struct.error:  # one of them does not fit, or is no number
                pass
        return cls(bytes=data[:cls.kind_of("bytes")._length_], **words)

    @classmethod
    @functools.lru_cache(maxsize=None)
    def kind_of(cls, name):
        """The type of a field; TypeError where there is none of that name."""
        fields = dict(cls._fields_)
        if name not in fields:
            raise TypeError(f"there is no {name!r}, but " + ", ".join(fields))
        return fields[name]

    def __setattr__(self, name, value):
        kind = self.kind_of(name)
        if kind in RANGES:
            value = self.fitting(name, operator.index(value), *RANGES[kind])
        elif issubclass(kind, Octets):
            value = kind.of(octets(value))
        super().__setattr__(name, value)

    @staticmethod
    def fitting(name, value, least, most):
        if least <= value <= most:
            return value
        if name == "index":
            raise ValueError(f"index={value}: it is a number of 32 bits")
        return least if value < least < 0 else most


class Numbers(Asking):
    """The numbers of a cache (jv_numbers)."""
    _fields_ = [(name, c.c_int64) for name in NUMBERS]


class Request(Asking):
    """A call or a view with what it is asked for (jv_request)."""
    _fields_ = [(name, c.c_uint32) for name in ASKED] + [("serial", c.c_uint64), ("bytes", Octets8)]


class Answer(c.Structure):
    """What a call or a view tells (jv_answer)."""
    _fields_ = [(name, c.c_uint32) for name in TOLD] + [("serial", c.c_uint64), ("bytes", c.c_uint8 * 64)]

    @property
    def data(self):
        """The bytes that it tells."""
        return bytes(self.bytes[:self.len])


class Seen(Asking):
    """A message that was seen on a client's link (jv_seen)."""
    _fields_ = [(name, c.c_uint32) for name in SEEN] + [("bytes", Octets64)]


class Number(c.Structure):
    """What `jv_read` and `jv_memory` answer (jv_number)."""
    _fields_ = [("status", c.c_uint32), ("what", c.c_uint32), ("serial", c.c_uint64)]


class JudgeNumbers(Asking):
    """The numbers of a judge (jj_numbers)."""
    _fields_ = [(name, c.c_uint32) for name in ("clients", "block_bytes", "memory_blocks", "order")]


class Entry(Asking):
    """An event, with the message that was seen to be sent by it (jj_entry)."""
    _fields_ = [(name, c.c_uint32) for name in ENTRY] + [("bytes", Octets64)]


class Verdict(c.Structure):
    """What a judge tells of an entry (jj_verdict)."""
    _fields_ = [(name, c.c_uint32) for name in VERDICT] + [("bytes", c.c_uint8 * 64)]


class PinsNumbers(Asking):
    """The numbers of a judge at a client's pins (jp_numbers)."""
    _fields_ = [("of", JudgeNumbers), ("client", c.c_uint32), ("cores_unseen", c.c_uint32)]


class Line(Asking):
    """A message on a client's link, a load or a store (jp_line)."""
    _fields_ = [(name, c.c_uint32) for name in LINE] + [("bytes", Octets64)]


class PinsVerdict(c.Structure):
    """What a judge at a client's pins tells of a line (jp_verdict)."""
    _fields_ = [(name, c.c_uint32) for name in PINS_VERDICT] + [("bytes", c.c_uint8 * 64)]


class Refused(Exception):
    """A step was refused, or a cache was not opened: `status` is the number, as in jv_status."""

    def __init__(self, what, status):
        super().__init__(f"{what}: {status_name(status)}")
        self.status = status


def header_file():
    """The header: JINAVOKE_HEADER, or the installed one, or that of a checkout."""
    here = pathlib.Path(__file__).resolve()
    found = [here.parents[at] / "include" / "jinavoke.h" for at in (3, 2)]
    return pathlib.Path(os.environ.get("JINAVOKE_HEADER") or next((it for it in found if it.is_file()), found[0]))


def library_file():
    """The shared library: JINAVOKE_LIBRARY, or the installed one."""
    return os.environ.get("JINAVOKE_LIBRARY") or str(pathlib.Path(__file__).resolve().parents[2] / "libjinavoke.so")


@functools.lru_cache(maxsize=None)
def enums():
    """Each enum of the header: its name, and the number of each of its enumerators."""
    text = re.sub(r"/\*.*?\*/", "", header_file().read_text(encoding="utf-8"), flags=re.S)
    found = {}
    for name, body in re.findall(r"enum (\w+) \{(.*?)\}", text, flags=re.S):
        number, found[name] = 0, {}
        for word, given in re.findall(r"(\w+)\s*(?:=\s*(\d+))?\s*(?:,|$)", body.strip()):
            number = int(given) if given else number
            found[name][word] = number
            number += 1
    version = re.search(r"#define JV_VERSION (\d+)", text)
    found["version"] = {"JV_VERSION": int(version[1])}
    return found


def __getattr__(name):
    """A number of the header, by its name there."""
    if name.startswith(("JV_", "JJ_", "JP_")):
        for words in enums().values():
            if name in words:
                return words[name]
    raise AttributeError(f"module {__name__!r} has no attribute {name!r}")


def name_of(prefix, number, enum):
    """The name of a number in an enum of the header, or None."""
    return next((word for word, it in enums()[enum].items() if it == number and word.startswith(prefix)), None)


def status_name(status):
    """A status in words: its name in the header, or which number is not legal."""
    if status in ILLEGAL:
        return f"{status}, {ILLEGAL[status]} is not legal"
    return name_of("JV_", status, "jv_status") or str(status)


def loaded(path):
    """The library of this path. A call keeps the interpreter's lock, so that threads make theirs one at a time."""
    if not getattr(sys, "_is_gil_enabled", lambda: True)():
        raise OSError(f"{path}: this Python has no interpreter lock, which keeps the calls of threads apart")
    return c.PyDLL(path)


@functools.lru_cache(maxsize=None)
def library(path):
    """The shared library, once the layout of its structs is seen to be this file's."""
    lib = loaded(path)
    lib.jv_version.restype = c.c_uint32
    lib.jv_size.restype = lib.jv_align.restype = c.c_size_t
    lib.jv_echo.argtypes, lib.jv_echo.restype = [c.POINTER(Request)], Answer
    lib.jv_open.argtypes, lib.jv_open.restype = [c.POINTER(Numbers), c.c_char_p, c.c_size_t, c.c_void_p], None
    lib.jv_call.argtypes, lib.jv_call.restype = [c.c_void_p, c.POINTER(Request)], Answer
    lib.jv_read.argtypes, lib.jv_read.restype = [c.c_void_p, c.POINTER(Request), c.c_void_p, c.c_size_t], Number
    lib.jv_memory.argtypes, lib.jv_memory.restype = [c.c_void_p, c.POINTER(Request), c.c_char_p, c.c_size_t], Number
    lib.jv_echo_seen.argtypes, lib.jv_echo_seen.restype = [c.POINTER(Seen)], Answer
    lib.jv_saw.argtypes, lib.jv_saw.restype = [c.c_void_p, c.POINTER(Seen)], Answer
    lib.jj_size.restype = lib.jj_align.restype = c.c_size_t
    lib.jj_open.argtypes, lib.jj_open.restype = [c.POINTER(JudgeNumbers), c.c_char_p, c.c_size_t, c.c_void_p], None
    lib.jj_see.argtypes, lib.jj_see.restype = [c.c_void_p, c.POINTER(Entry)], Verdict
    lib.jp_size.restype = lib.jp_align.restype = c.c_size_t
    lib.jp_open.argtypes, lib.jp_open.restype = [c.POINTER(PinsNumbers), c.c_void_p], None
    lib.jp_see.argtypes, lib.jp_see.restype = [c.c_void_p, c.POINTER(Line)], PinsVerdict
    lib.jv_calls.restype = c.c_size_t  # a Batch hands over what needs no conversion
    back = lib.jv_echo(Request(101, 102, 103, 104, 105, 106, 107, 108, 109))
    told = [back.what, back.index, back.client, back.place, back.param, back.bank, back.channel, back.opcode,
            back.serial]
    back = lib.jv_echo_seen(Seen(*range(110, 118)))
    told += [back.channel, back.opcode, back.param, back.client, back.place, back.size, back.what, back.index]
    if told != [*range(101, 118)] or lib.jv_version() != enums()["version"]["JV_VERSION"]:
        raise OSError(f"{path}: the library is of another version than {header_file()}")
    return lib


def asked(call, bytes=b"", **words):
    """The request of a call or a view, named as in the header (JV_CALL_.., JV_VIEW_..) in small letters."""
    words.setdefault("len", len(bytes))
    return Request.made(octets(bytes), call=number_of_call(call), **words)


@functools.lru_cache(maxsize=None)
def number_of_call(call):
    """The number of a call or a view; ValueError where there is none of that name."""
    numbers = enums()["jv_call_number"]
    number = next((numbers[it + call.upper()] for it in ("JV_CALL_", "JV_VIEW_") if it + call.upper() in numbers), None)
    if number is None:
        raise ValueError(f"there is no call or view {call!r}")
    return number


@functools.lru_cache(maxsize=None)
def kinds_of_events():
    """The kinds of events in the order of their numbers, named as in the header (JV_EVENT_..) in small letters."""
    return [it.removeprefix("JV_EVENT_").lower() for it in enums()["jv_event_kind"]]


class Handle:
    """What stands for a cache, a judge or a home in a call. ctypes takes its `_as_parameter_`, the address, in the call
    itself; where there is none the call is not made (ctypes.ArgumentError)."""


class Opened:
    """What a library keeps from its opening until it is closed: a cache, a judge, a home of links."""

    handle = None
    kind = "cache"

    def lend(self, path, prefix):
        """Memory for what the function with this prefix opens: PREFIX_size bytes, at an address that PREFIX_align
        divides."""
        self.lib = library(path or library_file())
        align = getattr(self.lib, f"{prefix}_align")()
        self.room = c.create_string_buffer(getattr(self.lib, f"{prefix}_size")() + align)
        begin = c.addressof(self.room)
        self.hold(begin + -begin % align)

    def hold(self, address):
        """It is open, at this address."""
        self.handle = Handle()
        self.handle._as_parameter_ = c.c_void_p(address)

    def call(self, name, *words):
        """What the library's function answers; ValueError where this is closed."""
        try:
            return getattr(self.lib, name)(self.handle, *words)
        except c.ArgumentError:
            self.check()
            raise

    def is_open(self):
        return hasattr(self.handle, "_as_parameter_")

    def check(self):
        """ValueError where it is closed."""
        if not self.is_open():
            raise ValueError(f"the {self.kind} is closed") from None

    def end(self, at):
        """The call that closes it."""
        raise NotImplementedError

    def close(self):
        """Gives all that it holds back; a closed one is closed again without harm."""
        at = self.handle and self.handle.__dict__.pop("_as_parameter_", None)
        if at:
            self.end(at)

    def __enter__(self):
        self.check()
        return self

    def __exit__(self, *_):
        self.close()

    def __del__(self):
        self.close()


class Batch:
    """Calls and views that are made at once (jv_calls), as often as `run` is called.

    `requests` and `answers` are arrays of as many as there are: change a request's fields between two runs. `run`
    answers how many were made: it ends at the first that is answered with another status than 0, whose answer is the
    last one.
    """

    def __init__(self, cache, requests):
        cache.check()
        self.cache = cache  # its room has to stay
        self.requests = (Request * len(requests))(*requests)
        self.answers = (Answer * len(requests))()
        many = c.c_size_t(len(requests))
        self.made = functools.partial(cache.lib.jv_calls, cache.handle, c.byref(self.requests), many,
                                      c.byref(self.answers), many)

    def run(self):
        """How many calls were made; ValueError where the cache is closed."""
        try:
            return self.made()
        except c.ArgumentError:
            self.cache.check()
            raise


class Cache(Opened):
    """A cache at reset over an image. Its numbers are those of jv_numbers; the version is 2 where none is given.
    `numbers` has them, so that `Cache(cache.image(), **cache.numbers)` goes on from a cache that was flushed."""

    def __init__(self, image=b"", path=None, **numbers):
        self.numbers = {"version": 2, **numbers}
        numbers, image = Numbers(**self.numbers), octets(image)
        self.lend(path, "jv")
        self.lib.jv_open(numbers, image, len(image), self.handle)
        why = self.ask("room")
        if why.status == enums()["jv_status"]["JV_CLOSED"]:
            raise Refused("the cache is not opened", why.serial)

    def ask(self, call, bytes=b"", **words):
        """The answer of a call or a view, named as in the header (JV_CALL_.., JV_VIEW_..) in small letters, refused or
        not."""
        return self.call("jv_call", asked(call, bytes, **words))

    def batch(self, *calls):
        """A Batch of requests, each made by `asked`."""
        return Batch(self, calls)

    def many(self, *calls):
        """The answers of calls that are made one after another, until one is refused, whose answer is the last."""
        batch = self.batch(*calls)
        return batch.answers[:batch.run()]

    def saw(self, bytes=b"", **words):
        """The answer to a message that was seen on A, C or E (jv_saw): channel, opcode, param, client, block, and
        options (JV_STORES)."""
        words.setdefault("len", len(bytes))
        return self.call("jv_saw", Seen.made(octets(bytes), **words))

    def step(self, call, **words):
        """The answer of a call that is done; Refused where it is not."""
        return self.done(call, self.ask(call, **words))

    @staticmethod
    def done(what, answer):
        """The answer of what is done; Refused where it is not."""
        if answer.status:
            raise Refused(what, answer.status)
        return answer

    def make(self, request):
        """The answer of a request (`asked`, `next_call`) that is done; Refused where it is not."""
        return self.done(name_of("JV_", request.call, "jv_call_number"), self.call("jv_call", request))

    def ticket(self, call, **words):
        """The ticket of the message that a call sends; Refused where it is not done, ValueError where it sends none."""
        answer = self.step(call, **words)
        if answer.what != enums()["jv_what"]["JV_TELLS_MESSAGE"]:
            raise ValueError(f"{call} sent no message")
        return {name: getattr(answer, name) for name in TICKET}

    def events(self, bank=0):
        """The events of a bank's log that are not forgotten, oldest first."""
        return self.read(asked("event", bank=bank, serial=self.step("forgotten", bank=bank).serial))

    def read(self, request):
        while True:
            read = (Answer * 256)()
            count = self.call("jv_read", request, read, len(read)).serial
            if not count:
                return
            yield from read[:count]
            request.serial += count

    def drain(self):
        """Takes all that is under way, until every bank is quiet: how many events came. Refused where there is no
        memory for a log (JV_NO_MEMORY); what came before stays, and a later drain goes on."""
        return self.step("drain").serial

    def flush(self):
        """Drains, and then sends each block away of which home has a copy: how many events came. Then no client and no
        home has a copy, and the memory has the bytes last stored. Refused as a drain."""
        return self.step("flush").serial

    def image(self):
        """The bytes of the memory: after `flush` those last stored."""
        size = operator.index(self.numbers["memory_blocks"]) * operator.index(self.numbers["block_bytes"])
        memory = c.create_string_buffer(size)
        self.done("image", self.call("jv_memory", asked("memory"), memory, size))
        return memory.raw

    def next_call(self, bank=0):
        """The request of a call that moves the bank on, for `make`, `many` or `batch`: it would be done now, and
        something is received by it. None where the bank is quiet; Refused where there is no such bank."""
        told = self.ask("next", bank=bank)
        if told.status == enums()["jv_status"]["JV_NOTHING_THERE"]:
            return None
        self.done("next_call", told)
        return Request(call=told.opcode, place=told.place, **{name: getattr(told, name) for name in TICKET})

    def counts(self, bank=None):
        """How many events of each kind the log of a bank has, or where none is named those of all banks: by the names
        of `kinds_of_events`. What is forgotten is not counted. Refused where there is no such bank."""
        kinds, banks = kinds_of_events(), range(self.numbers["banks"]) if bank is None else [bank]
        counted = dict.fromkeys(kinds, 0)
        asks = (asked("count", bank=it, param=number) for it in banks for number in range(len(kinds)))
        for kind, answer in zip(kinds * len(banks), self.many(*asks)):
            counted[kind] += self.done("counts", answer).serial
        return counted

    def end(self, at):
        self.lib.jv_call(at, Request())  # JV_CALL_CLOSE is 0


class Judging(Opened):
    """A judge: of the library, or one of jinavoke.hpp, which infers what was dropped, in the library of a home of
    links (links.py)."""

    kind = "judge"
    prefix = ""  # of the library's functions
    infers = False

    def begin(self, path, infers, opening, *options):
        """Opens it; Refused where it is not. `options` are those of jinavoke.hpp."""
        self.infers = infers
        if infers:
            self.lib, why = links.library(path or links.library_file()), c.c_uint32()
            at = getattr(self.lib, f"{self.prefix}d_open")(*opening, *options, why)
            if not at:
                raise Refused("the judge is not opened", why.value)
            self.hold(at)
            return
        self.lend(path, self.prefix)
        getattr(self.lib, f"{self.prefix}_open")(*opening, self.handle)
        why = self.see(254)  # no entry: an open judge answers JV_BAD_ARGUMENT
        if why.status == enums()["jv_status"]["JV_CLOSED"]:
            raise Refused("the judge is not opened", why.why)

    def hand(self, entry, verdict):
        """What the judge says of an entry or a line; `verdict` is the type of that."""
        if not self.infers:
            return self.call(f"{self.prefix}_see", entry)
        told = verdict()
        self.call(f"{self.prefix}d_judge", entry, told)
        return told

    def inferred(self):
        """How many copies clients are taken to have dropped: 0 without `drops_clean`."""
        self.check()
        return self.call(f"{self.prefix}d_inferred") if self.infers else 0

    def end(self, at):
        if self.infers:
            getattr(self.lib, f"{self.prefix}d_free")(at)
        else:
            self.closes(at)

    def closes(self, at):
        """The entry that closes a judge of the library."""
        raise NotImplementedError


class Judge(Judging):
    """A judge of events at reset over an image: clients, block_bytes, memory_blocks (jj_numbers). With `each_block` the
    order of a channel is asked for each block alone. With `drops_clean` clients may drop clean copies and send no
    Release, and with `probes_anyone` home may probe a client that has no more than the Probe leaves it; `path` then
    names the library of a home of links."""

    prefix = "jj"

    def __init__(self, image=b"", path=None, drops_clean=False, probes_anyone=False, each_block=False, **numbers):
        numbers, image = JudgeNumbers(order=int(each_block), **numbers), octets(image)
        opening = numbers, image, len(image)
        self.begin(path, drops_clean or probes_anyone, opening, bool(drops_clean), bool(probes_anyone))

    def see(self, event, bytes=b"", **words):
        """The verdict on the next entry: its event by number, or named as in the header (JV_EVENT_..), in small
        letters."""
        number = event if isinstance(event, int) else enums()["jv_event_kind"]["JV_EVENT_" + event.upper()]
        words.setdefault("len", len(bytes))
        return self.hand(Entry.made(octets(bytes), event=number, **words), Verdict)

    def closes(self, at):
        self.lib.jj_see(at, Entry(event=255))


class PinsJudge(Judging):
    """A judge of messages at a client's pins: client, clients, block_bytes, memory_blocks, cores_unseen (jp_numbers).
    With `drops_clean` the client may drop clean copies and send no Release; `path` then names the library of a home of
    links."""

    prefix = "jp"

    def __init__(self, client, cores_unseen=0, path=None, drops_clean=False, **numbers):
        opening = [PinsNumbers(JudgeNumbers(**numbers), client, cores_unseen)]
        self.begin(path, drops_clean, opening, bool(drops_clean))

    def see(self, what, bytes=b"", **words):
        """The verdict on the next line: what it is by number, or named as in the header (JP_..), in small letters."""
        number = what if isinstance(what, int) else enums()["jp_what"]["JP_" + what.upper()]
        words.setdefault("len", len(bytes))
        return self.hand(Line.made(octets(bytes), what=number, **words), PinsVerdict)

    def closes(self, at):
        self.lib.jp_see(at, Line(what=255))


from . import links  # noqa: E402
from .links import Down, Home, Link  # noqa: E402, F401
