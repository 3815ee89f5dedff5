"""The SA-110 data side for Python, over the shared object that tools/hosts makes of the static library.

    import sa110                                # with bindings/python on PYTHONPATH
    m = sa110.Machine(0x40000)                  # memory of 256 KB, all zeros; memory may also be a bytearray, which is lent
    m.put(4, 0x4004, 0xC0E)                     # a store of a word; privileged unless user=True
    m.write(sa110.BASE, 0x4000)                 # a CP15 write
    print(m.swap(4, 0x8000, 1))                 # a swap of a word: 1 is stored, and the answer is the old value
    print(m.load(4, 0x4004), m.counts)          # an answer, and the five counts
    answers, plain, memory = m.plain()          # the calls made so far, on the plain machine
    m.bad[0x8000 // 4] = 1                      # from here on the word at physical address 0x8000 aborts; no word is bad at the start
    sa110.save(m, "stopped.zip")                # the machine in a file
    m = sa110.load("stopped.zip")               # and back, in another process too, to carry on
    print(sa110.replay("3,1,1,0,0\\n"), end="")   # a trace kept as text, replayed on 65,536 zero bytes: 1,0,112
    print(sa110.rights_table()[66])             # an entry of the rights table, worked out from document 001's table 2-3: 2

include/sa110.h says what each function of the library does; document 01, and document 02 for replays, swaps, stored texts, bad words and the rights
table worked out, is the authority on every meaning. What the library refuses of a start or a call is an answer. A ValueError is raised for numbers that do
not fit into 32 bits and for a memory, a cache store or a map of which two are one bytearray, a TypeError for arguments of another type (memory is a length,
or a bytearray, whose bytes the calls change; anything else that has bytes is copied), and an OSError where the shared object is missing. A replay raises a
ValueError where it is fed behind its end, and where its struct's fields are outside their ranges. A StateError, which is a ValueError, is raised where a
machine cannot be stored as text or saved, or a text or a file cannot be read back; an OSError where a file cannot be opened, read or written.

The map of bad words, `bad`, is a bytearray with a byte for each word of memory: 1 for a word that aborts, 0 for a good one. Where it is not given, it has
zeros. Another length than a quarter of memory's, and a byte above 1, are refused by 16 in each call's answer. What is said of a run, as that the plain
machine answers the same, holds where the map stays the same from the start on.
"""

import ctypes
import io
import os
import struct
import zipfile
import zlib
from ctypes import POINTER, byref, c_size_t, c_uint8, c_uint32, c_uint64
from operator import index
from typing import NamedTuple, Optional

STORE_BYTES = 16384
WORD_BYTES = 4  # the map of bad words has a byte for each word of memory
RIGHTS = 256  # entries of the rights table
FIELDS = 5
TRACE_LINE = 64  # bytes of the longest line of a trace as text, with its line feed
PRINTED_LINE = 34  # bytes of the longest line that a replay prints, with its line feed
TEXT_MAX = 12847  # bytes of the longest text of a sound state

# Kinds of call; a trace as text has no swaps.
LOAD, SIGNED_LOAD, STORE, READ, WRITE, SWAP = range(6)

# Registers; 4 reads 0 and ignores writes.
ID, CONTROL, BASE, DOMAINS, RESERVED, FSR, FAR, CACHE, TLB = range(9)
ID_VALUE = 0x4401A100

# Control bits, and those that read as one.
M, A, C, W, S, R, I = 0x1, 0x2, 0x4, 0x8, 0x100, 0x200, 0x1000
CONTROL_ONES = 0x70


def pair(opcode2, crm):
    """Opcode 2 and CRm, below 16, of a write of register 7 or 8, as one number."""
    return opcode2 * 16 + crm


# Operations of register 7, and of register 8.
CACHE_FLUSH, CACHE_FLUSH_LINE, CACHE_CLEAN_LINE, BUFFER_DRAIN = pair(0, 6), pair(1, 6), pair(1, 10), pair(4, 10)
TLB_FLUSH, TLB_FLUSH_ENTRY = pair(0, 6), pair(1, 6)

# Fault statuses, in the order in which they are tested; the second of each pair is for pages or level 2.
ALIGNMENT = 1
WALK_FIRST, WALK_SECOND = 12, 14
TRANSLATION_SECTION, TRANSLATION_PAGE = 5, 7
DOMAIN_SECTION, DOMAIN_PAGE = 9, 11
PERMISSION_SECTION, PERMISSION_PAGE = 13, 15
FILL_SECTION, FILL_PAGE = 4, 6
OTHER_SECTION, OTHER_PAGE = 8, 10

# Refusals. A start meets 1 and 2, an access 1 to 4, 16 and 5 to 7, a CP15 call 1 to 4, 16, 5 and 8 to 12; storing a state as text 1, 3, 4 and 15, and
# reading one back 1, 14, 3 and 4; each in this order. A line of a trace as text meets 13 before all others.
(
    REFUSED_MEMORY,
    REFUSED_STORE,
    REFUSED_STATE,
    REFUSED_LENGTH,
    REFUSED_COUNT,
    REFUSED_WIDTH,
    REFUSED_VALUE,
    REFUSED_USER,
    REFUSED_REGISTER,
    REFUSED_OPERATION,
    REFUSED_BIG_ENDIAN,
    REFUSED_CONTROL,
    REFUSED_LINE,
    REFUSED_TEXT,
    REFUSED_ROOM,
    REFUSED_MAP,
) = range(1, 17)

REFUSALS = {
    1: "the memory's length is not a multiple of 32 or exceeds 16,777,216",
    2: "the cache store is not 16,384 bytes",
    3: "the state is unsound",
    4: "the memory's length differs from the one at the start",
    5: "the count of calls stands at 4,294,967,295",
    6: "the width is not 1, 2 or 4, or is 2 for a swap",
    7: "the value to store or to swap in does not fit the width",
    8: "a CP15 call in user mode",
    9: "the register cannot be read or written",
    10: "the pair for register 7 or 8 is not listed",
    11: "a control write sets bit 7",
    12: "a control write gives a combination of M, C and W that is not valid",
    13: "a line of a trace as text departs from its form",
    14: "the text of a state departs from its form",
    15: "the slice lent for the text of a state is too short",
    16: "the map's length is not a quarter of memory's, or a byte of it exceeds 1",
}

STATUSES = {
    1: "alignment",
    4: "outside memory or a bad word on a line fill, section",
    5: "translation, section",
    6: "outside memory or a bad word on a line fill, page",
    7: "translation, page",
    8: "outside memory or a bad word, section",
    9: "domain, section",
    10: "outside memory or a bad word, page",
    11: "domain, page",
    12: "walk outside memory or at a bad word, level 1",
    13: "permission, section",
    14: "walk outside memory or at a bad word, level 2",
    15: "permission, page",
}


class Registers(ctypes.Structure):
    """The plain five registers."""

    _fields_ = [("control", c_uint32), ("base", c_uint32), ("domains", c_uint32), ("fsr", c_uint32), ("far", c_uint32)]


class Cp15(ctypes.Structure):
    """The small record: the plain five registers and the TLB pointer."""

    _fields_ = [("registers", Registers), ("pointer", c_uint32)]


class CountsStruct(ctypes.Structure):
    _fields_ = [("calls", c_uint32), ("misses", c_uint32), ("hits", c_uint32), ("fills", c_uint32), ("halves", c_uint32)]


class SlotBytes(ctypes.Structure):
    _fields_ = [("bytes", c_uint8 * 16)]


class State(ctypes.Structure):
    """The state, in the packed words that include/sa110.h describes."""

    _fields_ = [
        ("size", c_size_t),
        ("counts", CountsStruct),
        ("used", c_size_t),
        ("entries", c_uint64 * 32),
        ("lines", c_uint64 * 512),
        ("pointers", c_uint32 * 16),
        ("words", c_uint64 * 8),
        ("slots", SlotBytes * 8),
    ]


class PlainRan(ctypes.Structure):
    """What a run of the plain machine leaves beside memory and answers."""

    _fields_ = [
        ("control", c_uint32),
        ("base", c_uint32),
        ("domains", c_uint32),
        ("fsr", c_uint32),
        ("far", c_uint32),
        ("calls", c_uint32),
        ("refusal", c_uint32),
        ("made", c_size_t),
    ]


class ReplayStruct(ctypes.Structure):
    """A replay of a trace kept as text, between two parts of it."""

    _fields_ = [
        ("state", State),
        ("cp15", Cp15),
        ("lines", c_uint64),
        ("held", c_size_t),
        ("waiting", c_size_t),
        ("stopped", c_uint32),
        ("begun", c_uint8 * 64),
        ("pending", c_uint8 * 64),
        ("taken", c_size_t),
        ("written", c_size_t),
    ]


_sizes = [ctypes.sizeof(kind) for kind in (Cp15, State, PlainRan, ReplayStruct)]
if _sizes != [24, 4648, 40, 4848] or State.slots.offset != 4520 or ReplayStruct.begun.offset != 4700 or ReplayStruct.taken.offset != 4832:
    raise ImportError("sa110: the structs have another layout than the library, which is built for 64 bits")


class Counts(NamedTuple):
    """The five counts: calls, TLB misses, Dcache hits, line fills, halves sent out."""

    calls: int
    misses: int
    hits: int
    fills: int
    halves: int


class Look(NamedTuple):
    """What a look finds."""

    place: str
    offset: int
    line: Optional[bytes]


class Answer(int):
    """An answer as the library gives it, kind × 2^32 + value, with its parts by name."""

    @property
    def kind(self):
        """'value', 'fault', 'refused' or 'no call'."""
        return ("value", "fault", "refused", "no call")[int(self) >> 32]

    @property
    def value(self):
        """The value loaded or read, the old value of a swap; FSR of a fault; the number of a refusal."""
        return int(self) & 0xFFFFFFFF

    @property
    def signed(self):
        """The value of a signed load."""
        return self.value - (1 << 32) if self.value >> 31 else self.value

    @property
    def status(self):
        return self.value % 16

    @property
    def domain(self):
        return self.value // 16 % 16

    def __repr__(self):
        if self.kind == "value":
            return f"value {self.value:08x}"
        if self.kind == "fault":
            return f"fault, status {self.status:02} domain {self.domain:02} ({STATUSES[self.status]})"
        if self.kind == "refused":
            return f"refused by {self.value:02} ({REFUSALS[self.value]})"
        return "no call"

    __str__ = __repr__


class StateError(ValueError):
    """Raised where a state cannot be stored as text or saved, or a text or a file cannot be read back: `number` is that of the refusal, whose sentence
    the message has, or 0 where the file is damaged."""

    def __init__(self, what, number=0):
        super().__init__(what, number)
        self.number = number

    def __str__(self):
        what, number = self.args
        return f"sa110: {what} is refused by {number:02} ({REFUSALS[number]})" if number else f"sa110: {what}"


_library = None


def default_path():
    """The shared object's path: SA110_LIBRARY, or where tools/hosts puts it."""
    here = os.path.dirname(os.path.abspath(__file__))
    return os.environ.get("SA110_LIBRARY") or os.path.normpath(os.path.join(here, "..", "..", "target", "hosts", "libsa110.so"))


def load_library(path=None):
    """Loads the shared object; without this call, the first use of the library does it."""
    global _library
    path = path or default_path()
    if not os.path.exists(path):
        raise OSError(f"sa110: {path} is missing; tools/hosts makes it, and SA110_LIBRARY names another place")
    library = ctypes.CDLL(os.path.abspath(path))
    slice_ = [POINTER(c_uint8), c_size_t]
    calls = [POINTER(c_uint32), c_size_t, POINTER(c_uint64), c_size_t]
    state = [POINTER(State), POINTER(Cp15)]
    functions = {
        "sa110_start": (c_uint32, state + slice_ * 2),
        "sa110_call": (c_uint64, state + slice_ * 3 + [c_uint32] * 5),
        "sa110_run": (c_size_t, state + slice_ * 3 + calls),
        "sa110_look": (c_uint64, state + slice_ * 3 + [c_uint32]),
        "sa110_plain_run": (PlainRan, slice_ * 2 + calls),
        "sa110_replay": (c_uint32, [POINTER(ReplayStruct)] + slice_ * 4 + [c_uint32] + slice_),
        "sa110_sound": (c_uint32, state + [c_size_t]),
        "sa110_store_text": (c_uint64, state + slice_ * 2),
        "sa110_read_text": (c_uint32, state + slice_ * 2),
        "sa110_walk": (c_uint64, slice_ * 2 + [c_uint32, c_uint32]),
        "sa110_right": (c_uint8, [c_uint32]),
        "sa110_rights_table": (None, [POINTER(c_uint8 * RIGHTS)]),
    }
    for name, (result, arguments) in functions.items():
        function = getattr(library, name)
        function.restype, function.argtypes = result, arguments
    _library = library
    return library


def _lib():
    return _library or load_library()


def _numbers(*numbers):
    """The numbers, each of 32 bits: ctypes would cut them off."""
    numbers = tuple(index(x) for x in numbers)
    for x in numbers:
        if not 0 <= x < 1 << 32:
            raise ValueError(f"sa110: {x} does not fit into 32 bits")
    return numbers


def _bytes(memory):
    """A bytearray as pointer and length."""
    return (c_uint8 * len(memory)).from_buffer(memory), len(memory)


def _map(bad, memory):
    """The map of bad words of a memory as a bytearray; zeros where it is not given."""
    if bad is memory:
        raise ValueError("sa110: memory and map are one bytearray")
    return bad if isinstance(bad, bytearray) else bytearray(len(memory) // WORD_BYTES if bad is None else bad)


def _fits(bad, memory):
    """Whether a map is not refused by 16."""
    return len(bad) * WORD_BYTES == len(memory) and max(bad, default=0) <= 1


def _list(calls):
    """A list of calls, five numbers each, as an array of numbers."""
    flat = [x for call in calls for x in call]
    if any(len(call) != FIELDS for call in calls):
        raise ValueError("sa110: a call is five numbers")
    return (c_uint32 * len(flat))(*_numbers(*flat)), len(flat)


class Machine:
    """A state and its record, with the memory, the map of bad words and the cache store that are lent to it, the calls made and their answers."""

    def __init__(self, memory, store=None, bad=None):
        """Starts. The memory is a bytearray, or the length of one of zeros; so is the cache store, 16,384 zeros if absent, and so is the map, a byte for
        each word of memory, zeros if absent, which `bad` then is: m.bad[address // 4] = 1 makes a word bad for the calls that follow. `refusal` is 0, 1
        or 2."""
        self.memory = memory if isinstance(memory, bytearray) else bytearray(memory)
        self.cache_store = store if isinstance(store, bytearray) else bytearray(STORE_BYTES if store is None else store)
        self.bad = _map(bad, self.memory)
        if self.cache_store is self.memory or self.cache_store is self.bad:
            raise ValueError("sa110: the cache store and memory or map are one bytearray")
        self.first_memory = bytes(self.memory)
        self.state, self.cp15 = State(), Cp15()
        self.calls, self.answers = [], []
        self.refusal = _lib().sa110_start(byref(self.state), byref(self.cp15), *_bytes(self.memory), *_bytes(self.cache_store))

    def _lent(self):
        return byref(self.state), byref(self.cp15), *_bytes(self.memory), *_bytes(self.bad), *_bytes(self.cache_store)

    def call(self, kind, privileged, n, a, v):
        """Makes a call of five numbers and gives its answer; numbers that are no call are not kept in `calls`."""
        numbers = _numbers(kind, privileged, n, a, v)
        answer = Answer(_lib().sa110_call(*self._lent(), *numbers))
        if answer.kind != "no call":
            self.calls.append(numbers)
            self.answers.append(answer)
        return answer

    def load(self, width, address, user=False):
        return self.call(LOAD, 0 if user else 1, width, address, 0)

    def signed_load(self, width, address, user=False):
        return self.call(SIGNED_LOAD, 0 if user else 1, width, address, 0)

    def put(self, width, address, value, user=False):
        """A store."""
        return self.call(STORE, 0 if user else 1, width, address, value)

    def swap(self, width, address, value, user=False):
        """A swap of a byte or a word: stores the value and answers the old one, as one call."""
        return self.call(SWAP, 0 if user else 1, width, address, value)

    def read(self, register, user=False):
        return self.call(READ, 0 if user else 1, register, 0, 0)

    def write(self, register, value, operation=0, user=False):
        """A CP15 write; registers 7 and 8 take an operation, such as CACHE_CLEAN_LINE."""
        return self.call(WRITE, 0 if user else 1, register, operation, value)

    def run(self, calls):
        """Makes a list of calls in one run and gives the answers of those made: it stops at numbers that are no call."""
        calls = [tuple(call) for call in calls]
        answers = (c_uint64 * len(calls))()
        made = _lib().sa110_run(*self._lent(), *_list(calls), answers, len(calls))
        self.calls += calls[:made]
        self.answers += [Answer(x) for x in answers[:made]]
        return self.answers[len(self.answers) - made :]

    def look(self, address):
        """Where the line of a virtual address is to be read, which is no call: 'cache store', 'memory' or 'nowhere', the offset of the line's first
        byte, and its 32 bytes or None. The bytes of bad words are shown, too."""
        found = _lib().sa110_look(*self._lent(), *_numbers(address))
        place, offset = found >> 32, found & 0xFFFFFFFF
        if place == 0:
            return Look("nowhere", 0, None)
        held = self.cache_store if place == 1 else self.memory
        return Look(("cache store", "memory")[place - 1], offset, bytes(held[offset : offset + 32]))

    def plain(self):
        """Makes the calls made so far on the plain machine, with the map as it now is: its answers, what it leaves, its memory."""
        if self.first_memory is None:
            raise ValueError("sa110: a text was read back, and the calls before it are not known")
        memory = bytearray(self.first_memory)
        answers, ran = plain_run(memory, self.calls, self.bad)
        return answers, ran, memory

    def sound(self):
        """Whether the state is sound for the memory."""
        return _lib().sa110_sound(byref(self.state), byref(self.cp15), len(self.memory)) == 1

    def store_text(self):
        """State and record as text, bytes, in the form that include/sa110.h describes. Memory, cache store and map are not in it. Raises a StateError
        where it is refused by 1, 3 or 4."""
        text = bytearray(TEXT_MAX)
        answer = Answer(_lib().sa110_store_text(byref(self.state), byref(self.cp15), *_bytes(self.memory), *_bytes(text)))
        if answer.kind != "value":
            raise StateError("storing", answer.value)
        return bytes(text[: answer.value])

    def read_text(self, text):
        """Takes state and record from a text, bytes or str; memory, cache store and map are to be those of the run that was stored. `calls` and
        `answers` begin anew, and `plain` raises a ValueError from then on. Raises a StateError where the text is refused by 1, 14, 3 or 4 (a shorter memory
        than the start's may be refused by 3, for a line that lies outside it); then nothing has changed."""
        self.state, self.cp15 = _read_text(text, self.memory, "reading")
        self.calls, self.answers, self.first_memory = [], [], None

    @property
    def counts(self):
        return _counts(self.state)

    def same(self, other):
        """Whether state, record, memory, map and cache store are those of another machine."""
        fields = all(_value(getattr(self.state, name)) == _value(getattr(other.state, name)) for name, _ in State._fields_)
        record = bytes(self.cp15) == bytes(other.cp15)
        return fields and record and self.memory == other.memory and self.bad == other.bad and self.cache_store == other.cache_store


def _read_text(text, memory, what):
    """State and record of a text, for a memory."""
    state, cp15, text = State(), Cp15(), text.encode() if isinstance(text, str) else bytes(memoryview(text))
    lent = (c_uint8 * max(1, len(text))).from_buffer_copy(text or b"\0")
    number = _lib().sa110_read_text(byref(state), byref(cp15), *_bytes(memory), lent, len(text))
    if number != 0:
        raise StateError(what, number)
    return state, cp15


def save(machine, path):
    """Writes a machine to a file, which `load` reads: a zip file of state.txt (the text of state and record), memory.bin, bad.bin (the map) and store.bin;
    and, unless a text was read into the machine, of first.bin (the memory at the start), calls.bin (five numbers of 32 bits a call) and answers.bin (64
    bits each), both little-endian. Of a machine into which a text was read, calls and answers are not kept. Raises a StateError where the state is refused
    by 1, 3 or 4, the cache store by 2 or the map by 16, and an OSError where the file cannot be written; a file that had this name is then as it was."""
    if len(machine.cache_store) != STORE_BYTES:
        raise StateError("saving", REFUSED_STORE)
    members = {"state.txt": machine.store_text(), "memory.bin": machine.memory, "bad.bin": machine.bad, "store.bin": machine.cache_store}
    if not _fits(machine.bad, machine.memory):
        raise StateError("saving", REFUSED_MAP)
    if machine.first_memory is not None:
        answers = (c_uint64 * len(machine.answers))(*machine.answers)
        members.update({"first.bin": machine.first_memory, "calls.bin": _list(machine.calls)[0], "answers.bin": answers})
    zipped = io.BytesIO()
    with zipfile.ZipFile(zipped, "w") as archive:
        for name, content in members.items():
            archive.writestr(zipfile.ZipInfo(name), bytes(content), zipfile.ZIP_DEFLATED)  # a ZipInfo has the time 1980-01-01
    _replace(os.path.realpath(os.fsdecode(path)), zipped.getvalue())


def _replace(path, content):
    """Writes a file beside the path and gives it that name, so that a failure leaves the old file as it was."""
    beside = f"{path}.{os.urandom(8).hex()}"
    try:
        with open(beside, "xb") as out:
            out.write(content)
            out.flush()
            os.fsync(out.fileno())
        os.replace(beside, path)
    except BaseException:
        if os.path.exists(beside):
            os.remove(beside)
        raise


def load(path):
    """The machine that `save` wrote to a file; a load of an address is Machine.load. In a file without bad.bin no word is bad. Raises a StateError where the
    file is damaged or its text, cache store or map refused, and an OSError where it cannot be read."""
    path = os.fsdecode(path)
    with open(path, "rb") as file:
        content = file.read()
    try:
        with zipfile.ZipFile(io.BytesIO(content)) as archive:
            held = {name: archive.read(name) for name in archive.namelist()}
    except (zipfile.BadZipFile, zlib.error, struct.error, EOFError, LookupError, OSError, RuntimeError, ValueError) as error:
        raise StateError(f"{path} is no zip file or is damaged: {error}") from error
    missing = {"state.txt", "memory.bin", "store.bin"} - held.keys()
    if missing:
        raise StateError(f"{path} has no {min(missing)}")
    if len(held["store.bin"]) != STORE_BYTES:
        raise StateError(path, REFUSED_STORE)
    machine = Machine(bytearray(held["memory.bin"]), bytearray(held["store.bin"]), held.get("bad.bin"))
    machine.state, machine.cp15 = _read_text(held["state.txt"], machine.memory, path)
    if not _fits(machine.bad, machine.memory):
        raise StateError(path, REFUSED_MAP)
    machine.first_memory, machine.calls, machine.answers = _history(held, path)
    return machine


def _history(held, path):
    """The memory at the start, the calls made and their answers, of the members of a saved file; or none."""
    parts = [held.get(name) for name in ("first.bin", "calls.bin", "answers.bin")]
    if parts == [None] * 3:
        return None, [], []
    if None in parts:
        raise StateError(f"{path} has not all of first.bin, calls.bin and answers.bin")
    first, calls, answers = parts
    if len(first) != len(held["memory.bin"]) or len(calls) % (4 * FIELDS) != 0 or len(calls) // (4 * FIELDS) * 8 != len(answers):
        raise StateError(f"{path} has lengths of first.bin, calls.bin and answers.bin that do not fit")
    return first, list(struct.iter_unpack("<5I", calls)), [Answer(code) for code, in struct.iter_unpack("<Q", answers)]


class Replay:
    """A replay of a trace kept as text: a call a line, five decimal fields parted by commas, in the order of a call's numbers; no swaps. Each line prints
    one: its number, 0 served or 1 fault or 2 refused, and the value. A line that departs from this is printed as refused by 13 and is the last one."""

    def __init__(self, memory=65536, store=None, room=65536, bad=None):
        """Starts; memory, cache store and map are given as to Machine. `refusal` is 0, 1 or 2. `room` is the length, at least 1, of the slice that is
        lent for the lines printed; it does not change what is printed."""
        if room < 1:
            raise ValueError("sa110: a slice for the lines printed has at least one byte")
        fresh = Machine(memory, store, bad)
        self.memory, self.bad, self.cache_store, self.refusal = fresh.memory, fresh.bad, fresh.cache_store, fresh.refusal
        self.struct = ReplayStruct(fresh.state, fresh.cp15)
        self.room = (c_uint8 * index(room))()
        self.ended = False

    @property
    def state(self):
        return self.struct.state

    @property
    def cp15(self):
        return self.struct.cp15

    @property
    def counts(self):
        return _counts(self.state)

    @property
    def lines(self):
        """The lines replayed, a malformed one too."""
        return self.struct.lines

    @property
    def stopped(self):
        """Whether a line departed from the form."""
        return self.struct.stopped != 0

    def feed(self, text):
        """Replays a part of the text, which may end anywhere, and gives the bytes of the lines that it prints."""
        return self._part(text, 0)

    def finish(self):
        """Ends the text: a line that has begun is malformed. Gives the bytes of its line, or none."""
        printed = self._part(b"", 1)
        self.ended = True
        return printed

    def _part(self, text, ends):
        if self.ended:
            raise ValueError("sa110: the replay has ended")
        text, at, printed = bytes(memoryview(text)), 0, bytearray()
        lent = (c_uint8 * max(1, len(text))).from_buffer_copy(text or b"\0")
        while True:
            rest = (c_uint8 * 0).from_buffer(lent, at), len(text) - at
            slices = *_bytes(self.memory), *_bytes(self.bad), *_bytes(self.cache_store), *rest
            if _lib().sa110_replay(byref(self.struct), *slices, ends, self.room, len(self.room)) != 0:
                raise ValueError("sa110: the replay's fields are outside their ranges")
            printed += memoryview(self.room)[: self.struct.written]
            at += self.struct.taken
            if at == len(text) and self.struct.written == 0:
                return bytes(printed)


def replay(text, bad=None):
    """Replays a whole text, bytes or str, on 65,536 zero bytes, and gives the lines that it prints, of the same kind. No word is bad without a map."""
    trace = Replay(bad=bad)
    if not isinstance(text, str):
        return trace.feed(text) + trace.finish()
    return (trace.feed(text.encode("utf-8", "surrogatepass")) + trace.finish()).decode("ascii")


def _counts(state):
    return Counts(*(getattr(state.counts, name) for name in Counts._fields))


def _value(x):
    return x if isinstance(x, int) else bytes(x)


def plain_run(memory, calls, bad=None):
    """Makes a list of calls on the plain machine over a bytearray, with a map or no bad word: the answers of the calls made, and what it leaves."""
    calls = list(calls)
    answers = (c_uint64 * len(calls))()
    ran = _lib().sa110_plain_run(*_bytes(memory), *_bytes(_map(bad, memory)), *_list(calls), answers, len(calls))
    return [Answer(x) for x in answers[: ran.made]], ran


def walk(memory, base, va, bad=None):
    """A walk over a bytearray: the word of a TLB entry, which is odd, or twice the fault's domain × 16 + status. A map may have any length here; words
    behind its end are good."""
    return _lib().sa110_walk(*_bytes(memory), *_bytes(_map(bad, memory)), *_numbers(base, va))


def right(i):
    """The rights table's entry: 0 allowed, 1 domain fault, 2 permission fault; 255 behind its end."""
    return _lib().sa110_right(*_numbers(i))


def rights_table():
    """All 256 entries of the rights table, as bytes, worked out from the domain values and the rows of document 001's table 2-3."""
    table = (c_uint8 * RIGHTS)()
    _lib().sa110_rights_table(byref(table))
    return bytes(table)
