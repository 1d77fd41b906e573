"""Both ends of an Interlaken link, over the C library that tools/library makes.

A receiver takes bytes of lanes and returns packets, fault spans and control words:

    with Receiver(plan) as receiver:
        for event in receiver.feed_all(lanes):
            ...

If bytes arrive live, call `feed` and `finish` for each lane, and read `events()` after each call.

A transmitter takes packets and rows of flow control at any time, and returns bytes of lanes:

    with Transmitter(plan) as transmitter:
        transmitter.packet(3, b"..")
        transmitter.finish()
        lanes = transmitter.take_all(2)

If lanes leave live, call `take` for each in turn, and `packet`, `flow` and `local` at any time between.

A checker applies the rules of a sender to words. Call `flow` between words, as for a transmitter, and read all faults before the next word:

    with Checker(plan) as checker:
        checker.word(WordKind.CONTROL, 0x81ffff0000188177)
        for fault in checker.faults():
            ...

Damage changes bits of lanes on their way:

    with Damage(2) as damage:
        damage.flip(0, 12345)
        damaged = damage.apply(0, data)

A plan has the numbers of a link, and finds the lane and bit of a received word by its place, and of a sent word by its slot:

    plan = Plan(text)
    plan.lanes, plan.channels, plan.place(event.first), plan.slot(0)

An inspector returns the events of lanes. It accepts no byte of a lane while an event of this lane is due:

    with Inspector(plan) as inspector:
        for event in inspector.feed_all(lanes):
            ...

A gatherer returns the words of aligned lanes; live, read `gathered()` after each `feed` and `finish`:

    with Gatherer(plan) as gatherer:
        for word in gatherer.feed_all(lanes):
            ...

interlaken.monitor runs a receiver, an inspector, and a gatherer with a checker over the same bytes, and returns one stream of findings.

The C library is the one in the package's folder, as a wheel may have it, or what INTERLAKEN_LIBRARY names, or the one beside that folder,
or the system's. Each class accepts `library`, the path of another. Bytes may be of any object with a buffer, such as bytearray. A receiver,
an inspector, a gatherer and a checker can be iterated: this returns what is due. A misused call raises Misuse and changes nothing; a
refused plan raises BadPlan with the row and the cause. Each object accepts one call at a time. Numbers of a later version of the library
have the name UNKNOWN. The package needs Python 3.10.
"""

from __future__ import annotations

import ctypes
import enum
import os
import struct
import weakref
from collections import deque
from dataclasses import dataclass
from pathlib import Path
from typing import Callable, Iterator, Optional, Sequence, TypeVar


class _Number(enum.IntEnum):
    """Numbers of interlaken.h. One that is not among them, as of a later version of the library, has the name UNKNOWN."""

    @classmethod
    def _missing_(cls, value: object) -> Optional["_Number"]:
        if not isinstance(value, int):
            return None
        number = int.__new__(cls, value)
        number._name_, number._value_ = "UNKNOWN", value
        return number

    def __repr__(self) -> str:
        return "%s.%s" % (type(self).__name__, self.name if self.name != "UNKNOWN" else "UNKNOWN(%d)" % self.value)


class Result(_Number):
    """The results of calls, as in interlaken.h."""

    DONE = 0
    OUT_OF_MEMORY = 1
    BAD_PLAN = 2
    NO_LANE = 3
    FINISHED = 4
    TOO_MANY = 5
    NO_PACKET = 6
    NO_RECEIVER = 7
    IN_USE = 8
    NO_DAMAGE = 9
    OUT_OF_RANGE = 10
    PASSED = 11
    NO_TRANSMITTER = 12
    NO_CHANNEL = 13
    BAD_LENGTH = 14
    NO_INSPECTOR = 15
    NO_CHECKER = 16
    WAITING = 17
    NO_GATHERER = 18
    PART_BYTE = 19


class Cause(_Number):
    """Why a plan is refused."""

    NO_CAUSE = 0
    TEXT = 1
    UNKNOWN_KEY = 2
    FIELDS = 3
    NUMBER = 4
    RANGE = 5
    REPEAT = 6
    MISSING = 7
    CLASH = 8


class Key(_Number):
    """A key that a plan must have."""

    NO_KEY = 0
    LANES = 1
    METAFRAME = 2
    CHANNEL = 3
    OUT = 4


class Kind(_Number):
    """Kinds of events."""

    NONE = 0
    PACKET = 1
    DROPPED = 2
    SPAN = 3
    FLOW = 4
    ENDED = 5


class Drop(_Number):
    """Why a piece of a packet is dropped."""

    BAD = 0
    CRC = 1
    PROTOCOL = 2
    LOST = 3
    END = 4
    TOO_LONG = 5
    UNLISTED = 6
    SENDER_ERROR = 7


class Fault(_Number):
    """The reason of a fault span."""

    START = 0
    BAD = 1
    CRC = 2
    PROTOCOL = 3
    LOST = 4
    END = 5


class WordKind(_Number):
    """Kinds of words: the tags of a words file."""

    DATA = 1
    CONTROL = 2
    BAD = 3


class Rule(_Number):
    """The rules of a sender's words, in their order."""

    NONE = 0
    BAD = 1
    CONTROL = 2
    CRC = 3
    DATA = 4
    MAX = 5
    EMPTY = 6
    SHORT = 7
    END = 8
    FILL = 9
    PART = 10
    MIN = 11
    SOP = 12
    OPEN = 13
    CHANNEL = 14
    LONG = 15
    IDLE = 16
    MULTI = 17
    CALENDAR = 18
    OFF = 19


class LaneState(_Number):
    """The state of a lane's search for a lock."""

    SEARCHING = 0
    WORD_LOCK = 1
    DECLARED = 2


class LaneEventKind(_Number):
    """Kinds of events of a lane."""

    NO_LANE_EVENT = 0
    BAD_WORD = 1
    BAD_SYNC = 2
    BAD_STATE = 3
    BAD_SKIP = 4
    BAD_DIAGNOSTIC = 5
    HEALTH = 6
    BALANCE = 7
    LOCK = 8
    LOST_HEADERS = 9
    LOST_SYNC = 10
    LOST_STATE = 11
    UNFRAMED = 12


class GatheredKind(_Number):
    """Kinds of items of a gatherer."""

    NONE = 0
    WORD = 1
    BREAK = 2
    ENDED = 3


class Misuse(Exception):
    """A call was misused; `result` says how."""

    def __init__(self, result: Result):
        super().__init__(result.name)
        self.result = result


class BadPlan(Exception):
    """The plan is refused: the cause, the row from 1 (0 if a key is missing), and the missing key."""

    def __init__(self, cause: Cause, row: int, key: Key):
        super().__init__("row %d: %s" % (row, cause.name) if row else "%s: %s" % (cause.name, key.name))
        self.cause, self.row, self.key = cause, row, key


@dataclass(slots=True, unsafe_hash=True)
class Place:
    """The place of a payload word: the received bit position of its group's Sync on lane 0, and the word in the group."""

    group: int
    index: int


@dataclass(slots=True, unsafe_hash=True)
class Packet:
    """A packet, with the places of its SOP word and of the word that ends it."""

    channel: int
    data: bytes
    first: Place
    last: Place


@dataclass(slots=True, unsafe_hash=True)
class Dropped:
    """A piece of a packet is dropped."""

    channel: int
    why: Drop


@dataclass(frozen=True)
class Span:
    """A fault span, with the verified words before it and after it, if there are such."""

    after: Optional[Place]
    before: Optional[Place]
    why: Fault


@dataclass(slots=True, unsafe_hash=True)
class Flow:
    """A verified control word."""

    at: Place
    word: int

    def __repr__(self) -> str:
        return "Flow(at=%r, word=0x%016x)" % (self.at, self.word)


@dataclass(frozen=True)
class Ended:
    """The end: all lanes are finished, and all other events were returned."""


Bytes = bytes | bytearray | memoryview
Event = Packet | Dropped | Span | Flow | Ended


@dataclass(frozen=True)
class Report:
    """The locks of a lane, and the number of wrong words that they cover. `first` is the bit position of the first
    declaring Sync, or None."""

    locks: int
    first: Optional[int]
    lost: int
    unframed: int
    bad: int
    sync: int
    state: int
    diag: int


@dataclass(frozen=True)
class RuleFault:
    """A word, counted from 0, that breaks a rule, and the channel, if the rule is on one."""

    word: int
    rule: Rule
    channel: Optional[int]


@dataclass(frozen=True)
class Counts:
    """Packets and bytes of a channel that a transmitter was given and that it sent. A burst is sent once its burst word was made: then all its
    bytes count, and its packet if it is the last burst of one."""

    packets_given: int
    packets_sent: int
    bytes_given: int
    bytes_sent: int


@dataclass(frozen=True)
class LaneEvent:
    """What a lane shows at a word, with the position of the word's first bit."""

    lane: int
    bit: int
    kind: LaneEventKind


class GatheredWord:
    """A word of the aligned lanes: its kind and 64 bits, its place, its number in `OUT.words`, and the lane and bit at which its code
    begins. It is a view of the struct of interlaken.h, since a lane has very many."""

    __slots__ = ("_row",)
    __match_args__ = ("kind", "word", "at", "number", "lane", "bit")

    def __init__(self, row: tuple[int, ...]):
        self._row = row

    @property
    def kind(self) -> WordKind:
        """Data, control or bad."""
        return _WORD_KINDS[kind] if (kind := self._row[1]) < len(_WORD_KINDS) else WordKind(kind)

    @property
    def word(self) -> int:
        """Its 64 bits."""
        return self._row[9]

    @property
    def at(self) -> Place:
        """Its place."""
        return Place(self._row[6], self._row[5])

    @property
    def number(self) -> int:
        """Its number in `OUT.words`."""
        return self._row[8]

    @property
    def lane(self) -> int:
        """The lane on which it came."""
        return self._row[2]

    @property
    def bit(self) -> int:
        """The bit of the lane at which its code begins."""
        return self._row[7]

    def __repr__(self) -> str:
        shown = (self.kind, self.word, self.at, self.number, self.lane, self.bit)
        return "GatheredWord(kind=%r, word=0x%016x, at=%r, number=%d, lane=%d, bit=%d)" % shown

    def __eq__(self, other: object) -> bool:
        return self._row == other._row if isinstance(other, GatheredWord) else NotImplemented

    def __hash__(self) -> int:
        return hash(self._row)


@dataclass(frozen=True)
class GatheredBreak:
    """An epoch ends: the place, the cause, and the number in `OUT.words` of the bad word that stands for it if an epoch follows."""

    at: Place
    why: Fault
    number: int


Gathered = GatheredWord | GatheredBreak | Ended


@dataclass(frozen=True)
class Status:
    """The state of a lane of a transmitter: the number of its bytes that wait to be taken; the number of packets of all channels whose last
    burst was not sent; whether the lanes have ended; and whether some lane has 4,088 or more waiting bytes, so that no word is made before
    some of them are taken."""

    waiting: int
    left: int
    ended: bool
    held: bool


_NUMBERS = (
    "lanes",
    "metaframe",
    "skips",
    "wide",
    "deskew",
    "max_packet",
    "link_type",
    "entries",
    "warmup",
    "channel_count",
    "burst_max",
    "burst_short",
    "burst_min",
    "window",
)


class _Plan(ctypes.Structure):
    _fields_ = [(name, ctypes.c_uint32) for name in _NUMBERS]


class _Handle(ctypes.Structure):
    _fields_ = [("at", ctypes.c_void_p), ("live", ctypes.c_uint8)]


class _Refusal(ctypes.Structure):
    _fields_ = [(name, ctypes.c_uint32) for name in ("cause", "row", "key")]


class _Place(ctypes.Structure):
    _fields_ = [("known", ctypes.c_uint32), ("index", ctypes.c_uint32), ("group", ctypes.c_uint64)]

    def place(self) -> Place:
        return Place(self.group, self.index)

    def value(self) -> Optional[Place]:
        return self.place() if self.known else None


class _Event(ctypes.Structure):
    _fields_ = [(name, ctypes.c_uint32) for name in ("kind", "channel", "length", "why")] + [
        ("first", _Place),
        ("last", _Place),
        ("word", ctypes.c_uint64),
    ]


class _RuleFault(ctypes.Structure):
    _fields_ = [(name, ctypes.c_uint32) for name in ("rule", "has_channel", "channel", "reserved")] + [("word", ctypes.c_uint64)]


class _Word(ctypes.Structure):
    _fields_ = [("number", ctypes.c_uint64), ("kind", ctypes.c_uint32), ("reserved", ctypes.c_uint32)]


class _Report(ctypes.Structure):
    _fields_ = [
        (name, ctypes.c_uint64)
        for name in ("locks", "has_first", "first", "lost", "unframed", "bad", "sync", "state", "diag")
    ]

    def value(self) -> Report:
        first = self.first if self.has_first else None
        return Report(self.locks, first, self.lost, self.unframed, self.bad, self.sync, self.state, self.diag)


class _Counts(ctypes.Structure):
    _fields_ = [(name, ctypes.c_uint64) for name in ("packets_given", "packets_sent", "bytes_given", "bytes_sent")]


class _Status(ctypes.Structure):
    _fields_ = [
        ("waiting", ctypes.c_uint64),
        ("left", ctypes.c_uint64),
        ("ended", ctypes.c_uint32),
        ("held", ctypes.c_uint32),
    ]


class _LaneEvent(ctypes.Structure):
    _fields_ = [("kind", ctypes.c_uint32), ("lane", ctypes.c_uint32), ("bit", ctypes.c_uint64)]


class _Gathered(ctypes.Structure):
    _fields_ = [
        ("kind", ctypes.c_uint32),
        ("word_kind", ctypes.c_uint32),
        ("lane", ctypes.c_uint32),
        ("why", ctypes.c_uint32),
        ("at", _Place),
        ("bit", ctypes.c_uint64),
        ("number", ctypes.c_uint64),
        ("word", ctypes.c_uint64),
    ]


# The numbers of an _Event and of a _Gathered, in their order; and kinds of words by number, which is quicker than a call of the class.
_EVENT_ROW = struct.Struct("@4I2IQ2IQQ")
_GATHERED_ROW = struct.Struct("@4I2I4Q")
_WORD_KINDS = (WordKind(0), *WordKind)
_WORDS_AT_ONCE = 4096


def _gathered(row: tuple[int, ...]) -> Optional[Gathered]:
    """What a struct of a gatherer stands for; None if it stands for nothing that is known here."""
    if row[0] == 1:  # GatheredKind.WORD
        return GatheredWord(row)
    if row[0] == GatheredKind.BREAK:
        return GatheredBreak(Place(row[6], row[5]), Fault(row[3]), row[8])
    return Ended() if row[0] == GatheredKind.ENDED else None


_size = ctypes.c_size_t
_u32 = ctypes.c_uint32
_u64 = ctypes.c_uint64
_handle = ctypes.POINTER(_Handle)
_NO_LANE = 0xFFFFFFFF
_NO_BIT = 0xFFFFFFFFFFFFFFFF
_RECEIVER_CALLS = {
    "new": (_handle, ctypes.c_char_p, _size, ctypes.POINTER(_Refusal)),
    "free": (_handle,),
    "feed": (_handle, _u32, ctypes.c_char_p, _size, ctypes.POINTER(_size)),
    "feed_bits": (_handle, _u32, _u64, _u32, ctypes.POINTER(_u32)),
    "finish": (_handle, _u32),
    "next": (_handle, ctypes.POINTER(_Event)),
    "read": (_handle, _u32, ctypes.c_char_p, _size, ctypes.POINTER(_size)),
    "report": (_handle, _u32, ctypes.POINTER(_Report)),
    "lane_state": (_handle, _u32, ctypes.POINTER(_u32)),
    "is_on": (_handle, ctypes.c_uint16, ctypes.POINTER(_u32)),
}
_TRANSMITTER_CALLS = {
    "new": (_handle, ctypes.c_char_p, _size, ctypes.POINTER(_Refusal)),
    "free": (_handle,),
    "packet": (_handle, ctypes.c_uint16, ctypes.c_char_p, _size),
    "flow": (_handle, _u64),
    "local": (_handle, ctypes.c_uint16, _u32),
    "take": (_handle, _u32, ctypes.c_char_p, _size, ctypes.POINTER(_size)),
    "take_bits": (_handle, _u32, _u32, ctypes.POINTER(_u64), ctypes.POINTER(_u32)),
    "finish": (_handle,),
    "close": (_handle,),
    "sent": (_handle, ctypes.c_uint16, ctypes.POINTER(_Counts)),
    "status_of": (_handle, _u32, ctypes.POINTER(_Status)),
    "slots": (_handle, ctypes.POINTER(_u64)),
}
_CHECKER_CALLS = {
    "new": (_handle, ctypes.c_char_p, _size, ctypes.POINTER(_Refusal)),
    "free": (_handle,),
    "word": (_handle, _u32, _u64),
    "words": (_handle, ctypes.POINTER(_Word), _size, ctypes.POINTER(_size)),
    "flow": (_handle, _u64),
    "finish": (_handle,),
    "next": (_handle, ctypes.POINTER(_RuleFault)),
}
_DAMAGE_CALLS = {
    "new": (_handle, _u32),
    "free": (_handle,),
    "flip": (_handle, _u32, _u64),
    "dark": (_handle, _u32, _u64, _u64),
    "apply": (_handle, _u32, ctypes.c_char_p, _size),
}

_GATHERER_CALLS = {
    "new": (_handle, ctypes.c_char_p, _size, ctypes.POINTER(_Refusal)),
    "free": (_handle,),
    "feed": (_handle, _u32, ctypes.c_char_p, _size, ctypes.POINTER(_size)),
    "feed_bits": (_handle, _u32, _u64, _u32, ctypes.POINTER(_u32)),
    "finish": (_handle, _u32),
    "next": (_handle, ctypes.POINTER(_Gathered)),
    "words": (_handle, ctypes.POINTER(_Gathered), _size, ctypes.POINTER(_size)),
    "report": (_handle, _u32, ctypes.POINTER(_Report)),
}

_INSPECTOR_CALLS = {
    "new": (_handle, ctypes.c_char_p, _size, ctypes.POINTER(_Refusal)),
    "free": (_handle,),
    "feed": (_handle, _u32, ctypes.c_char_p, _size, ctypes.POINTER(_size)),
    "feed_bits": (_handle, _u32, _u64, _u32, ctypes.POINTER(_u32)),
    "finish": (_handle, _u32),
    "next": (_handle, ctypes.POINTER(_LaneEvent)),
    "report": (_handle, _u32, ctypes.POINTER(_Report)),
}


_PLAN_CALLS = {
    "read": (ctypes.c_char_p, _size, ctypes.POINTER(_Plan), ctypes.POINTER(_Refusal)),
    "channels": (ctypes.c_char_p, _size, ctypes.POINTER(ctypes.c_uint16), _size, ctypes.POINTER(_size), ctypes.POINTER(_Refusal)),
    "place": (ctypes.POINTER(_Plan), ctypes.POINTER(_Place), ctypes.POINTER(_u32), ctypes.POINTER(_u64)),
    "slot": (ctypes.POINTER(_Plan), _u64, ctypes.POINTER(_u32), ctypes.POINTER(_u64)),
}


def _lane(number: int) -> int:
    """The number of a lane. A number that C cannot have becomes one that no lane has; ctypes would cut it to one that a lane may have."""
    return number if 0 <= number < _NO_LANE else _NO_LANE


def _bit(number: int) -> int:
    """The number of a bit, or a count of bits; one that C cannot have is that of no bit, which ctypes would cut to one that may be there."""
    return number if 0 <= number < _NO_BIT else _NO_BIT


_LIBRARY = "libinterlaken.so"
_NEW_CALLS = ("interlaken_gatherer_words",)  # a library may be older than these


def _found_library() -> str:
    """The library that counts if none is named: the wheel's, that of the environment, the one beside the package, or the system's."""
    package = Path(__file__).resolve().parent
    if (package / _LIBRARY).exists():
        return str(package / _LIBRARY)
    if os.environ.get("INTERLAKEN_LIBRARY"):
        return os.environ["INTERLAKEN_LIBRARY"]
    return str(package.parent / _LIBRARY) if (package.parent / _LIBRARY).exists() else _LIBRARY


def _bytes(data: Bytes) -> bytes:
    """The bytes of an object with a buffer; a number, of which bytes() would make zeros, has none."""
    return data if isinstance(data, bytes) else bytes(memoryview(data))


def _loaded(library: Optional[str], prefix: str, calls: dict[str, tuple[type, ...]]) -> dict[str, Callable[..., int]]:
    """These calls of the library, by their names without the prefix."""
    loaded = ctypes.CDLL(_found_library() if library is None else library)
    found = {}
    for name, types in calls.items():
        if prefix + name in _NEW_CALLS and not hasattr(loaded, prefix + name):
            continue
        found[name] = getattr(loaded, prefix + name)
        found[name].argtypes, found[name].restype = types, _u32
    return found


def _check(result: Result, refusal: _Refusal = _Refusal()) -> None:
    """Raises what a result that is not DONE stands for."""
    if result is Result.BAD_PLAN:
        raise BadPlan(Cause(refusal.cause), refusal.row, Key(refusal.key))
    if result is Result.OUT_OF_MEMORY:
        raise MemoryError
    if result is not Result.DONE:
        raise Misuse(result)


_Self = TypeVar("_Self", bound="_Opened")


class _Opened:
    """What the library has behind a handle. As a context manager it is closed at the end."""

    def __init__(self, library: Optional[str], prefix: str, calls: dict[str, tuple[type, ...]]):
        self._calls = _loaded(library, prefix, calls)
        self._handle = _Handle()

    def _result(self, name: str, *words: object) -> Result:
        return Result(self._calls[name](self._handle, *words))

    def _opened(self) -> None:
        self._free = weakref.finalize(self, self._calls["free"], self._handle)

    def _call(self, name: str, *words: object) -> None:
        if number := self._calls[name](self._handle, *words):
            _check(Result(number))

    def close(self) -> None:
        """Frees it, which else is done with this object; a second time does nothing. Each further call raises Misuse."""
        self._free()

    def __enter__(self: _Self) -> _Self:
        return self

    def __exit__(self, *error: object) -> None:
        self.close()


class _OfPlan(_Opened):
    """What is opened with a plan."""

    def __init__(self, plan: Bytes, library: Optional[str], prefix: str, calls: dict[str, tuple[type, ...]]):
        super().__init__(library, prefix, calls)
        plan, refusal = _bytes(plan), _Refusal()
        _check(self._result("new", plan, len(plan), refusal), refusal)
        self._opened()
        self._lanes = Plan(plan, library).lanes

    def __repr__(self) -> str:
        return "<%s of %d lanes>" % (type(self).__name__, self._lanes)

    def _report(self, lane: int) -> Report:
        report = _Report()
        self._call("report", _lane(lane), report)
        return report.value()


def _all_lanes(lanes: Sequence[Bytes], count: int) -> list[bytes]:
    """The bytes of lanes, if they are all lanes of the plan and no further ones."""
    if len(lanes) != count:
        raise ValueError("feed_all: %d lanes; the plan has %d" % (len(lanes), count))
    return [_bytes(data) for data in lanes]


def _check_bits(lane: int, bits: int, count: int) -> None:
    """Refuses bits that are not `count` of them."""
    if not 0 <= count < 1 << 63:
        raise ValueError("feed_bits: lane %d: a count of %d; it is 0 or more" % (lane, count))
    if bits < 0 or bits.bit_length() > count:
        raise ValueError("feed_bits: lane %d: %d is not a number of %d bits" % (lane, bits, count))


def _within(number: int, bits: int, what: str) -> int:
    """A number of so many bits; one that C cannot have, which ctypes would cut, is refused."""
    if not 0 <= number < 1 << bits:
        raise ValueError("no %s: %d" % (what, number))
    return number


def _channel(number: int) -> int:
    return _within(number, 16, "channel number")


class Plan:
    """The numbers of a plan, `channels`, the numbers of the channels that it lists, in rising order, and where on the lanes a word is.
    The numbers are `lanes`, `metaframe`, `skips`, `wide`, `deskew`, `max_packet`, `link_type`, `entries`, `warmup`, `channel_count`,
    `burst_max`, `burst_short`, `burst_min` and `window`, as in interlaken.h."""

    lanes: int
    metaframe: int
    skips: int
    wide: int
    deskew: int
    max_packet: int
    link_type: int
    entries: int
    warmup: int
    channel_count: int
    burst_max: int
    burst_short: int
    burst_min: int
    window: int
    channels: list[int]

    def __init__(self, plan: Bytes, library: Optional[str] = None):
        """`plan` is the text of a plan file, and `library` the path of the shared library, if it is not the one that is found without."""
        self._calls, plan = _loaded(library, "interlaken_plan_", _PLAN_CALLS), _bytes(plan)
        self._numbers, refusal, count = _Plan(), _Refusal(), _size()
        _check(Result(self._calls["read"](plan, len(plan), self._numbers, refusal)), refusal)
        for name in _NUMBERS:
            setattr(self, name, getattr(self._numbers, name))
        listed = (ctypes.c_uint16 * self._numbers.channel_count)()
        _check(Result(self._calls["channels"](plan, len(plan), listed, len(listed), count, refusal)), refusal)
        self.channels = list(listed)

    def _found(self, name: str, what: object) -> tuple[int, int]:
        lane, bit = _u32(), _u64()
        _check(Result(self._calls[name](self._numbers, what, lane, bit)))
        return lane.value, bit.value

    def place(self, place: Place) -> tuple[int, int]:
        """The lane of a word that came, by its place, and the bit at which its code would begin if no lane were skewed. If no group has the
        place, it raises Misuse, of OUT_OF_RANGE."""
        return self._found("place", _Place(1, _within(place.index, 32, "index"), _within(place.group, 64, "group")))

    def slot(self, slot: int) -> tuple[int, int]:
        """The lane of a payload word that a transmitter sends, by its number, and the bit at which its code begins. From 2^56 on it raises
        Misuse, of OUT_OF_RANGE."""
        return self._found("slot", _within(slot, 64, "slot"))


def version(library: Optional[str] = None) -> tuple[int, int, int]:
    """The version of the library: its major number, its minor number, and its patch number."""
    number = _loaded(library, "interlaken_", {"version": ()})["version"]()
    return number // 10000, number // 100 % 100, number % 100


@dataclass
class _Bits:
    """Bits of a lane that wait: the `count` lowest of a number, the highest of them first."""

    value: int = 0
    count: int = 0

    def put(self, bits: int, count: int) -> None:
        """Adds bits at the end."""
        self.value, self.count = self.value << count | bits, self.count + count

    def drop(self, count: int) -> int:
        """Takes the first `count` away, and gives their number."""
        self.count -= count
        first = self.value >> self.count
        self.value &= (1 << self.count) - 1
        return first

    def push(self, feed: Callable[[int, int], int]) -> bool:
        """Feeds the bits that wait, 64 at once, by a call that returns how many it took: whether it took all."""
        while self.count > 0:
            count = min(self.count, 64)
            taken = feed(self.value >> self.count - count, count)
            self.drop(taken)
            if taken < count:
                return False
        return True

    def feed(self, bits: int, count: int, feed: Callable[[int, int], int]) -> bool:
        """Adds bits, and feeds them. False if earlier bits wait: then no bit was added."""
        if not self.push(feed):
            return False
        self.put(bits, count)
        self.push(feed)
        return True


class _Fed(_OfPlan):
    """What is fed with lanes, each of which has a ring."""

    def __init__(self, plan: Bytes, library: Optional[str], prefix: str, calls: dict[str, tuple[type, ...]]):
        super().__init__(plan, library, prefix, calls)
        self._bits: dict[int, _Bits] = {}

    def feed(self, lane: int, data: Bytes) -> int:
        """Feeds a lane with the next of its bytes, as many as its ring of 4,096 bytes has room for, and returns how many. It raises
        ValueError if bits of `feed_bits` wait."""
        data, taken = _bytes(data), _size()
        if lane in self._bits and self._bits[lane].count > 0 or self._result("feed", _lane(lane), data, 0, taken) == Result.PART_BYTE:
            raise ValueError("bits of lane %d wait" % lane)
        self._call("feed", _lane(lane), data, len(data), taken)
        return taken.value

    def _feed_bits(self, lane: int, bits: int, count: int) -> int:
        taken = _u32()
        self._call("feed_bits", _lane(lane), bits & (1 << 64) - 1, count, taken)
        return taken.value

    def feed_bits(self, lane: int, bits: int, count: int) -> bool:
        """Feeds a lane with its next `count` bits: the low bits of a number, the highest first. False if the ring of the lane has no room: then
        nothing was taken; take events and feed these again."""
        _check_bits(lane, bits, count)
        self._feed_bits(lane, 0, 0)  # what is misused raises before bits are kept
        return self._bits.setdefault(lane, _Bits()).feed(bits, count, lambda bits, count: self._feed_bits(lane, bits, count))

    def finish(self, lane: int) -> None:
        """No further byte of this lane comes. Its last byte is filled up with zeros. If there is no room for it, it raises ValueError, and the
        lane is not finished: take events first."""
        waiting = self._bits.setdefault(lane, _Bits())
        while waiting.push(lambda bits, count: self._feed_bits(lane, bits, count)):
            result = self._result("finish", _lane(lane))
            if result != Result.PART_BYTE:
                return _check(result)
            waiting.put(0, 1)
        raise ValueError("bits of lane %d wait" % lane)

    def report(self, lane: int) -> Report:
        """The report of a lane over the bytes that were taken from its ring so far."""
        return self._report(lane)


class Receiver(_Fed):
    """A receiver of the lanes of a plan. As a context manager it is closed at the end."""

    def __init__(self, plan: Bytes, library: Optional[str] = None):
        """`plan` is the text of a plan file, and `library` the path of the shared library, if it is not the one that is found without."""
        super().__init__(plan, library, "interlaken_receiver_", _RECEIVER_CALLS)
        self._event = _Event()

    def next(self) -> Optional[Event]:
        """The next event; None if there is none so far, and after the end. Events of kinds that are not known here are passed over. An
        event comes once each lane that is not finished has been fed up to the byte that shows it."""
        self._call("next", self._event)
        kind, channel, length, why, known, index, group, has_last, last_index, last_group, word = _EVENT_ROW.unpack_from(self._event)
        if kind == 4:  # Kind.FLOW
            return Flow(Place(group, index), word)
        if kind == 1:  # Kind.PACKET
            return Packet(channel, self._packet(length), Place(group, index), Place(last_group, last_index))
        if kind == Kind.DROPPED:
            return Dropped(channel, Drop(why))
        if kind == Kind.SPAN:
            return Span(Place(group, index) if known else None, Place(last_group, last_index) if has_last else None, Fault(why))
        if kind > Kind.ENDED:
            return self.next()
        return Ended() if kind == Kind.ENDED else None

    def _packet(self, length: int) -> bytes:
        data, copied = ctypes.create_string_buffer(max(length, 1)), _size()
        self._call("read", 0, data, length, copied)
        return data.raw[: copied.value]

    def events(self) -> Iterator[Event]:
        """The events that there are so far."""
        while (event := self.next()) is not None:
            yield event

    def __iter__(self) -> Iterator[Event]:
        return self.events()

    def feed_all(self, lanes: Sequence[Bytes]) -> Iterator[Event]:
        """Feeds all lanes of the plan from first to last byte, and yields all events as they come. Nothing may have been fed before. If these
        are not all lanes of the plan, it raises ValueError, and nothing is fed."""
        return self._feed_all(_all_lanes(lanes, self._lanes))

    def _feed_all(self, lanes: list[bytes]) -> Iterator[Event]:
        fed, going = [0] * len(lanes), set(range(len(lanes)))
        while going:
            for lane in sorted(going):
                fed[lane] += self.feed(lane, lanes[lane][fed[lane] : fed[lane] + 4096])
                if fed[lane] == len(lanes[lane]):
                    self.finish(lane)
                    going.discard(lane)
            yield from self.events()

    def lane_state(self, lane: int) -> LaneState:
        """How far the search for the locks of a lane is after the bytes that were taken from its ring so far."""
        state = _u32()
        self._call("lane_state", _lane(lane), state)
        return LaneState(state.value)

    def is_on(self, channel: int) -> bool:
        """Whether the far end lets packets be sent on a channel that the plan lists, by the control words that were given as Flow."""
        on = _u32()
        self._call("is_on", _channel(channel), on)
        return bool(on.value)


class Transmitter(_OfPlan):
    """A transmitter of the lanes of a plan. Its words are made as bytes of lanes are taken, one of each lane at a time, so what is given
    counts from the next word on. As a context manager it is closed at the end."""

    def __init__(self, plan: Bytes, library: Optional[str] = None):
        """`plan` is the text of a plan file, and `library` the path of the shared library, if it is not the one that is found without."""
        super().__init__(plan, library, "interlaken_transmitter_", _TRANSMITTER_CALLS)
        self._finished = False
        self._bits: dict[int, _Bits] = {}

    def packet(self, channel: int, data: Bytes) -> None:
        """Gives a packet of 1 byte to the plan's `max_packet` bytes to be sent on a channel that the plan lists."""
        data = _bytes(data)
        self._call("packet", _channel(channel), data, len(data))

    def flow(self, word: int) -> None:
        """Gives a control word of the far end, as a receiver's Flow has it: it says on which channels bursts may begin, from the next word on
        that is made. After a Span, in which words may be missing, give 0: after it no word counts up to the next with Reset Calendar."""
        self._call("flow", _within(word, 64, "word"))

    def local(self, channel: int, on: bool) -> None:
        """Says whether the far end may send on a channel that the plan lists, which the control words tell it."""
        self._call("local", _channel(channel), on)

    def take(self, lane: int, count: int) -> bytes:
        """The next bytes of a lane, at most so many: fewer where 4,088 bytes of another lane wait, or where more than 4,088 are asked for;
        none after the end. It raises ValueError if bits of `take_bits` wait."""
        data, taken = ctypes.create_string_buffer(max(_within(count, 63, "count"), 1)), _size()
        if lane in self._bits and self._bits[lane].count > 0 or self._result("take", _lane(lane), data, 0, taken) == Result.PART_BYTE:
            raise ValueError("bits of lane %d wait" % lane)
        self._call("take", _lane(lane), data, count, taken)
        return data.raw[: taken.value]

    def _take_bits(self, lane: int, count: int) -> tuple[int, int]:
        bits, taken = _u64(), _u32()
        self._call("take_bits", _lane(lane), count, bits, taken)
        return bits.value, taken.value

    def close_packets(self) -> None:
        """No further packet comes; `flow` and `local` still count. Go on until `status` has no packet left, then `finish`. (`close` frees
        the transmitter.)"""
        self._call("close")

    def take_bits(self, lane: int, count: int) -> Optional[int]:
        """The next `count` bits of a lane as a number, the first highest. None if there are not so many, as after the end: then none was
        taken. What was made of them waits for the next call."""
        wanted = _within(count, 63, "count")
        self._take_bits(lane, 0)
        waiting = self._bits.setdefault(lane, _Bits())
        while waiting.count < wanted:
            bits, taken = self._take_bits(lane, min(wanted - waiting.count, 64))
            waiting.put(bits, taken)
            if taken == 0:
                return None
        return waiting.drop(count)

    def finish(self) -> None:
        """No further packet and no further row comes: what may be sent is sent, and then the lanes end."""
        self._call("finish")
        self._finished = True

    def sent(self, channel: int) -> Counts:
        """What was given on a channel that the plan lists, and what was sent of it."""
        counts = _Counts()
        self._call("sent", _channel(channel), counts)
        return Counts(counts.packets_given, counts.packets_sent, counts.bytes_given, counts.bytes_sent)

    def status(self, lane: int) -> Status:
        """How a lane stands, and how many packets are left to send."""
        status = _Status()
        self._call("status_of", _lane(lane), status)
        return Status(status.waiting, status.left, bool(status.ended), bool(status.held))

    def slots(self) -> int:
        """How many payload words were made so far: the number of the next one, from which on counts what is given now."""
        slots = _u64()
        self._call("slots", slots)
        return slots.value

    def take_all(self, lanes: int) -> list[bytes]:
        """The bytes of all lanes of a transmitter that was finished, from what was taken of them on to their ends. `lanes` is how many the
        plan has. If they are more or fewer, if the transmitter was not finished, or if bits of `take_bits` wait, it raises ValueError, and
        nothing is taken."""
        if not self._finished:
            raise ValueError("the transmitter was not finished")
        if lanes != self._lanes:
            raise ValueError("the plan has %d lanes, not %d" % (self._lanes, lanes))
        for lane in range(lanes):
            self.take(lane, 0)  # raises if bits of the lane wait
        taken = [bytearray() for _ in range(lanes)]
        while not all(self._has_ended(lane) for lane in range(lanes)):
            for lane, data in enumerate(taken):
                data += self.take(lane, 2048)
        return [bytes(data) for data in taken]

    def _has_ended(self, lane: int) -> bool:
        status = self.status(lane)
        return status.ended and status.waiting == 0


class Checker(_OfPlan):
    """A checker of the words of a sender by the rules of a plan. The faults of a word are due once it was given; a burst word that a control
    word follows breaks Rule.EMPTY, which is told with that word. As a context manager it is closed at the end."""

    def __init__(self, plan: Bytes, library: Optional[str] = None):
        """`plan` is the text of a plan file, and `library` the path of the shared library, if it is not the one that is found without."""
        super().__init__(plan, library, "interlaken_checker_", _CHECKER_CALLS)

    def word(self, kind: int, number: int = 0) -> None:
        """Gives the next word: a WordKind and its 64 bits. While faults are due it raises Misuse, of WAITING."""
        self._call("word", _within(kind, 32, "kind of a word"), _within(number, 64, "word"))

    def words(self, words: Sequence[tuple[int, int]]) -> int:
        """Gives the next words, each a WordKind and its 64 bits, up to the first that shows a fault, and returns how many it takes. Then take
        the faults, and give the other words. A first word that `word` would refuse raises Misuse."""
        pairs = ((_within(number, 64, "word"), _within(kind, 32, "kind of a word")) for kind, number in words)
        taken = _size()
        self._call("words", (_Word * len(words))(*pairs), len(words), taken)
        return taken.value

    def flow(self, word: int) -> None:
        """Gives a control word of the far end, as a receiver's Flow has it: it counts from the next word on, as for a transmitter. While faults
        are due it raises Misuse, of WAITING."""
        self._call("flow", _within(word, 64, "word"))

    def finish(self) -> None:
        """No further word comes. Faults that are due stay due."""
        self._call("finish")

    def next(self) -> Optional[RuleFault]:
        """The next fault that is due; None if none is."""
        fault = _RuleFault()
        self._call("next", fault)
        return RuleFault(fault.word, Rule(fault.rule), fault.channel if fault.has_channel else None) if fault.rule else None

    def __iter__(self) -> Iterator[RuleFault]:
        return self.faults()

    def faults(self) -> Iterator[RuleFault]:
        """The faults that are due."""
        while (fault := self.next()) is not None:
            yield fault


class Damage(_Opened):
    """Damage of 1 to 64 lanes on their way. The bytes of each lane pass through `apply`, piece by piece. Bits of a lane are counted from 0,
    the highest bit of its first byte, over all its pieces. As a context manager it is closed at the end."""

    def __init__(self, lanes: int, library: Optional[str] = None):
        """Nothing happens to this many lanes so far; `library` is the path of the shared library, if it is not the one that is found without."""
        super().__init__(library, "interlaken_damage_", _DAMAGE_CALLS)
        self._call("new", _lane(lanes))
        self._opened()

    def flip(self, lane: int, bit: int) -> None:
        """Inverts a bit of a lane once more. If it was in a piece before it raises Misuse, of PASSED, and nothing happens."""
        self._call("flip", _lane(lane), _bit(bit))

    def dark(self, lane: int, first: int, bits: int) -> None:
        """Makes this many bits of a lane 0, from one on. Those that have passed stay as they came out; if all have it raises Misuse, of
        PASSED."""
        self._call("dark", _lane(lane), _bit(first), _bit(bits))

    def apply(self, lane: int, data: Bytes) -> bytes:
        """The next bytes of a lane, damaged."""
        data = _bytes(data)
        damaged = ctypes.create_string_buffer(data, max(len(data), 1))
        self._call("apply", _lane(lane), damaged, len(data))
        return damaged.raw[: len(data)]


class Inspector(_OfPlan):
    """An inspector of the lanes of a plan: it tells what each lane shows, and at which bit, as the command `inspect` does. As a context
    manager it is closed at the end."""

    def __init__(self, plan: Bytes, library: Optional[str] = None):
        """`plan` is the text of a plan file, and `library` the path of the shared library, if it is not the one that is found without."""
        super().__init__(plan, library, "interlaken_inspector_", _INSPECTOR_CALLS)

    def feed(self, lane: int, data: Bytes) -> int:
        """Feeds a lane with the next of its bytes, and returns how many it takes: up to a word that shows events, and none while events of the
        lane are due."""
        data, taken = _bytes(data), _size()
        if self._result("feed", _lane(lane), data, 0, taken) == Result.PART_BYTE:
            raise ValueError("feed: lane %d: a part of a byte is left" % lane)
        self._call("feed", _lane(lane), data, len(data), taken)
        return taken.value

    def feed_bits(self, lane: int, bits: int, count: int) -> int:
        """Feeds a lane with its next `count` bits, the low bits of a number, the highest first, and returns how many it takes, as `feed` does."""
        _check_bits(lane, bits, count)
        fed, taken = 0, _u32()
        while True:
            piece = min(count - fed, 64)
            self._call("feed_bits", _lane(lane), bits >> count - fed - piece & (1 << 64) - 1, piece, taken)
            fed += taken.value
            if taken.value < piece or fed == count:
                return fed

    def finish(self, lane: int) -> None:
        """No further byte of this lane comes. Its last byte is filled up with zeros. If events of the lane are due then, it raises ValueError, and
        the lane is not finished: take them first."""
        while (result := self._result("finish", _lane(lane))) == Result.PART_BYTE:
            if self.feed_bits(lane, 0, 1) == 0:
                raise ValueError("finish: lane %d: events are due" % lane)
        _check(result)

    def next(self) -> Optional[LaneEvent]:
        """The next event that is due, of the lowest lane first; None if none is due on any lane."""
        event = _LaneEvent()
        self._call("next", event)
        kind = LaneEventKind(event.kind)
        return None if kind is LaneEventKind.NO_LANE_EVENT else LaneEvent(event.lane, event.bit, kind)

    def events(self) -> Iterator[LaneEvent]:
        """The events that are due."""
        while (event := self.next()) is not None:
            yield event

    def __iter__(self) -> Iterator[LaneEvent]:
        return self.events()

    def feed_all(self, lanes: Sequence[Bytes]) -> Iterator[LaneEvent]:
        """Feeds all lanes of the plan from first to last byte, one after another, and yields all their events. Nothing of them may have been
        fed before. If these are not all lanes of the plan, it raises ValueError, and nothing is fed."""
        return self._feed_all(_all_lanes(lanes, self._lanes))

    def _feed_all(self, lanes: list[bytes]) -> Iterator[LaneEvent]:
        for lane, data in enumerate(lanes):
            fed = 0
            while fed < len(data):
                fed += self.feed(lane, data[fed : fed + 4096])
                yield from self.events()
            self.finish(lane)

    def report(self, lane: int) -> Report:
        """The report of a lane over the bytes that were taken of it so far."""
        return self._report(lane)


class Gatherer(_Fed):
    """A gatherer of the words of the lanes of a plan, as the command `gather` has them. As a context manager it is closed at the end."""

    def __init__(self, plan: Bytes, library: Optional[str] = None):
        """`plan` is the text of a plan file, and `library` the path of the shared library, if it is not the one that is found without."""
        super().__init__(plan, library, "interlaken_gatherer_", _GATHERER_CALLS)
        self._room = (_Gathered * _WORDS_AT_ONCE)()
        self._ahead: deque[Gathered] = deque()  # What the library returned, and no call here did yet.

    def next(self) -> Optional[Gathered]:
        """The next word or break, or the end; None if a lane that is not finished lacks bytes, and after the end."""
        if self._ahead:
            return self._ahead.popleft()
        gathered = _Gathered()
        self._call("next", gathered)
        return _gathered(_GATHERED_ROW.unpack(gathered))

    def words(self, most: int) -> list[Gathered]:
        """The next words and breaks, and the end: at most `most`, and fewer only if no more are known of what was fed. It is faster than `next`."""
        found = [self._ahead.popleft() for _ in range(min(most, len(self._ahead)))]
        if "words" not in self._calls:
            while len(found) < most and (one := self.next()) is not None:
                found.append(one)
            return found
        count = _size()
        while len(found) < most:
            room = min(most - len(found), _WORDS_AT_ONCE)
            self._call("words", self._room, room, count)
            rows = _GATHERED_ROW.iter_unpack(memoryview(self._room).cast("B")[: count.value * _GATHERED_ROW.size])
            found += [one for row in rows if (one := GatheredWord(row) if row[0] == 1 else _gathered(row)) is not None]
            if count.value < room:
                break
        return found

    def __iter__(self) -> Iterator[Gathered]:
        return self.gathered()

    def gathered(self) -> Iterator[Gathered]:
        """All words and breaks that are known of what was fed, and the end, if it was not told before."""
        while self._ahead or (found := self.words(_WORDS_AT_ONCE)):
            if not self._ahead:
                self._ahead.extend(found)
            while self._ahead:
                yield self._ahead.popleft()

    def feed_all(self, lanes: Sequence[Bytes]) -> Iterator[Gathered]:
        """Feeds all lanes of the plan from first to last byte, side by side, and yields all words and breaks, and then the end. If these are
        not all lanes of the plan, it raises ValueError, and nothing is fed."""
        return self._feed_all(_all_lanes(lanes, self._lanes))

    def _feed_all(self, lanes: list[bytes]) -> Iterator[Gathered]:
        fed, going = [0] * len(lanes), set(range(len(lanes)))
        while going:
            for lane in sorted(going):
                fed[lane] += self.feed(lane, lanes[lane][fed[lane] : fed[lane] + 4096])
                if fed[lane] == len(lanes[lane]):
                    self.finish(lane)
                    going.discard(lane)
            yield from self.gathered()
