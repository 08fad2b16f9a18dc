"""One proved AODV router for programs that bring their own radio: include/aodv.h by ctypes.

    with Router(["10.0.0.1", "10.0.0.2"], "10.0.0.1") as router:
        router.give("10.0.0.2", b"hello")
        outcome = router.turn(near=["10.0.0.2"])

An address is given as anything that ipaddress.IPv4Address takes, and returned as an IPv4Address. A call that is refused
raises Refused; the router is then as it was, except that after MALFORMED and NAMES_STRANGER the packet is gone from the
inbox. A number that has no 32 bits raises ValueError, and the library isn't called. One router is used by one thread at
a time. The library is the file that AODV_LIBRARY names, libaodv.so.1 beside this file, or of the repository or the
unpacked tar ball in which this file lies, or of the system."""
import ctypes
import enum
import operator
import os
from dataclasses import dataclass
from ipaddress import IPv4Address
from typing import Iterable, List, Optional, Tuple, Union

__all__ = ["Address", "Cast", "Code", "Outcome", "Refused", "Router", "Row", "Took", "Variant"]

Address = Union[int, str, bytes, IPv4Address]
VERSION = 1
MOST_NODES, LONGEST_PACKET, LONGEST_DATUM = 200, 1604, 512


class Code(enum.IntEnum):
    """What a call answers."""

    DONE = 0
    IDLE = 1
    STRANGER = 2
    OWN = 3
    MALFORMED = 4
    UNREADABLE = 4  # the old name of MALFORMED
    NAMES_STRANGER = 5
    NO_MEMORY = 6
    HOLDS_NOTHING = 7
    HOLDS_ONE = 8
    LENGTH = 9
    ZERO_NUMBER = 10
    NO_VARIANT = 11
    TWICE = 12
    TOO_MANY = 13
    NOT_THERE = 14
    FULL_HOPS = 15
    FULL_NUMBER = 16
    FULL_ID = 17
    NO_ENTRY = 18


WORDS = {
    Code.IDLE: "nothing to do",
    Code.STRANGER: "the mesh has no such address",
    Code.OWN: "the address is the router's own",
    Code.MALFORMED: "a packet that can't be read",
    Code.NAMES_STRANGER: "a packet that names a stranger",
    Code.NO_MEMORY: "no memory",
    Code.HOLDS_NOTHING: "the router is closed",
    Code.LENGTH: "a datum has 1 to 512 bytes",
    Code.ZERO_NUMBER: "the first number is 0",
    Code.NO_VARIANT: "there is no such variant",
    Code.TWICE: "an address is there twice",
    Code.TOO_MANY: "there are more than 200 addresses",
    Code.NOT_THERE: "the router's own address is missing",
    Code.FULL_HOPS: "a hop count is full",
    Code.FULL_NUMBER: "a sequence number is full",
    Code.FULL_ID: "a request id is full",
}


class Variant(enum.IntEnum):
    """A variant of the protocol: as the process algebra AWN has it; with requests told apart by their originator's
    number; with replies passed on by any valid route; with route errors that are broadcast."""

    BASE = 0
    NUMBER = 1
    REPLY = 2
    ERROR = 3


class Took(enum.IntEnum):
    """What a turn took from the inbox: a datum that was given, or a packet of a neighbour."""

    NOTHING = 0
    OWN = 1
    STORED = 2
    DATA = 3
    REQUEST = 4
    REPLY = 5
    ERROR = 6


class Cast(enum.IntEnum):
    """To whom a packet goes."""

    NOTHING = 0
    ONE = 1
    MANY = 2
    ALL = 3


class Refused(Exception):
    """A call was refused; `code` says why."""

    def __init__(self, code: int):
        self.code = Code(code)
        super().__init__(WORDS.get(self.code, self.code.name))


@dataclass(frozen=True)
class Outcome:
    """What a turn, a send or a request has done. The packet is to be cast as it stands."""

    took: Took
    source: Optional[IPv4Address]  # the neighbour that the packet came from
    dest: Optional[IPv4Address]  # the destination of a datum that now waits
    delivered: bool  # the datum in `body` has come to its destination, which is this router
    lost: bool  # a datum was dropped; where a turn took it, it is `body`
    broken: Optional[IPv4Address]  # the next hop that wasn't near
    cast: Cast
    to: List[IPv4Address]  # the neighbours that the packet goes to, where they are named
    packet: bytes
    body: bytes

    def goes_to(self, neighbour: Address) -> bool:
        """Whether the packet goes to this neighbour."""
        return self.cast is Cast.ALL or IPv4Address(neighbour) in self.to


@dataclass(frozen=True)
class Row:
    """An entry of the routing table."""

    number: int  # the destination's sequence number; 0 is unknown
    known: bool
    valid: bool
    hops: int
    next: IPv4Address
    precursors: List[IPv4Address]


U32, SIZE, BOOL, BYTE = ctypes.c_uint32, ctypes.c_size_t, ctypes.c_bool, ctypes.c_uint8


class _Handle(ctypes.Structure):
    _fields_ = [("at", ctypes.c_void_p), ("live", BOOL)]


class _Outcome(ctypes.Structure):
    _fields_ = [
        *((it, U32) for it in ("took", "source", "dest")),
        *((it, BOOL) for it in ("delivered", "lost", "broken")),
        *((it, U32) for it in ("broke", "cast", "to_len")),
        ("to", U32 * MOST_NODES),
        ("packet_len", U32),
        ("packet", BYTE * LONGEST_PACKET),
        ("body_len", U32),
        ("body", BYTE * LONGEST_DATUM),
    ]


class _Addrs(ctypes.Structure):
    _fields_ = [("len", U32), ("addrs", U32 * MOST_NODES)]


class _Row(ctypes.Structure):
    _fields_ = [
        ("dsn", U32),
        ("known", BOOL),
        ("valid", BOOL),
        ("hops", U32),
        ("next", U32),
        ("pre_len", U32),
        ("pre", U32 * MOST_NODES),
    ]


_AT = ctypes.POINTER
_WORDS = {
    "aodv_new": [_AT(_Handle), _AT(U32), SIZE, U32, U32, U32],
    "aodv_hear": [_AT(_Handle), U32, ctypes.c_char_p, SIZE],
    "aodv_give": [_AT(_Handle), U32, ctypes.c_char_p, SIZE],
    "aodv_turn": [_AT(_Handle), _AT(U32), SIZE, _AT(_Outcome)],
    "aodv_send": [_AT(_Handle), _AT(U32), SIZE, U32, _AT(_Outcome)],
    "aodv_ask": [_AT(_Handle), U32, _AT(_Outcome)],
    "aodv_items": [_AT(_Handle), _AT(SIZE)],
    "aodv_sendable": [_AT(_Handle), _AT(_Addrs)],
    "aodv_askable": [_AT(_Handle), _AT(_Addrs)],
    "aodv_number": [_AT(_Handle), _AT(U32)],
    "aodv_entry": [_AT(_Handle), U32, _AT(_Row)],
    "aodv_waiting": [_AT(_Handle), U32, _AT(SIZE)],
    "aodv_seen": [_AT(_Handle), U32, U32, _AT(BOOL)],
}


def _load() -> ctypes.CDLL:
    here = os.path.dirname(os.path.realpath(__file__))
    places = [os.path.join(here, *it, "libaodv.so.1") for it in ([], ["..", "..", "out"], ["..", "..", "lib"])]
    built = next(filter(os.path.exists, places), "libaodv.so.1")
    library = ctypes.CDLL(os.environ.get("AODV_LIBRARY") or built)
    for name, words in _WORDS.items():
        call = getattr(library, name)
        call.argtypes, call.restype = words, U32
    library.aodv_version.restype = U32
    library.aodv_free.argtypes, library.aodv_free.restype = [_AT(_Handle)], None
    if library.aodv_version() != VERSION:
        raise ImportError(f"libaodv has the interface {library.aodv_version()}, and this module {VERSION}")
    return library


_LIBRARY = _load()


def _u32(number: int, name: str) -> int:
    # ctypes would take any number modulo 2^32.
    if not 0 <= operator.index(number) < 2**32:
        raise ValueError(f"{name} is a number from 0 to 4294967295, and not {number}")
    return number


def _numbers(addrs: Iterable[Address]) -> Tuple[ctypes.Array, int]:
    # An array of one at least: its pointer isn't null.
    numbers = [int(IPv4Address(it)) for it in addrs]
    return (U32 * max(1, len(numbers)))(*numbers), len(numbers)


def _addresses(numbers) -> List[IPv4Address]:
    return [IPv4Address(it) for it in numbers]


def _outcome(out: _Outcome) -> Outcome:
    took = Took(out.took)
    return Outcome(
        took=took,
        source=IPv4Address(out.source) if took >= Took.DATA else None,
        dest=IPv4Address(out.dest) if took is Took.STORED else None,
        delivered=out.delivered,
        lost=out.lost,
        broken=IPv4Address(out.broke) if out.broken else None,
        cast=Cast(out.cast),
        to=_addresses(out.to[: out.to_len]),
        packet=bytes(out.packet[: out.packet_len]),
        body=bytes(out.body[: out.body_len]),
    )


class Router:
    """A router of a mesh of exactly these addresses, each of them once and at most 200. `first` is its first sequence
    number: above the last that it had, where it was there before."""

    def __init__(self, addrs: Iterable[Address], me: Address, first: int = 1, variant: Variant = Variant.BASE):
        self._handle = _Handle()
        numbers, count = _numbers(addrs)
        first, variant = _u32(first, "first"), _u32(variant, "variant")
        self._call("aodv_new", numbers, count, int(IPv4Address(me)), first, variant)

    def _call(self, name: str, *words) -> None:
        code = getattr(_LIBRARY, name)(self._handle, *words)
        if code != Code.DONE:
            raise Refused(code)

    def close(self) -> None:
        """Frees the router. Calls are refused from then on, and one more close does nothing."""
        _LIBRARY.aodv_free(self._handle)

    def __enter__(self) -> "Router":
        return self

    def __exit__(self, *_) -> None:
        self.close()

    def __del__(self):
        if hasattr(self, "_handle"):
            self.close()

    def hear(self, source: Address, packet: bytes) -> None:
        """A packet that a neighbour has cast joins the inbox, whatever its bytes are."""
        self._call("aodv_hear", int(IPv4Address(source)), packet, len(packet))

    def give(self, dest: Address, body: bytes) -> None:
        """A datum of 1 to 512 bytes for an address joins the inbox."""
        self._call("aodv_give", int(IPv4Address(dest)), body, len(body))

    def turn(self, near: Iterable[Address]) -> Outcome:
        """Takes the front item of the inbox, and does with it what AODV does. A unicast reaches those that are near."""
        out = _Outcome()
        self._call("aodv_turn", *_numbers(near), out)
        return _outcome(out)

    def send(self, near: Iterable[Address], dest: Address) -> Outcome:
        """Sends the first datum that waits for an address to the next hop, if there is a valid route."""
        out = _Outcome()
        self._call("aodv_send", *_numbers(near), int(IPv4Address(dest)), out)
        return _outcome(out)

    def ask(self, dest: Address) -> Outcome:
        """Asks all neighbours for a route to an address, if data wait for it, there is no valid route, and none was
        asked for."""
        out = _Outcome()
        self._call("aodv_ask", int(IPv4Address(dest)), out)
        return _outcome(out)

    def items(self) -> int:
        """How many items wait in the inbox: while there is one, `turn`."""
        count = SIZE()
        self._call("aodv_items", count)
        return count.value

    def _list(self, name: str) -> List[IPv4Address]:
        found = _Addrs()
        self._call(name, found)
        return _addresses(found.addrs[: found.len])

    def sendable(self) -> List[IPv4Address]:
        """The addresses for which `send` isn't idle."""
        return self._list("aodv_sendable")

    def askable(self) -> List[IPv4Address]:
        """The addresses for which `ask` isn't idle."""
        return self._list("aodv_askable")

    def number(self) -> int:
        """The router's own sequence number: a router that is to begin again keeps it."""
        number = U32()
        self._call("aodv_number", number)
        return number.value

    def entry(self, dest: Address) -> Optional[Row]:
        """The table's entry for an address, if there is one."""
        row = _Row()
        try:
            self._call("aodv_entry", int(IPv4Address(dest)), row)
        except Refused as it:
            if it.code is Code.NO_ENTRY:
                return None
            raise
        precursors = _addresses(row.pre[: row.pre_len])
        return Row(row.dsn, row.known, row.valid, row.hops, IPv4Address(row.next), precursors)

    def waiting(self, dest: Address) -> int:
        """How many data wait for an address."""
        count = SIZE()
        self._call("aodv_waiting", int(IPv4Address(dest)), count)
        return count.value

    def seen(self, originator: Address, number: int) -> bool:
        """Whether an originator's request of this id was seen."""
        seen = BOOL()
        self._call("aodv_seen", int(IPv4Address(originator)), _u32(number, "number"), seen)
        return seen.value
