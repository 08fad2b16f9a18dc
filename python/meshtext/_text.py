"""What the package meshtext is made of: packets, the forms of lines, the reader of a text, and a run over pipes.

An effect also has what the line above it says: the `node` that acted, the number of the `copy` that was
heard or lost, and its `packet`. A packet is decoded by the layouts of RFC 3561 into a dataclass of its own."""
from __future__ import annotations

import contextlib
import dataclasses
import os
import re
import shutil
import string
import struct
import subprocess
from dataclasses import dataclass, field
from socket import inet_aton, inet_ntoa
from typing import TYPE_CHECKING, Any, Callable, ClassVar, Dict, Iterable, Iterator, List, Optional, Tuple, Type, Union


class NotAPacket(ValueError):
    """Bytes that are no packet; says why."""


class NotAText(ValueError):
    """A line that no text of a run has there. `line` is its number, from 1."""

    def __init__(self, line: int, why: str) -> None:
        super().__init__(f"line {line}: {why}")
        self.line = line


# ---- packets: the layouts of RFC 3561, section 5, and the data packet of docs/FORMATS.md


def _flags(bits: int, count: int) -> List[bool]:
    return [bool(bits >> 15 - at & 1) for at in range(count)]


def _bits(*flags: bool) -> int:
    return sum(it << 15 - at for at, it in enumerate(flags))


@dataclass
class Packet:
    """What all packets have: `kind`, and bits that the layouts reserve, which a node writes as 0."""

    kind: str = field(init=False)
    reserved: int = field(init=False, default=0)

    def encode(self) -> bytes:
        """The bytes of the packet."""
        raise NotImplementedError


@dataclass
class Request(Packet):
    """A route request (RREQ)."""

    kind = "request"
    hops: int
    id: int
    destination: str
    destination_number: int
    originator: str
    originator_number: int
    join: bool = False
    repair: bool = False
    gratuitous: bool = False
    destination_only: bool = False
    unknown_number: bool = False
    _layout: ClassVar[struct.Struct] = struct.Struct(">BHBI4sI4sI")

    @classmethod
    def decode(cls, data: bytes) -> Request:
        _, bits, hops, number, to, to_number, of, of_number = cls._layout.unpack(data)
        made = cls(hops, number, inet_ntoa(to), to_number, inet_ntoa(of), of_number, *_flags(bits, 5))
        made.reserved = bits & 0x7FF
        return made

    def encode(self) -> bytes:
        bits = _bits(self.join, self.repair, self.gratuitous, self.destination_only, self.unknown_number)
        to, of = inet_aton(self.destination), inet_aton(self.originator)
        numbers = (to, self.destination_number, of, self.originator_number)
        return self._layout.pack(1, bits | self.reserved, self.hops, self.id, *numbers)


@dataclass
class Reply(Packet):
    """A route reply (RREP)."""

    kind = "reply"
    hops: int
    destination: str
    destination_number: int
    originator: str
    lifetime: int = 0xFFFFFFFF
    repair: bool = False
    acknowledge: bool = False
    prefix_size: int = 0
    _layout: ClassVar[struct.Struct] = struct.Struct(">BHB4sI4sI")

    @classmethod
    def decode(cls, data: bytes) -> Reply:
        _, bits, hops, to, number, of, lifetime = cls._layout.unpack(data)
        made = cls(hops, inet_ntoa(to), number, inet_ntoa(of), lifetime, *_flags(bits, 2), bits & 0x1F)
        made.reserved = bits >> 5 & 0x1FF
        return made

    def encode(self) -> bytes:
        bits = _bits(self.repair, self.acknowledge) | self.reserved << 5 | self.prefix_size
        to, of = inet_aton(self.destination), inet_aton(self.originator)
        return self._layout.pack(2, bits, self.hops, to, self.destination_number, of, self.lifetime)


@dataclass
class Error(Packet):
    """A route error (RERR): pairs of a destination that can't be reached and its number."""

    kind = "error"
    destinations: Tuple[Tuple[str, int], ...]
    no_delete: bool = False

    @classmethod
    def decode(cls, data: bytes) -> Error:
        if len(data) < 4 or len(data) != 4 + 8 * data[3]:
            raise struct.error
        pairs = tuple((inet_ntoa(four), number) for four, number in struct.iter_unpack(">4sI", data[4:]))
        made = cls(pairs, bool(data[1] & 0x80))
        made.reserved = (data[1] & 0x7F) << 8 | data[2]
        return made

    def encode(self) -> bytes:
        pairs = b"".join(inet_aton(it) + struct.pack(">I", number) for it, number in self.destinations)
        return struct.pack(">BHB", 3, self.no_delete << 15 | self.reserved, len(self.destinations)) + pairs


@dataclass
class Data(Packet):
    """A data packet, which is this project's own. A byte of the datum is one character of `text`."""

    kind = "data"
    destination: str
    originator: str
    text: str

    @classmethod
    def decode(cls, data: bytes) -> Data:
        if len(data) < 13:
            raise struct.error
        made = cls(inet_ntoa(data[4:8]), inet_ntoa(data[8:12]), data[12:].decode("latin-1"))
        made.reserved = int.from_bytes(data[1:4], "big")
        return made

    def encode(self) -> bytes:
        head = struct.pack(">I", 16 << 24 | self.reserved)
        return head + inet_aton(self.destination) + inet_aton(self.originator) + self.text.encode("latin-1")


PACKETS: Dict[int, Any] = {1: Request, 2: Reply, 3: Error, 16: Data}


def decode(data: bytes) -> Packet:
    """The packet that these bytes spell, in full: `decode(data).encode() == data`. Else NotAPacket."""
    try:
        return PACKETS[data[0]].decode(data)
    except (IndexError, KeyError, struct.error):
        raise NotAPacket(f"no packet has these {len(data)} bytes: {data[:24].hex()}") from None


# ---- how a field is written, by its type in the table below

_NUM = "(?:0|[1-9][0-9]{0,19})"  # below 2^64
_PART = "(?:25[0-5]|2[0-4][0-9]|1[0-9][0-9]|[1-9]?[0-9])"
_ADDR = rf"{_PART}(?:\.{_PART}){{3}}"
_LIST = f"{_ADDR}(?:,{_ADDR})*"
_TO = f"(?:(?<=one) {_ADDR}|(?<=many) {_LIST}|(?<=all))"


def _list_of(word: str) -> Tuple[str, ...]:
    return tuple(word.split(",")) if word not in ("", "-") else ()


def _one_of(yes: str, no: str) -> Tuple[str, Callable, Callable]:
    return f"{yes}|{no}", lambda word: word == yes, lambda value: yes if value else no


# For each type: what it is in Python, the pattern of what is written, how that is read, and how it is written.
_TYPES: Dict[str, Tuple[Any, str, Callable, Callable]] = {
    "num": (int, _NUM, int, str),
    "word": (str, "[a-z]+", str, str),
    "addr": (str, _ADDR, str, str),
    "list": (Tuple[str, ...], f"-|{_LIST}", _list_of, lambda those: ",".join(those) or "-"),
    # What stands behind one, many or all, with the space before it.
    "to": (Tuple[str, ...], _TO, lambda word: _list_of(word[1:]), lambda those: " " * bool(those) + ",".join(those)),
    "text": (str, "[ -~]+", str, str),
    "body": (
        str,
        r"(?:[ -\[\]-~]|\\x[0-9a-f]{2})+",
        lambda word: re.sub(r"\\x(..)", lambda it: chr(int(it[1], 16)), word),
        lambda text: re.sub(r"[^ -\[\]-~]", lambda it: f"\\x{ord(it[0]):02x}", text),
    ),
    "hex": (Packet, "(?:[0-9a-f]{2})+", lambda word: decode(bytes.fromhex(word)), lambda it: it.encode().hex()),
    "kno": (bool, *_one_of("kno", "unk")),
    "val": (bool, *_one_of("val", "inv")),
    "req": (bool, *_one_of("req", "noreq")),
    "copied": (int, f"(?: copied {_NUM})?", lambda word: int(word[8:] or 0), lambda it: f" copied {it}" * bool(it)),
}

# ---- records

# For each kind of line: what it stands below (nothing, any event, or a line of this kind), how it is written, and
# which of its fields it has from the line above it. A field is {its name:its type}.
_EVENTS = "link cut data turn send ask deliver lose double".split()
_COUNTS = "events idle given delivered waiting queued flying lost".split()
_ENTRY = "{number:num} {known:kno} {valid:val} {hops:num} {next:addr}"
_FORMS = (
    ("node", "", "node {node:addr} sn {number:num}", ""),
    ("link", "", "link {node:addr} {other:addr}", ""),
    ("cut", "", "cut {node:addr} {other:addr}", ""),
    ("data", "", "data {node:addr} {destination:addr} {text:text}", ""),
    ("turn", "", "turn {node:addr}", ""),
    ("send", "", "send {node:addr} {destination:addr}", ""),
    ("ask", "", "ask {node:addr} {destination:addr}", ""),
    ("deliver", "", "deliver {copy:num}", ""),
    ("lose", "", "lose {copy:num}", ""),
    ("double", "", "copy {copy:num}", ""),
    ("auto", "", "auto {limit:num}", ""),
    ("did", "", "auto did {count:num}", ""),
    ("show", "", "show {node:addr}", ""),
    ("route", "", "route {node:addr} {destination:addr}", ""),
    ("flight", "", "flight", ""),
    ("place", "", "place {node:addr} {x:num} {y:num}", ""),
    ("move", "", "move {node:addr} {x:num} {y:num}", ""),
    ("done", "", "done" + "".join(f" {it} {{{it}:num}}" for it in _COUNTS) + "{copied:copied}", ""),
    ("bad", "", "bad line {of:num}: {why:text}", ""),
    ("full", "", "full line {of:num}: {command:text}: {counter:word}", ""),
    ("idle", "event place", "  idle", "node copy"),
    ("took", "event", "  took {what:word} {whom:addr}", "node"),
    ("delivered", "event", "  delivered {originator:addr} {destination:addr} {text:body}", "node"),
    ("lost", "lose", "  lost {sender:addr} {receiver:addr}", "copy packet"),
    ("dropped", "event", "  dropped {originator:addr} {destination:addr} {text:body}", "node copy"),
    ("broken", "event", "  broken {other:addr}", "node"),
    ("sent", "event", "  sent {how:word}{to:to} {packet:hex}", "node"),
    ("copy", "event", "  copy {copy:num} {receiver:addr}", "node packet"),
    ("heard", "deliver", "  heard {sender:addr} {receiver:addr}", "copy packet"),
    ("sn", "show", "  sn {number:num}", "node"),
    ("asked", "show", "  asked {originator:addr} {id:num}", "node"),
    ("entry", "show", f"  entry {{destination:addr}} {_ENTRY} {{precursors:list}}", "node"),
    ("waits", "show", "  waits {destination:addr} {wanted:req} {count:num}", "node"),
    ("inbox", "show", "  inbox {count:num}", "node"),
    ("arrived", "route", "  arrived {hops:num}", "node destination"),
    ("stuck", "route", "  stuck {at:addr} {hops:num}", "node destination"),
    ("flying", "flight", "  copy {copy:num} {sender:addr} {receiver:addr} {packet:hex}", ""),
    ("came", "place", "  link {node:addr} {other:addr}", ""),
    ("went", "place", "  cut {node:addr} {other:addr}", ""),
)
_BELOW = dict(dict.fromkeys(_EVENTS, "event"), show="show", route="route", flight="flight", place="place", move="place")
LAST = ("done", "bad", "full")
LINE_LIMIT = 600  # a longer line is refused, a remark too


@dataclass
class Record:
    """A line of a text, which `str` of it is. Each kind is a dataclass of its own, as TookLine, by the table above."""

    kind: str = field(init=False)
    line: int = field(init=False, default=0)
    event: int = field(init=False, default=0)
    below: int = field(init=False, default=0)
    _parts: ClassVar[List[Tuple[str, Optional[str], str]]] = []
    _pattern: ClassVar[re.Pattern]
    _above: ClassVar[List[str]] = []

    def __str__(self) -> str:
        return "".join(it + (_TYPES[spec][3](getattr(self, name)) if name else "") for it, name, spec in self._parts)

    @classmethod
    def read(cls, text: str) -> Optional[Record]:
        """The record of this line, or None where it is of another form."""
        found = cls._pattern.fullmatch(text)
        record = found and cls(*(_TYPES[spec][2](found[name]) for _, name, spec in cls._parts if name))
        return record if str(record) == text else None

    if TYPE_CHECKING:
        def __getattr__(self, name: str) -> Any: ...  # the fields of each kind


def _make(kind: str, form: str, above: List[str]) -> Type[Record]:
    parts = [(literal, name, spec or "") for literal, name, spec, _ in string.Formatter().parse(form)]
    fields: List[Any] = [(name, _TYPES[spec][0]) for _, name, spec in parts if name]
    fields += [(name, Any, field(init=False, default=None)) for name in above]
    pattern = "".join(re.escape(it) + (f"(?P<{name}>{_TYPES[spec][1]})" if name else "") for it, name, spec in parts)
    inside = {"kind": kind, "_parts": parts, "_pattern": re.compile(pattern), "_above": above, "__module__": __name__}
    made = dataclasses.make_dataclass(f"{kind.capitalize()}Line", fields, bases=(Record,), namespace=inside)
    made.__doc__ = f"The line `{form.strip()}`."
    return made


# The kinds of lines, by what they stand below and by their first word.
_KINDS: Dict[Tuple[str, str], List[Type[Record]]] = {}
for _kind, _where, _form, _from in _FORMS:
    _made = _make(_kind, _form, _from.split())
    globals()[_made.__name__] = _made
    for _group in _where.split() or [""]:
        _KINDS.setdefault((_group, _form.split()[0]), []).append(_made)


def kinds() -> Dict[str, List[str]]:
    """The kinds of records, each with the names of its fields: first those that its line says, in their order, and
    then those that it has from the line above it."""
    return {kind: [name for _, name, _, _ in string.Formatter().parse(form) if name] + above.split() for kind, _, form, above in _FORMS}


class Reader:
    """Reads one text line by line, for whoever gets the lines by and by; `records` reads a file with it."""

    def __init__(self) -> None:
        self.line = self.event = 0
        self.last: Optional[Record] = None
        self._head: Optional[Record] = None
        self._sent: Optional[Packet] = None
        self._flying: Dict[int, Optional[Packet]] = {}

    def read(self, text: str) -> Record:
        """The record of the next line, which comes without its line feed."""
        self.line += 1
        if self.last:
            raise NotAText(self.line, f"it stands behind the last line: {text[:80]!r}")
        is_effect = text.startswith("  ")
        record = self._record_of(text, is_effect)
        record.line = self.line
        if is_effect:
            self._fill(record, self._head)
        else:
            self._head, self._sent = record, None
            self.last = record if record.kind in LAST else None
        self.event += record.kind in _EVENTS or record.kind in ("came", "went")
        record.event, record.below = self.event, self._head.line
        return record

    def _record_of(self, text: str, is_effect: bool) -> Record:
        word = (text.split() or [""])[0]
        head = self._head.kind if is_effect and self._head else ""
        for kind in (it for group in {_BELOW.get(head, ""), head} for it in _KINDS.get((group, word), ())):
            try:
                if record := kind.read(text):
                    return record
            except NotAPacket as why:
                raise NotAText(self.line, f"{why}: {text[:80]!r}") from None
        place = f" below {str(self._head)[:80]!r}" if is_effect and self._head else ""
        raise NotAText(self.line, f"no line of a text{place}: {text[:80]!r}")

    def _fill(self, record: Record, head: Record) -> None:
        for name in record._above:
            setattr(record, name, getattr(head, name, None))
        if record.kind == "sent":
            self._sent = record.packet
        elif record.kind == "copy":
            record.packet = self._flying.get(head.copy) if head.kind == "double" else self._sent
            self._flying[record.copy] = record.packet
        elif record.kind in ("heard", "lost"):
            record.packet = self._flying.pop(head.copy, None)


def records(lines: Iterable[Union[str, bytes]], part: bool = False) -> Iterator[Record]:
    """The records of a text, one by one as its lines come: of a file, of standard input, or of a list of lines.
    NotAText at the first line that is of no text, and behind the text where it has no last line; with `part` it
    may be cut short. A copy that was made before the text begins, as behind a checkpoint, has None as its packet."""
    reader = Reader()
    for line in lines:
        text = line.decode("latin-1") if isinstance(line, bytes) else line
        yield reader.read(text[:-1] if text.endswith("\n") else text)
    if not (part or reader.last):
        raise NotAText(reader.line + 1, "the text ends without its last line")


# ---- a run over pipes


class Ended(Exception):
    """The run has ended, and no line can follow. `records` has what the line did before that."""

    def __init__(self, why: str, those: Iterable[Record] = ()) -> None:
        super().__init__(why)
        self.records = list(those)


class Refused(Ended):
    """A line was refused: `line` is the line, and `reason` says why, as docs/FORMATS.md lists it."""

    def __init__(self, line: str, reason: str, those: Iterable[Record]) -> None:
        super().__init__(f"{line}: {reason}", those)
        self.line, self.reason = line, reason


class Full(Ended):
    """An event would have raised a counter past its greatest value."""


def program() -> str:
    """The program: what MESH names in the environment, or else `mesh` of this repository or of the PATH."""
    top = os.path.dirname(os.path.dirname(os.path.dirname(os.path.realpath(__file__))))
    beside = [f"{top}/bin/mesh", f"{top}/mesh"]
    found = os.environ.get("MESH") or next(filter(os.path.isfile, beside), None) or shutil.which("mesh")
    if not found:
        raise FileNotFoundError("there is no program mesh beside this file or on the PATH; MESH can name one")
    return found


class Mesh:
    """A run of the program, which is given its schedule line by line.

    The answer to a line ends where the next line's begins, and the program writes all of it before it reads on.
    So `do` sends `route A A` behind each line, A being the first node: that is no event and changes nothing, and
    its own answer is always two lines, which `do` takes away. Nothing is waited for by time. A `node` line is
    answered by one line alone, and nothing is sent behind it, since behind another line a node is late; a blank
    line is not answered. The limit of an input, 16777216 bytes, holds with these lines."""

    def __init__(self, variant: Optional[str] = None, program_path: Optional[str] = None) -> None:
        words = [program_path or program(), "run", *(["--variant", variant] if variant else [])]
        self._child = subprocess.Popen(words, stdin=subprocess.PIPE, stdout=subprocess.PIPE)
        self._reader, self._mark, self._given = Reader(), b"", 0

    def __enter__(self) -> Mesh:
        return self

    def __exit__(self, kind: Any, *_: Any) -> None:
        if kind:
            self._child.terminate()
        self._close()
        self._child.stdout.read()
        self._child.stdout.close()
        self._child.wait()

    def do(self, line: str) -> List[Record]:
        """Gives the run a line, and answers the records of all that it wrote for it. Refused, Full or Ended
        where the run ends at this line."""
        if "\n" in line:
            raise ValueError("one line at a time")
        if self._reader.last or self._child.stdin.closed:
            raise Ended("the run has ended already")
        self._given += 1
        is_alone = not self._mark or line.split(" ")[0] == "node" or line[:1] == "#"
        data = line.encode(errors="surrogateescape")
        self._write(data + b"\n")
        if not line or (line[0] == "#" and len(data) <= LINE_LIMIT):
            return []
        if not is_alone:
            self._write(self._mark)
        made = self._answer(line, is_alone)
        if not self._mark:
            self._mark = f"route {made[0].node} {made[0].node}\n".encode()
        return made

    def done(self) -> Record:
        """Ends the schedule, and answers the last line of the text."""
        self._close()
        return self._answer("", True)[0]

    def _answer(self, line: str, is_alone: bool) -> List[Record]:
        made: List[Record] = []
        for text in iter(self._child.stdout.readline, b""):
            if text == self._mark and made and not is_alone:
                self._child.stdout.readline()
                return made
            if text[-1:] != b"\n":
                break
            made.append(self._reader.read(text[:-1].decode("latin-1")))
            if made[-1].kind in ("bad", "full"):
                # Its own number counts the lines that were sent behind others, too.
                made[-1].of = self._given
                raise Refused(line, made[-1].why, made) if made[-1].kind == "bad" else Full(str(made[-1]), made)
            if is_alone:
                return made
        raise Ended(f"the program ended with status {self._child.wait()}", made)

    def _write(self, data: bytes) -> None:
        # Where the program has ended already, its last line says why.
        with contextlib.suppress(BrokenPipeError):
            self._child.stdin.write(data)
            self._child.stdin.flush()

    def _close(self) -> None:
        with contextlib.suppress(BrokenPipeError):
            self._child.stdin.close()


# The classes are the package's own to whoever looks at them.
for _made in [*globals().values()]:
    if isinstance(_made, type) and _made.__module__ == __name__:
        _made.__module__ = __package__
