"""What the scripts share: how they begin and end, and the files that they read and write.

    import meshscript

    meshscript.begin()
    ..
    meshscript.main("lint", __doc__, words, run)

A script says in one line on standard error why it ends with another status than 0, and never by a traceback:

    1    what it read or ran isn't as it should be
    2    its words are of no form
    5    an input could not be read
    6    an output could not be written
    7    there was not enough memory
    128 and a signal's number   this signal ended it; 141 is that of a pipe whose reader has gone, and isn't said
"""
from __future__ import annotations

import argparse
import contextlib
import errno
import fcntl
import io
import os
import re
import signal
import sys
from typing import Any, Callable, Iterator, List, NoReturn, Optional, Tuple

TOP = os.path.dirname(os.path.dirname(os.path.realpath(__file__)))
WRONG, READ, WRITE, MEMORY, FAULT, READER_GONE = 1, 5, 6, 7, 70, 141
INPUT, OUTPUT, ERRORS = 0, 1, 2
# So many seconds a signal waits at most.
WAIT = 0.2
# A byte order mark.
MARK = b"\xef\xbb\xbf"


class Ends(Exception):
    """Why a script ends, with the status of its kind."""

    status = WRONG


class Bad(Ends):
    """What is read or run isn't as it should be, and why."""


class Unread(Ends):
    """An input that can't be read, and why."""

    status = READ


class Unwritten(Ends):
    """An output that can't be written, and why."""

    status = WRITE


@contextlib.contextmanager
def told(kind: type, name: str) -> Iterator[None]:
    """What the system refuses meanwhile is told of this name, as Unread or Unwritten."""
    try:
        yield
    except BrokenPipeError:
        raise
    except OSError as why:
        raise kind(f"{name}: {why.strerror or why}") from None


# ---- what is said


def one_line(text: str) -> str:
    """The text with each character that doesn't show written out, so that it is one line."""
    return "".join(it if it.isprintable() else ascii(it)[1:-1] for it in text)


def note(text: str, end: str = "\n") -> None:
    """Writes a line to standard error, if that takes it."""
    with contextlib.suppress(OSError):
        print(text, end=end, file=sys.stderr, flush=True)


def say(name: str, text: str) -> None:
    note(f"{name}: {one_line(text)}")


class Progress:
    """How many of so many runs are done, at a terminal: what is said next stands in its place."""

    def __init__(self, of: int) -> None:
        self.of, self.done, self.shows = of, 0, sys.stderr.isatty()

    def __enter__(self) -> Progress:
        return self

    def step(self) -> None:
        self.done += 1
        if self.shows:
            note(f"{self.done} of {self.of} ", end="\r")

    def __exit__(self, *_: Any) -> None:
        if self.shows:
            note(" " * (2 * len(str(self.of)) + 5), end="\r")


# ---- files


def read_bytes(name: str) -> bytes:
    """All of a file."""
    with told(Unread, name), open(name, "rb") as file:
        return file.read()


def read_input() -> bytes:
    """All of standard input."""
    with told(Unread, "standard input"), open(INPUT, "rb", closefd=False) as file:
        return file.read()


def write_all(number: int, data: bytes) -> None:
    while data:
        data = data[os.write(number, data) :]


class Later:
    """A file that is written at the end. It is opened before the work, so that a name which can't be written is told
    at once; what stands in it stays until then, and where nothing is written and it is new, it goes."""

    def __init__(self, name: str) -> None:
        self.name, self.is_new = name, not os.path.exists(name)
        with told(Unwritten, name):
            self.number = os.open(name, os.O_WRONLY | os.O_CREAT, 0o666)

    def write(self, data: bytes) -> None:
        with told(Unwritten, self.name):
            with contextlib.suppress(OSError):  # a file of another kind has no length
                os.ftruncate(self.number, 0)
            write_all(self.number, data)

    def __enter__(self) -> Later:
        return self

    def __exit__(self, *_: Any) -> None:
        if self.is_new and not os.fstat(self.number).st_size:
            with contextlib.suppress(OSError):
                os.remove(self.name)
        os.close(self.number)


class Lines:
    """A file to which lines are added, below a head, each whole and as it comes. One script at a time adds to it.

    `kept` is the text of the whole lines that it has already: where it ends within a line, `is_cut` says so, and
    `begin` takes this part away. With - it is standard output."""

    def __init__(self, name: str, head: str, script: str) -> None:
        self.name, self.head, self.kept, self.is_cut = name, head, "", False
        self.number, self.size = OUTPUT, 0
        if name == "-":
            sys.stdout.flush()
            return
        with told(Unwritten, name):
            data = self._open(script)
        self.kept, self.size = self._whole(data)
        self.is_cut = self.size < len(data)

    def _open(self, script: str) -> bytes:
        """Opens the file; returns what it has already. A device or a pipe is only written."""
        if os.path.exists(self.name) and not os.path.isfile(self.name):
            self.number = os.open(self.name, os.O_WRONLY | os.O_APPEND)
            return b""
        self.number = os.open(self.name, os.O_RDWR | os.O_CREAT | os.O_APPEND, 0o666)
        try:
            fcntl.flock(self.number, fcntl.LOCK_EX | fcntl.LOCK_NB)
        except BlockingIOError:
            raise Bad(f"another {script} adds to {self.name}") from None
        with open(self.number, "rb", closefd=False) as file:
            return file.read()

    def _whole(self, data: bytes) -> Tuple[str, int]:
        """The whole lines, and the size of them in the file. A spreadsheet may have put a byte order mark before them.
        What is no part of the head is no cut line, and is kept to be refused."""
        size, text = data.rfind(b"\n") + 1, data[len(MARK) :] if data.startswith(MARK) else data
        if not size and not self.head.encode().startswith(text):
            size = len(data)
        return data[:size].decode("utf-8-sig", errors="replace"), size

    def begin(self) -> None:
        """Takes a cut line away, and writes the head where there is none."""
        with told(Unwritten, self.name):
            if self.is_cut:
                os.ftruncate(self.number, self.size)
        if not self.kept:
            self.add(self.head)

    def add(self, line: str) -> None:
        """Adds a line, with its line feed."""
        with told(Unwritten, "standard output" if self.name == "-" else self.name):
            write_all(self.number, line.encode(errors="surrogateescape"))


def given_by(made: Any) -> Iterator[Any]:
    """What an iterator of a pool of threads gives, as it comes. The wait has an end, since a signal that another thread
    has taken ends none."""
    import multiprocessing

    while True:
        try:
            yield made.next(WAIT)
        except multiprocessing.TimeoutError:
            continue
        except StopIteration:
            return


@contextlib.contextmanager
def scratch() -> Iterator[str]:
    """A folder for a script's files, which goes when the script ends."""
    import tempfile

    with told(Unwritten, "the folder for temporary files"):
        folder = tempfile.TemporaryDirectory()
    with folder as name:
        yield name


# ---- a script's beginning and its ends


class _Output(io.FileIO):
    """Standard output, of which a failed write is told as that."""

    def write(self, data: Any) -> Optional[int]:
        with told(Unwritten, "standard output"):
            written = super().write(data)
            if written is None:
                raise BlockingIOError(errno.EAGAIN, os.strerror(errno.EAGAIN))
            return written


def _is_closed(number: int) -> bool:
    try:
        os.fstat(number)
    except OSError:
        return True
    return False


def _hold(number: int) -> None:
    """Puts a stream that nothing is read from or written to in the place of a closed one."""
    held = os.open(os.devnull, os.O_RDWR)
    if held != number:
        os.dup2(held, number)
        os.close(held)


def _open_errors() -> None:
    if _is_closed(ERRORS):
        _hold(ERRORS)
        sys.stderr = open(ERRORS, "w", closefd=False, errors="backslashreplace")


def _open_output() -> None:
    if _is_closed(OUTPUT):
        raise Unwritten("standard output is closed")
    how = {"encoding": "utf-8", "errors": "surrogateescape", "newline": "\n"}
    buffer = io.BufferedWriter(_Output(OUTPUT, "w", closefd=False))
    sys.stdout = io.TextIOWrapper(buffer, line_buffering=os.isatty(OUTPUT), **how)


def _look_at_input(is_read: bool) -> None:
    if _is_closed(INPUT):
        if is_read:
            raise Unread("standard input is closed")
        _hold(INPUT)


def _heed_signals() -> None:
    """A signal ends the script as an exception does, so that what it has begun is ended; but not where it is ignored,
    as nohup asks for it."""
    for it in (signal.SIGHUP, signal.SIGTERM):
        if signal.getsignal(it) == signal.SIG_DFL:
            signal.signal(it, lambda number, _: sys.exit(128 + number))
    if signal.getsignal(signal.SIGINT) == signal.SIG_DFL:
        signal.signal(signal.SIGINT, signal.default_int_handler)


def _drop(number: int) -> None:
    """What is left to be written to a stream goes nowhere."""
    nowhere = os.open(os.devnull, os.O_WRONLY)
    os.dup2(nowhere, number)


def begin() -> None:
    """Before and behind `main` an interrupt ends the script without a word: before it its modules are read."""
    if signal.getsignal(signal.SIGINT) is signal.default_int_handler:
        signal.signal(signal.SIGINT, signal.SIG_DFL)


def _where(why: BaseException) -> str:
    """The last place that a fault came through."""
    trace = why.__traceback__
    while trace and trace.tb_next:
        trace = trace.tb_next
    return f"{os.path.basename(trace.tb_frame.f_code.co_filename)}, line {trace.tb_lineno}" if trace else "nowhere"


def _end(name: str, status: int, why: str) -> int:
    """What a script has written before stands before the word on its end."""
    if status != WRITE:
        with contextlib.suppress(Unwritten, OSError):
            sys.stdout.flush()
    say(name, why)
    return status


def ended(name: str, does: Callable[[], int]) -> int:
    """The status with which this ends. Where it isn't done it is said why."""
    try:
        status = does()
        sys.stdout.flush()
        return status
    except BrokenPipeError:
        return READER_GONE
    except Ends as why:
        return _end(name, why.status, str(why))
    except MemoryError:
        return _end(name, MEMORY, "there was not enough memory")
    except KeyboardInterrupt:
        return 128 + signal.SIGINT
    except SystemExit as end:
        return end.code if isinstance(end.code, int) else WRONG
    except OSError as why:
        return _end(name, WRONG, f"{why.filename}: {why.strerror}" if why.filename else str(why))
    except Exception as why:  # pylint: disable=broad-except
        said = f"{type(why).__name__} in {_where(why)}, which should not be: {why}; please report it"
        return _end(name, FAULT, said)


def main(
    name: str,
    doc: str,
    words: Callable[[List[str]], argparse.Namespace],
    run: Callable[[argparse.Namespace], int],
    reads: Callable[[argparse.Namespace], bool] = lambda options: False,
) -> NoReturn:
    """Runs a script: reads its words, and then does what they say. `doc` is what --help writes; `reads` says whether
    these words read standard input."""

    def does() -> int:
        _heed_signals()
        given = sys.argv[1:]
        if given not in (["--help"], ["-h"], ["--version"]):
            options = words(given)
            _open_output()
            _look_at_input(reads(options))
            return run(options)
        _open_output()
        if given == ["--version"]:
            os.execv(f"{TOP}/bin/mesh", ["mesh", *name.split(), "--version"])
        print(doc)
        return 0

    _open_errors()
    status = ended(name.split()[-1], does)
    begin()
    # What is left in a buffer couldn't be written, which is told, and is not tried once more.
    for it in (OUTPUT, ERRORS):
        _drop(it)
    sys.exit(status)


# ---- words


def parser_of(name: str, usage: str) -> argparse.ArgumentParser:
    """A reader of a script's words, which says of wrong ones how they are, and ends with 2."""
    return argparse.ArgumentParser(prog=name, usage=usage, add_help=False, allow_abbrev=False)


def number(least: int, most: int) -> Callable[[str], int]:
    """Reads a number of this range: decimal digits without a leading zero."""

    def read(word: str) -> int:
        if not re.fullmatch("0|[1-9][0-9]{0,19}", word) or not least <= int(word) <= most:
            raise argparse.ArgumentTypeError(f"no number from {least} to {most}: {word}")
        return int(word)

    return read


def numbers(least: int, most: int) -> Callable[[str], List[str]]:
    """Reads several numbers of this range, with commas between them, each of which counts once."""
    return lambda word: [str(number(least, most)(it)) for it in dict.fromkeys(word.split(","))]
