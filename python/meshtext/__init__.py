"""Reads the text of `mesh run` as records, and drives `mesh run` line by line.

    import meshtext

    for record in meshtext.records(open("run.txt")):
        if record.kind == "delivered":
            print(record.event, record.originator, record.destination, record.text)

Each line of a text is one record, a dataclass; `str(record)` is the line again, byte for byte. All records have

    kind    what the line is, as `link`, `sent` or `done`; meshtext.kinds() lists all, with their fields
    line    the number of the line in the text, from 1
    event   how many events there were up to this line, itself counted
    below   the number of the line that it stands below, and its own for a line that stands below none

`pandas.DataFrame(records)` reads them as they are: a column for each field, a row for each line.

    with meshtext.Mesh() as mesh:
        mesh.do("node 10.0.0.1")
        print(*mesh.do("show 10.0.0.1"), sep="\\n")

Mesh runs the program, and `do` answers the records of one line. Other names, each with a help of its own:

    Record, Reader                               a line; a text, for whoever gets its lines by and by
    Packet, Request, Reply, Error, Data          packets, as RFC 3561 lays them out; decode(bytes) makes one
    Ended, Refused, Full, NotAText, NotAPacket   what is raised, and why

This needs Python 3.8 and nothing else."""
import sys

if sys.version_info < (3, 8):
    sys.exit("meshtext needs Python 3.8 or later, and this is Python %d.%d" % sys.version_info[:2])

from ._text import Mesh, decode, kinds, program, records  # noqa: E402

TYPE_CHECKING = False
if TYPE_CHECKING:
    from ._text import Data, Ended, Error, Full, NotAPacket, NotAText, Packet, Reader, Record, Refused, Reply, Request

__version__ = "0.3.0"
__all__ = [
    "Data",
    "Ended",
    "Error",
    "Full",
    "Mesh",
    "NotAPacket",
    "NotAText",
    "Packet",
    "Reader",
    "Record",
    "Refused",
    "Reply",
    "Request",
    "decode",
    "kinds",
    "program",
    "records",
]


def __getattr__(name):
    """The other names, and the class of each kind, come when they are asked for, so that `help` tells no more than a
    reader wants at first."""
    from . import _text

    if name.startswith("_") or not isinstance(getattr(_text, name, None), type):
        raise AttributeError("module 'meshtext' has no attribute '%s'" % name)
    return getattr(_text, name)
