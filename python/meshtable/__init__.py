"""The rows of sweeps: how a file of them is read, and the table and the plot that are made of them.

    import meshtable

    rows = list(meshtable.read("rows.csv"))
    print(meshtable.interval([int(row["delivered"]) for row in rows if row["variant"] == "reply"]))

A row is a dict by the names of HEAD, and all its values are text; `mesh sweep --help` says what they mean. Intervals
are those of Student's t, by a table up to 30 degrees of freedom, and beyond it by the normal's quantile with two
terms of Student's expansion, which has the same four digits."""
import sys

if sys.version_info < (3, 8):
    sys.exit("meshtable needs Python 3.8 or later, and this is Python %d.%d" % sys.version_info[:2])

from ._table import *  # noqa: E402, F403

__version__ = "0.3.0"
__all__ = [
    "Bad",
    "Run",
    "Table",
    "interval",
    "plot",
    "plot_script",
    "read",
    "row_of",
    "run_of",
    "shares",
]
