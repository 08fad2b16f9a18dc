"""Pictures of shares over rates, as SVG text: lines with marks and intervals, one panel below another.

    import meshchart

    line = meshchart.Line("base", 0, False, [(0, 99.6, 0.2), (10, 63.1, 2.5)])
    print(meshchart.picture("A grid", [meshchart.Panel("delivered, %", [line], (0, 100))], "copies lost, %"))

A point is its x, its mean and half of its interval. The kind of a line, from 0 on, decides its colour and its mark; a
dashed line has hollow marks. Letters are large, so that a picture can be read at 400 pixels of width."""
import sys

if sys.version_info < (3, 8):
    sys.exit("meshchart needs Python 3.8 or later, and this is Python %d.%d" % sys.version_info[:2])

from ._chart import *  # noqa: E402, F403

__version__ = "0.3.0"
__all__ = [
    "Axis",
    "Line",
    "Panel",
    "picture",
]
