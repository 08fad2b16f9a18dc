"""What the package meshchart is made of."""
from __future__ import annotations

import html
import math
from typing import Iterator, List, NamedTuple, Sequence, Tuple

Point = Tuple[float, float, float]

WIDTH, LEFT, RIGHT, TOP, BELOW = 800, 96, 24, 64, 48
FIRST, LATER = 400, 300
LETTERS, SMALL = 24, 22
ROW = 38
COLOURS = ["#1b6ca8", "#7a5195", "#3c8d53", "#c8553d"]
STYLE = f"text{{font-family:sans-serif;font-size:{SMALL}px;fill:#222}}"
SIZE, ASIDE = 7, 9


class Line(NamedTuple):
    name: str
    kind: int
    dashed: bool
    points: List[Point]


class Panel(NamedTuple):
    """What the heights are, the lines, and between which values these can be."""

    name: str
    lines: List[Line]
    bounds: Tuple[float, float]


class Axis:
    """A stretch of values, by round numbers, and where they lie in the picture."""

    def __init__(self, values: Sequence[float], low: float, high: float, bounds: Tuple[float, float], count: int):
        least, most = min(values), max(values)
        room = (most - least) * 0.06 or 1
        # Each of the values lies in the picture, whatever the bounds are.
        self.least, self.most = min(least, max(bounds[0], least - room)), max(most, min(bounds[1], most + room))
        self.low, self.high, self.count = low, high, count

    def at(self, value: float) -> float:
        return self.low + (value - self.least) / (self.most - self.least) * (self.high - self.low)

    def marks(self) -> List[float]:
        """Round numbers of the stretch."""
        rough = (self.most - self.least) / self.count
        unit = 10 ** math.floor(math.log10(rough))
        step = next(it * unit for it in (1, 2, 5, 10) if it * unit >= rough * 0.999)
        first = math.ceil(self.least / step - 1e-9)
        return [step * it for it in range(first, math.floor(self.most / step + 1e-9) + 1)]


def shown(said: str) -> str:
    """A text as it stands in a picture: a character that XML doesn't have is shown as one that is none."""
    return html.escape("".join(it if it.isprintable() else "\N{REPLACEMENT CHARACTER}" for it in said))


def text(x: float, y: float, said: str, more: str = "") -> str:
    return f'<text x="{x:.1f}" y="{y:.1f}"{more}>{shown(said)}</text>'


def stroke(x: float, y: float, to_x: float, to_y: float, colour: str, width: float = 1) -> str:
    ends = f'x1="{x:.1f}" y1="{y:.1f}" x2="{to_x:.1f}" y2="{to_y:.1f}"'
    return f'<line {ends} stroke="{colour}" stroke-width="{width:g}"/>'


def mark(line: Line, x: float, y: float) -> str:
    """The mark of a line's kind: a disc, a diamond, a triangle or a square."""
    colour = COLOURS[line.kind % len(COLOURS)]
    paint = f'fill="{"white" if line.dashed else colour}" stroke="{colour}" stroke-width="2.5"'
    s, left, right, up, down = SIZE, x - SIZE + 1, x + SIZE - 1, y - SIZE + 1, y + SIZE - 1
    shapes = [
        "",
        f"{x:.1f},{y - s - 1:.1f} {x + s + 1:.1f},{y:.1f} {x:.1f},{y + s + 1:.1f} {x - s - 1:.1f},{y:.1f}",
        f"{x:.1f},{y - s:.1f} {x + s:.1f},{y + s - 1:.1f} {x - s:.1f},{y + s - 1:.1f}",
        f"{left:.1f},{up:.1f} {right:.1f},{up:.1f} {right:.1f},{down:.1f} {left:.1f},{down:.1f}",
    ]
    shape = shapes[line.kind % len(shapes)]
    if shape:
        return f'<polygon points="{shape}" {paint}/>'
    return f'<circle cx="{x:.1f}" cy="{y:.1f}" r="{s - 1}" {paint}/>'


def path(line: Line, places: Sequence[Tuple[float, float]]) -> str:
    dashes = ' stroke-dasharray="9 6"' if line.dashed else ""
    points = " ".join(f"{x:.1f},{y:.1f}" for x, y in places)
    colour = COLOURS[line.kind % len(COLOURS)]
    return f'<polyline points="{points}" fill="none" stroke="{colour}" stroke-width="3"{dashes}/>'


def drawn(line: Line, x_axis: Axis, y_axis: Axis, aside: float) -> Iterator[str]:
    """A line with its intervals and marks, a little aside of where it is, so that lines which are alike are seen."""
    colour = COLOURS[line.kind % len(COLOURS)]
    yield path(line, [(x_axis.at(x) + aside, y_axis.at(mean)) for x, mean, _ in line.points])
    for x, mean, half in line.points:
        at = x_axis.at(x) + aside
        low, high = (y_axis.at(min(max(mean + sign * half, y_axis.least), y_axis.most)) for sign in (-1, 1))
        yield stroke(at, low, at, high, colour, 2)
        for end in (low, high):
            yield stroke(at - 6, end, at + 6, end, colour, 2)
        yield mark(line, at, y_axis.at(mean))


def panel_of(panel: Panel, kinds: List[int], x_axis: Axis, top: float, bottom: float) -> Iterator[str]:
    points = [it for line in panel.lines for it in line.points]
    ends = [mean + sign * half for _, mean, half in points for sign in (-1, 1)]
    values = [min(max(it, panel.bounds[0]), panel.bounds[1]) for it in ends] + [mean for _, mean, _ in points]
    y_axis = Axis(values, bottom, top, panel.bounds, 5)
    yield text(LEFT - 70, top - 24, panel.name, f' style="font-size:{LETTERS}px"')
    for value in y_axis.marks():
        yield stroke(LEFT, y_axis.at(value), WIDTH - RIGHT, y_axis.at(value), "#999" if value == 0 else "#ddd")
        yield text(LEFT - 10, y_axis.at(value) + 8, f"{value:g}", ' text-anchor="end"')
    for value in x_axis.marks():
        yield stroke(x_axis.at(value), bottom, x_axis.at(value), bottom + 7, "#222")
        yield text(x_axis.at(value), bottom + 32, f"{value:g}", ' text-anchor="middle"')
    yield stroke(LEFT, bottom, WIDTH - RIGHT, bottom, "#222", 1.5)
    for line in panel.lines:
        yield from drawn(line, x_axis, y_axis, ASIDE * (kinds.index(line.kind) - (len(kinds) - 1) / 2))


def legend(lines: Sequence[Line], top: float) -> Iterator[str]:
    """The names of the lines, two in a row."""
    for count, line in enumerate(lines):
        x, y = 30 + count % 2 * (WIDTH / 2 - 10), top + count // 2 * ROW
        yield path(line, [(x, y - 8), (x + 56, y - 8)])
        yield mark(line, x + 28, y - 8)
        yield text(x + 70, y, line.name)


def picture(title: str, panels: Sequence[Panel], x_name: str) -> str:
    """The picture: all panels have the same x."""
    every = [line for panel in panels for line in panel.lines]
    xs, kinds = [x for line in every for x, _, _ in line.points], sorted({it.kind for it in every})
    x_axis = Axis(xs, LEFT, WIDTH - RIGHT, (-math.inf, math.inf), 6)
    said, top = [text(26, 38, title, f' style="font-size:{LETTERS + 2}px;font-weight:bold"')], TOP + 44.0
    for count, panel in enumerate(panels):
        bottom = top + (LATER if count else FIRST) - BELOW - 58
        said += panel_of(panel, kinds, x_axis, top, bottom)
        top = bottom + BELOW + 58
    middle, large = (LEFT + WIDTH - RIGHT) / 2, f' text-anchor="middle" style="font-size:{LETTERS}px"'
    said.append(text(middle, top - 30, x_name, large))
    said += legend(panels[0].lines, top + 18)
    height = top + 18 + (len(panels[0].lines) + 1) // 2 * ROW - 8
    size = f'width="{WIDTH}" height="{height:.0f}" viewBox="0 0 {WIDTH} {height:.0f}"'
    head = [f'<svg xmlns="http://www.w3.org/2000/svg" {size} role="img">', f"<title>{shown(title)}</title>"]
    head += [f"<style>{STYLE}</style>", f'<rect width="{WIDTH}" height="{height:.0f}" fill="white"/>']
    return "\n".join([*head, *said, "</svg>"]) + "\n"
