"""What the package meshtable is made of."""
from __future__ import annotations

import collections
import csv
import io
import math
import re
import statistics
import subprocess
from typing import Dict, Iterable, Iterator, List, NamedTuple, Optional, Sequence, Tuple, Union

from meshscript import Bad

VARIANTS = ["base", "number", "error", "reply"]
COUNTS = "events idle given delivered waiting queued flying lost copied".split()
HEAD = ["variant", "nodes", "steps", "seed", "end", *COUNTS, "command"]
HEAD_LINE = ",".join(HEAD) + "\n"
DONE = re.compile("done" + "".join(rf" {it} ([0-9]+)" for it in COUNTS[:-1]) + r"(?: copied ([0-9]+))?")
SHARES = ("delivered", "waiting", "lost")
# A number as the programs write it: below 2^64.
NUMBER = "0|[1-9][0-9]{0,19}"
# Student's t at 97.5 %, from one degree of freedom on.
T = [12.706, 4.303, 3.182, 2.776, 2.571, 2.447, 2.365, 2.306, 2.262, 2.228, 2.201, 2.179, 2.160, 2.145, 2.131]
T += [2.120, 2.110, 2.101, 2.093, 2.086, 2.080, 2.074, 2.069, 2.064, 2.060, 2.056, 2.052, 2.048, 2.045, 2.042]

Row = Dict[str, str]
Point = Tuple[str, str, float, Optional[float]]


class Run(NamedTuple):
    """What names a run among the others of its sweep."""

    variant: str
    nodes: str
    steps: str
    seed: str


# ---- rows


def row_of(run: Run, command: str, last: str) -> Row:
    """The row of a run, by the last line of its text."""
    found = DONE.fullmatch(last)
    counts = [it or "0" for it in found.groups()] if found else [""] * len(COUNTS)
    return dict(zip(HEAD, [*run, last.split()[0], *counts, command]))


def run_of(row: Row) -> Run:
    return Run(*(row[it] for it in Run._fields))


def line_of(row: Row, head: Sequence[str]) -> str:
    """The line of a row in a file with this head."""
    line = io.StringIO()
    csv.DictWriter(line, head, extrasaction="ignore", lineterminator="\n").writerow(row)
    return line.getvalue()


def is_row(cells: Sequence[str]) -> bool:
    if len(cells) != len(HEAD):
        return False
    row = dict(zip(HEAD, cells))
    counts = [row[it] for it in COUNTS]
    numbers = [row["seed"], row["nodes"] or "0", row["steps"] or "0", *(counts if row["end"] == "done" else [])]
    is_whole = row["end"] == "done" or (row["end"] in ("bad", "full") and not any(counts))
    return is_whole and all(re.fullmatch(NUMBER, it) for it in numbers)


def read(name: str, lines: Union[Iterable[str], None] = None) -> Iterator[Row]:
    """The rows of the file of this name, one by one, or of its lines. Bad at the first that is none."""
    if lines is None:
        # A spreadsheet may have written it, with a byte order mark.
        with open(name, newline="", encoding="utf-8-sig") as file:
            yield from read(name, file)
        return
    cells_of = csv.reader(lines, strict=True)
    try:
        if next(cells_of, None) != HEAD:
            raise Bad(f"{name} has no rows of a sweep: its first line isn't {HEAD_LINE.strip()}")
        for cells in cells_of:
            if not is_row(cells):
                raise Bad(f"{name}, line {cells_of.line_num}: no row of a sweep")
            yield dict(zip(HEAD, cells))
    except (csv.Error, UnicodeDecodeError) as error:
        raise Bad(f"{name}, line {cells_of.line_num}: {error}") from None


# ---- the table


def interval(values: Sequence[float]) -> Tuple[float, Optional[float]]:
    """The mean, and half of its 95 % interval, which a single value doesn't have."""
    if len(values) < 2:
        return statistics.fmean(values), None
    free, z = len(values) - 1, statistics.NormalDist().inv_cdf(0.975)
    t = T[free - 1] if free <= len(T) else z + (z**3 + z) / 4 / free + (5 * z**5 + 16 * z**3 + 3 * z) / 96 / free**2
    return statistics.fmean(values), t * statistics.stdev(values) / math.sqrt(len(values))


def cells_of(lists: Iterable[Sequence[float]]) -> str:
    """The mean and the interval of each list, side by side."""
    pairs = [interval(values) for values in lists] or [(None, None)] * len(SHARES)
    words = [["-" if it is None else f"{it:.2f}" for it in pair] for pair in pairs]
    return "  ".join(f"{mean:>7} ±{half:>6}" for mean, half in words)


def has_share(row: Row) -> bool:
    return row["given"] != "0"


def shares(row: Row) -> List[float]:
    """What became of the data, in percent of those given."""
    return [100 * int(row[it]) / int(row["given"]) for it in SHARES]


def order_of(word: str) -> Tuple[int, float, str]:
    """Known variants come in their order, and then numbers and words in theirs."""
    at = VARIANTS.index(word) if word in VARIANTS else len(VARIANTS)
    return (at, float(word), "") if re.fullmatch(r"[0-9]+(\.[0-9]+)?", word) else (at, math.inf, word)


class Table:
    """The rows that ended with a done line, by variant and number of nodes, and then by seed."""

    def __init__(self, rows: Iterable[Row], variants: Optional[List[str]] = None) -> None:
        found: Dict[Tuple[str, str], Dict[str, Row]] = collections.defaultdict(dict)
        self.odd = 0
        for row in rows:
            if row["end"] == "done":
                found[row["variant"], row["nodes"]][row["seed"]] = row
            else:
                self.odd += 1
        names = variants or sorted({it for it, _ in found}, key=order_of)
        self.groups = {it: found[it] for it in sorted(found, key=lambda it: (names.index(it[0]), int(it[1] or 0)))}
        self.width = max([8, *(len(it) for it, _ in self.groups)])

    def print(self) -> None:
        """Prints a line for each variant and number of nodes, and then the differences."""
        if self.odd:
            print(f"{self.odd} runs did not end with a done line, and are left out")
        if not self.groups:
            return
        head = f"{'variant':{self.width}} {'nodes':>5} {'runs':>6} {'given':>8}  "
        print("of the data given, in percent: mean ± half of its 95 % interval")
        print(head + "  ".join(f"{it:15}" for it in SHARES).rstrip())
        for (variant, nodes), rows in self.groups.items():
            given = statistics.fmean(int(row["given"]) for row in rows.values())
            cells = cells_of(zip(*(shares(row) for row in rows.values() if has_share(row))))
            print(f"{variant or '-':{self.width}} {nodes or '-':>5} {len(rows):6} {given:8.1f}  {cells}")
        self._print_differences()

    def _print_differences(self) -> None:
        """Prints a line for each variant after the first and number of nodes, over the seeds that both have."""
        first, lines = next(iter(self.groups), [""])[0], []
        for (variant, nodes), rows in self.groups.items():
            base = self.groups.get((first, nodes), {})
            both = [(base[it], row) for it, row in rows.items() if it in base]
            pairs = [pair for pair in both if all(map(has_share, pair))]
            if variant != first and pairs:
                cells = cells_of(zip(*([b - a for a, b in zip(*map(shares, pair))] for pair in pairs)))
                lines.append(f"{variant:{self.width}} {nodes or '-':>5} {len(pairs):6} {'':8}  {cells}")
        if lines:
            print(f"less those of {first} with the same seed, in points: mean ± half of its 95 % interval")
            print(*lines, sep="\n")

    def points(self) -> List[Point]:
        """The delivered share for a plot: variant, number of nodes, mean, half of the interval."""
        lists = {it: [shares(row)[0] for row in rows.values() if has_share(row)] for it, rows in self.groups.items()}
        return [(*it, *interval(values)) for it, values in lists.items() if values]


# ---- a plot


def span(values: Iterable[float]) -> str:
    """A range of an axis that has all values in it, and some room."""
    values = list(values)
    room = (max(values) - min(values)) / 20 or 1
    return f"[{min(values) - room:g}:{max(values) + room:g}]"


def quoted(text: str) -> str:
    return "'" + text.replace("'", "''") + "'"


def plot_script(points: Sequence[Point], axis: Optional[str] = None) -> str:
    """What gnuplot is told: a line for each variant over the nodes, or without nodes one over the variants. The axis
    of these has that name, if it is given."""
    names = list(dict.fromkeys(it[0] for it in points))
    is_over_nodes, are_numbers = any(it[1] for it in points), all(order_of(it)[1] < math.inf for it in names)
    lines: Dict[str, List[Tuple[float, float, float]]] = collections.defaultdict(list)
    for variant, nodes, mean, half in points:
        x = float(nodes or 0) if is_over_nodes else float(variant) if are_numbers else names.index(variant)
        lines[variant if is_over_nodes else ""].append((x, mean, half or 0))
    every = [it for line in lines.values() for it in line]
    said = ['set terminal svg size 720,480 background rgb "white"']
    name = axis or ("nodes" if is_over_nodes else "variant")
    said += [f"set xlabel {quoted(name)} noenhanced", "set ylabel 'delivered, % of the data given'"]
    said += [f"set xrange {span(x for x, _, _ in every)}", "set key outside" if is_over_nodes else "unset key"]
    said += [f"set yrange {span(mean + sign * half for _, mean, half in every for sign in (1, -1))}"]
    how = "yerrorlines"
    if not is_over_nodes and not are_numbers:
        said.append("set xtics (" + ", ".join(f"{quoted(it)} {at}" for at, it in enumerate(names)) + ")")
        how = "yerrorbars"
    said.append("plot " + ", ".join(f"'-' using 1:2:3 with {how} pointtype 7 title {quoted(it)}" for it in lines))
    for line in lines.values():
        said += [*(f"{x:g} {mean:g} {half:g}" for x, mean, half in sorted(line)), "e"]
    return "\n".join(said) + "\n"


def plot(points: Sequence[Point], axis: Optional[str] = None) -> bytes:
    """Draws the delivered share by gnuplot; answers the picture, which is empty where it isn't drawn."""
    drawn = subprocess.run(["gnuplot"], input=plot_script(points, axis).encode(), stdout=subprocess.PIPE)
    return b"" if drawn.returncode else drawn.stdout
