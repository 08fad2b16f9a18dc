"""A text of a run, read apart from the page that plays it, and what the page shows, compared with it; for
checks/page."""
import re

from browser import fail

EVENTS = "data turn send ask link cut deliver lose copy place move".split()


class Text:
    """A text: for each step its block, the blocks of the nodes as they were last shown, the copies in flight, and
    what of the counts can be counted here."""

    def __init__(self, text):
        self.nodes, self.steps, self.last = [], [({}, frozenset())], ""
        self.blocks, self.counts, self.made, self.kinds = [("", [])], [], 0, {}
        self.sums = dict.fromkeys(("given", "delivered", "lost", "copies", "flying"), 0)
        self.counts.append(dict(self.sums))
        shown, flying = {}, set()
        for head, below in re.findall(r"^(\S.*)\n((?: .*\n)*)", text, re.M):
            word, lines = head.split(" ")[0], below.splitlines()
            if word == "node":
                self.nodes.append(head.split()[1])
            elif word == "show":
                shown = {**shown, head.split()[1]: lines}
                self.steps[-1] = (shown, self.steps[-1][1])
            elif word in EVENTS:
                flying = self.fly(head, lines, flying)
                self.steps.append((shown, flying))
                self.blocks.append((head, lines))
                self.count(word, lines, flying)
            elif word in ("done", "bad", "full"):
                self.last = head

    def fly(self, head, lines, flying):
        """The copies in flight after the event; those that it makes are of the kind that it sends, or doubles."""
        copies = {it.split()[1] for it in lines if it.startswith("  copy ")}
        sent = [it.split()[-1][:2] for it in lines if it.startswith("  sent ")]
        word, one = head.split(" ")[:2]
        self.made += len(copies)
        self.kinds.update(dict.fromkeys(copies, sent[0] if sent else self.kinds.get(one)))
        return (flying | copies) - ({one} if word in ("deliver", "lose") and "  idle" not in lines else set())

    def count(self, word, lines, flying):
        self.sums["given"] += word == "data"
        for line, name in (("  delivered ", "delivered"), ("  dropped ", "lost")):
            self.sums[name] += sum(it.startswith(line) for it in lines)
        self.sums["copies"], self.sums["flying"] = len(flying), sum(self.kinds[it] == "10" for it in flying)
        self.counts.append(dict(self.sums))

    def actor(self, step):
        """The node that acts in a step, and all that have a part in it: those that act, send or hear."""
        head, lines = self.blocks[step]
        words = head.split(" ")
        landed = [it.split()[1:] for it in lines if it.startswith(("  heard ", "  lost "))]
        own = words[1:3] if words[0] in ("link", "cut") else words[1:2]
        others = [it.split()[2] for it in lines if it.startswith("  copy ")]
        return (landed[0][1], landed[0]) if landed else (words[1], own + others)

    def ends(self, step, goal):
        """For each node how its next hops end: `arrives`, `stuck`, `none`, or `goal`."""
        hops = {}
        for node, block in self.steps[step][0].items():
            for line in block:
                if line.startswith(f"  entry {goal} ") and line.split()[4] == "val":
                    hops[node] = line.split()[6]
        ends = {}
        for node in self.nodes:
            at, way = node, [node]
            while at != goal and at in hops and hops[at] not in way:
                at = hops[at]
                way.append(at)
            ends[node] = "none" if node not in hops else "arrives" if at == goal else "stuck"
            if node == goal:
                ends[node] = "goal"
        return ends


# What the page shows now: the step, the counts, the node with its table and facts, the copies in flight, and for each
# node its rings and whether it is an octagon.
SHOWN = """(() => {
  const text = it => [...it.childNodes].filter(part => part.nodeType === 3).map(part => part.data).join('');
  const counts = [...document.querySelectorAll('#counts [data-count]')];
  return { step: document.getElementById('step-name').textContent,
    line: document.getElementById('line-name').textContent, time: document.getElementById('time').textContent,
    node: document.getElementById('node').selectedOptions[0].text,
    goal: document.getElementById('goal').selectedOptions[0].text,
    counts: Object.fromEntries(counts.map(it => [it.dataset.count, it.querySelector('b').textContent])),
    titles: Object.fromEntries(counts.map(it => [it.dataset.count, it.title])),
    rows: [...document.querySelectorAll('#table tbody tr')].map(row => [...row.cells].map(text)),
    shapes: [...document.querySelectorAll('#mesh .node')].map(it => [it.querySelector('title').textContent,
      it.querySelectorAll('circle').length, it.querySelectorAll('path.body').length]),
    facts: document.getElementById('facts').innerText, asked: document.getElementById('asked-name').textContent,
    air: document.getElementById('air-name').textContent, now: document.querySelector('.block.now').innerText };
})()"""
SHAPES = {"goal": [1, 0], "none": [1, 0], "arrives": [2, 0], "stuck": [0, 1]}


def rows_of(block):
    """The rows of the table that a block of lines says."""
    rows = []
    for line in block:
        if line.startswith("  entry "):
            to, number, known, flag, hops, after, precursors = line.split()[1:]
            rows.append(
                [to, number, known, {"val": "valid", "inv": "invalid"}[flag], hops, after, precursors.replace(",", " ")]
            )
    return rows


def compare(name, shown, text, step):
    """Compares what the page shows at a step with the text."""
    blocks, flying = text.steps[step]
    where = f"{name}, step {step}"
    if shown["step"] != f"step {step} of {len(text.steps) - 1}":
        fail(f"{where}: the page is at {shown['step']}")
    block = blocks.get(shown["node"], [])
    if shown["rows"] != rows_of(block):
        fail(f"{where}: the table of {shown['node']} is {shown['rows']} and should be {rows_of(block)}")
    if block and f"sequence number {block[0].split()[1]}" not in re.sub(r"\d+ → ", "", shown["facts"]):
        fail(f"{where}: {shown['facts']}, and not {block[0]}")
    waits = [line.split()[1:] for line in block if line.startswith("  waits ")]
    told = sorted(re.findall(r"(\d+) wait for (\S+?)(, to be asked for)?(?=\s|$)", shown["facts"]))
    if told != sorted((count, to, ", to be asked for" if flag == "req" else "") for to, flag, count in waits):
        fail(f"{where}: {told}, and not {waits}")
    count = sum(line.startswith("  asked ") for line in block)
    if not shown["asked"].startswith(f"{count} "):
        fail(f"{where}: {shown['asked']}, and not {count}")
    if not shown["air"].startswith(f"{len(flying)} "):
        fail(f"{where}: {shown['air']}, and not {len(flying)}")
    compare_counts(where, {name: int(count) for name, count in shown["counts"].items()}, text.counts[step])
    for node, end in text.ends(step, shown["goal"]).items():
        if [node, *SHAPES[end]] not in shown["shapes"]:
            fail(f"{where}: {node} is {end}, and not drawn so: {shown['shapes']}")


def compare_counts(where, shown, counted):
    """Copies of all kinds, and data as the line `done` counts them, for which its sum holds at each step."""
    for name, count in counted.items():
        if shown[name] != count:
            fail(f"{where}: {name} is {shown[name]} and should be {count}")
    ends = [shown[name] for name in ("delivered", "waiting", "queued", "flying", "lost")]
    if shown["given"] + shown.get("copied", 0) != sum(ends):
        fail(f"{where}: the counts don't add up: {shown}")


def lines_of(schedule, text):
    """For each step of a text of mesh run, the number of its line of the schedule, and the line."""
    rows = [(i, line) for i, line in enumerate(schedule.split("\n"), 1) if line and not line.startswith("#")]
    lines, row, in_auto = [None], -1, False
    for head in re.findall(r"^\S.*$", text, re.M):
        word = head.split(" ")[0]
        if head.startswith("auto did "):
            in_auto = False
        elif not in_auto and word not in ("done", "bad", "full"):
            row += 1
            in_auto = word == "auto"
        if word in EVENTS:
            lines.append(rows[row])
    return lines


def walk(browser, name, text, lines=None):
    """Steps through by key, and compares; at the end, all nodes and the counts."""
    browser.press("Home")
    for step in range(len(text.steps)):
        shown = browser.ask(SHOWN)
        compare(name, shown, text, step)
        wanted = f"line {lines[step][0]}: {lines[step][1]}" if lines and step else ""
        if lines and (not shown["line"] and step or not wanted.startswith(shown["line"].rstrip("…"))):
            fail(f"{name}, step {step}: {shown['line']}, and not {lines[step]}")
        browser.press("ArrowRight")
    browser.press("End")
    for _ in text.nodes:
        shown = browser.ask(SHOWN)
        compare(name, shown, text, len(text.steps) - 1)
        browser.press("j")
    words = text.last.split()
    if words[0] == "done":
        counts = dict(zip(words[1::2], words[2::2]), copies=str(len(text.steps[-1][1])))
        if shown["counts"] != counts:
            fail(f"{name}: the counts are {shown['counts']} and should be {counts}")
    elif text.last not in shown["now"]:
        fail(f"{name}: the last line isn't shown: {text.last}")
