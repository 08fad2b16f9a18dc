"""The toolchain's command `rt` as a Python module: its parts do what no command of it does by itself."""
import functools
import importlib.machinery
import importlib.util
import operator
import os
import shutil
import sys
import threading
from concurrent.futures import FIRST_COMPLETED, ThreadPoolExecutor, wait

sys.dont_write_bytecode = True


def find(*parts):
    """Returns the module and None; or None and what is missing, in words, where there is no rt of Python or it
    lacks one of these parts, as `rtlib.lock`."""
    command = shutil.which("rt")
    if not command:
        return None, "there is no rt on the PATH"
    loader = importlib.machinery.SourceFileLoader("rt", os.path.realpath(command))
    rt = importlib.util.module_from_spec(importlib.util.spec_from_loader("rt", loader))
    sys.modules["rt"] = rt
    try:
        loader.exec_module(rt)
    except (SyntaxError, UnicodeDecodeError):
        return None, f"{command} is no program of Python"
    missing = [it for it in parts if not has(rt, it)]
    return (None, f"{command} has no {', '.join(missing)}") if missing else (rt, None)


def has(rt, part):
    try:
        operator.attrgetter(part)(rt)
    except AttributeError:
        return False
    return True


def ask_once(rtlib):
    """Has this rt answer what it asks of a crate and of all below it once for each question. Some kits do so once
    for each path that leads down in crates.txt, and there are tens of thousands."""
    sum_of, answers = rtlib.Crate.stamp, threading.local()

    def stamp(crate):
        if hasattr(answers, "sums"):
            if crate.folder not in answers.sums:
                answers.sums[crate.folder] = sum_of(crate)
            return answers.sums[crate.folder]
        answers.sums = {}
        try:
            return stamp(crate)
        finally:
            del answers.sums

    rtlib.Crate.stamp = stamp
    rtlib.Crate.below = functools.cache(rtlib.Crate.below)


def load(*parts):
    """Returns the module, or None where there is no rt of Python or it lacks one of these parts."""
    return find(*parts)[0]


def lanes(memory):
    """As many commands as there are processors for, and memory of so many bytes for each; at least one."""
    with open("/proc/meminfo", encoding="ascii") as it:
        free = next(1024 * int(line.split()[1]) for line in it if line.startswith("MemAvailable:"))
    return max(1, min(len(os.sched_getaffinity(0)), free // memory))


def chains(crates):
    """How many lines stand in the longest chain of crates that begins at each, with those above it."""
    behind = {it.name: it.count(rb"\n") for it in crates}
    for crate in reversed(crates):
        for it in crate.below():
            if it.name in behind:
                behind[it.name] = max(behind[it.name], it.count(rb"\n") + behind[crate.name])
    return behind


def side_by_side(crates, memory, prove, tell):
    """Calls `prove` of each crate, of which those below another stand before it: as many side by side as there are
    processors, and memory of so many bytes for each, first those that most others wait for. It gives a status and
    what was said, which `tell` is told with the crate and how many are done. False where a status wasn't 0."""
    count, behind, names = lanes(memory), chains(crates), {it.name for it in crates}
    left, running, done = sorted(crates, key=lambda it: -behind[it.name]), {}, set()
    with ThreadPoolExecutor(count) as pool:
        while left or running:
            ready = [it for it in left if done.issuperset(names.intersection(below.name for below in it.below()))]
            for crate in ready[: count - len(running)]:
                left.remove(crate)
                running[pool.submit(prove, crate)] = crate
            for it in wait(running, return_when=FIRST_COMPLETED).done:
                crate, (status, said) = running.pop(it), it.result()
                done.add(crate.name)
                tell(crate, status, said, len(done))
                if status:
                    return False
    return True
