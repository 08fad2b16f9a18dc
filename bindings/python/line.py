"""A datum goes down a line of five routers, each of which has only its neighbours near."""
from contextlib import ExitStack

from aodv import Outcome, Router

ADDRS = [f"10.0.0.{it}" for it in range(1, 6)]


def near(i):
    """The places beside router i."""
    return [it for it in (i - 1, i + 1) if 0 <= it < len(ADDRS)]


def cast(routers, i, outcome: Outcome):
    """Tells what router i has done, and hands its packet to those near that it goes to."""
    if outcome.delivered:
        print(f'{ADDRS[i]} has "{outcome.body.decode()}"')
    for it in near(i):
        if outcome.goes_to(ADDRS[it]):
            routers[it].hear(ADDRS[i], outcome.packet)


def act(routers, i):
    """All that router i may do now. False where that is nothing."""
    router, beside, acted = routers[i], [ADDRS[it] for it in near(i)], False
    while router.items():
        cast(routers, i, router.turn(beside))
        acted = True
    for dest in router.sendable():
        cast(routers, i, router.send(beside, dest))
        acted = True
    for dest in router.askable():
        cast(routers, i, router.ask(dest))
        acted = True
    return acted


with ExitStack() as stack:
    line = [stack.enter_context(Router(ADDRS, me)) for me in ADDRS]
    line[0].give(ADDRS[-1], b"hello")
    while any([act(line, it) for it in range(len(line))]):
        pass
