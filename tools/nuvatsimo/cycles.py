"""Finds the cycles of waits among open calls."""

from __future__ import annotations

from typing import Callable

from nuvatsimo.places import World


# Returns the processes, as `p1@2.1`, that are an owner of locks, or share it.
Users = Callable[[str], list[str]]


def cycles_of(world: World, users: Users) -> list[tuple[list[str], bool]]:
    """Returns cycles in which each call waits for the next, and the last for the first.

    Those that only a failure or a signal ends come first. Behind them stand possible ones, with
    `False`: there a description is in the way that others share, who could unlock it.
    """
    certain = _walks(_without_ends(_waited_for(world, users, True)))
    possible = _walks(_without_ends(_waited_for(world, users, False)))
    met = {name for cycle in certain for name in cycle}
    others = [cycle for cycle in possible if met.isdisjoint(cycle)]
    return [(cycle, True) for cycle in certain] + [(cycle, False) for cycle in others]


def owners_in_the_way(world: World) -> set[str]:
    """Returns the owners of locks that waits wait for."""
    return {owner for name in world.calls for owner in _owners_before(world, name)}


def _walks(waits: dict[str, str]) -> list[list[str]]:
    """Returns the cycles. From each call, by node and arrival, one walks to the first that it
    waits for, until a call comes again."""
    met: set[str] = set()
    cycles = []
    for name in waits:
        walk: dict[str, int] = {}
        while name not in met and name not in walk:
            walk[name] = len(walk)
            name = waits[name]
        if name in walk:
            cycles.append(list(walk)[walk[name] :])
        met.update(walk)
    return cycles


def _order(name: str) -> tuple[int, ...]:
    return tuple(map(int, name.split(".")))


def _waited_for(world: World, users: Users, is_certain: bool) -> dict[str, list[str]]:
    """Returns the calls that each open call waits for, both by node and arrival."""
    names = sorted(world.calls, key=_order)
    by_process = {world.calls[name].process: at for at, name in enumerate(names)}
    found = {}
    for name in names:
        places = {
            by_process[process]
            for owner in _owners_before(world, name)
            for process in _helpers(users(owner), is_certain)
            if process in by_process
        }
        found[name] = [names[at] for at in sorted(places)]
    return found


def _owners_before(world: World, name: str) -> set[str]:
    """Returns the owners of the locks that a wait waits for."""
    call = world.calls[name]
    return {lock["owner"] for lock in world.blocking(call)} if call.asks == "wait" else set()


def _helpers(processes: list[str], is_certain: bool) -> list[str]:
    """Returns the processes that could unlock: with `is_certain` where nobody else could."""
    return [] if is_certain and len(processes) > 1 else processes


def _without_ends(waits: dict[str, list[str]]) -> dict[str, str]:
    """Leaves out the calls that wait for none that is left: of each other the first that is."""
    waiters: dict[str, list[str]] = {name: [] for name in waits}
    for name, waited in waits.items():
        for other in waited:
            waiters[other].append(name)
    count = {name: len(waited) for name, waited in waits.items()}
    ends = [name for name, left in count.items() if left == 0]
    gone = set(ends)
    while ends:
        for name in waiters[ends.pop()]:
            count[name] -= 1
            if count[name] == 0:
                gone.add(name)
                ends.append(name)
    left = (name for name in waits if name not in gone)
    return {name: next(it for it in waits[name] if it not in gone) for name in left}
