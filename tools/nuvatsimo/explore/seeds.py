"""Explores a script under the schedules of seeds."""

from __future__ import annotations

from concurrent.futures import ThreadPoolExecutor

from nuvatsimo.explore.left_open import left_behind
from nuvatsimo.explore.outcomes import NOT_MADE, Answers, Outcomes
from nuvatsimo.explore.schedules import Schedule, schedule_of
from nuvatsimo.progress import Progress
from nuvatsimo.scripts import Script

_SEEDS = 1 << 32
_BESIDE = 8
_AT_ONCE = 64


def explore_seeds(
    outcomes: Outcomes, script: Script, first: int, count: int, has_failures: bool
) -> None:
    """Finds what the calls come to under the schedules of so many seeds, from the first one on.

    Behind the greatest seed comes seed 0. Some schedules are made beside each other, as each
    waits for the program most of the time.
    """

    def came(step: int) -> Answers:
        schedule = schedule_of(script, (first + step) % _SEEDS, has_failures)
        return answers_in(outcomes, schedule)

    with Progress("exploring", count) as progress, ThreadPoolExecutor(_BESIDE) as pool:
        for start in range(0, count, _AT_ONCE):
            steps = range(start, min(count, start + _AT_ONCE))
            for step, answers in zip(steps, pool.map(came, steps)):
                outcomes.come(answers).seeds.append((first + step) % _SEEDS)
                progress.at(step + 1)


def answers_in(outcomes: Outcomes, schedule: Schedule) -> Answers:
    """Returns what the calls of the script come to in a schedule."""
    came = {entry.answered: entry.reply for entry in reversed(schedule.entries) if entry.answered}
    tries = _tries_in(schedule)
    open_calls = [it for its in tries.values() for it in its if it[0] != "r" and it not in came]
    if open_calls:
        left = left_behind(schedule.head, schedule.entries)
        came.update((call, left.answer(call, schedule.is_whole)) for call in open_calls)
    next_of = {process: iter(its) for process, its in tries.items()}
    answers = []
    for expected in outcomes.calls:
        call = expected.call
        tried = next(next_of.get((call.node, call.process), iter(())), NOT_MADE)
        answers.append(came.get(tried, tried))
    return tuple(answers)


def _tries_in(schedule: Schedule) -> dict[tuple[int, int], list[str]]:
    """Returns what became of the calls of each process: the name of each, or its refusal."""
    names = (entry.event for entry in schedule.entries if entry.event.startswith("call "))
    tries: dict[tuple[int, int], list[str]] = {}
    for at, line in enumerate(schedule.lines):
        if not line.startswith("call "):
            continue
        _, node, process, _ = line.split(" ", 3)
        refusal = schedule.refusals.get(at)
        told = f"refused {refusal}" if refusal else next(names).split(" ", 2)[1]
        tries.setdefault((int(node), int(process)), []).append(told)
    return tries
