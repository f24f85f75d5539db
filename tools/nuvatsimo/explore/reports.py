"""The texts of outcomes, in words and as JSON."""

from __future__ import annotations

from collections.abc import Iterator
from typing import Any

from nuvatsimo.explore.outcomes import Outcome, Outcomes, ToldCall
from nuvatsimo.explore.search import Found
from nuvatsimo.scripts import Script
from nuvatsimo.texts import json_line


def text_of_seeds(outcomes: Outcomes, seeds: int) -> str:
    """Returns the text of the outcomes of so many seeds."""
    lines = []
    for number, outcome in enumerate(outcomes.ordered(), 1):
        count, first = len(outcome.seeds), outcome.seeds[0]
        lines.append(f"outcome {number}: {count} of {seeds} seeds, first {first}")
        lines += calls_of(outcomes, outcome)
    lines += end_of(outcomes, "seeds", seeds)
    lines += stuck_of(outcomes)
    return "".join(f"{line}\n" for line in lines)


def text_of_all(outcomes: Outcomes, script: Script, found: Found) -> str:
    """Returns the text of the outcomes of every schedule."""
    lines = []
    for number, outcome in enumerate(outcomes.ordered(), 1):
        lines.append(f"outcome {number}")
        lines += calls_of(outcomes, outcome)
    lines += end_of(outcomes, "states", found.states)
    if not found.is_whole:
        of = f"{found.states} states were found"
        lines.append(f"not all schedules: {of}, and not all gone through")
    elif not outcomes.wanting():
        lines.append(f"no schedule of {found.states} states breaks what is expected")
    lines += stuck_of(outcomes)
    if found.schedule is not None:
        does = "breaks" if outcomes.breaking() else "comes to"
        lines += [f"a shortest schedule that {does} it:", script.shape.text, *found.schedule]
    return "".join(f"{line}\n" for line in lines)


def json_of_seeds(outcomes: Outcomes, seeds: int) -> str:
    """Returns the same as JSON."""
    told = [
        {
            "seeds": len(outcome.seeds),
            "first": outcome.seeds[0],
            "calls": [_document_of(call) for call in outcomes.told(outcome)],
        }
        for outcome in outcomes.ordered()
    ]
    document: dict[str, Any] = {
        "outcomes": told,
        "seeds": seeds,
        "expected": outcomes.expected(),
        "breaking": outcomes.breaking(),
        "open_in_each": outcomes.open_in_each(),
    }
    stuck = outcomes.stuck()
    if stuck:
        document["blocked"] = stuck
    return json_line(document)


def calls_of(outcomes: Outcomes, outcome: Outcome) -> Iterator[str]:
    """Yields the lines of the calls that are told of an outcome."""
    for told in outcomes.told(outcome):
        call = told.call
        asked = f"{call.node} {call.process} {call.operation.text}"
        expected = "" if told.expected is None else f", expected {told.expected}"
        yield f"  line {told.line}: {asked} -> {told.answer}{expected}"


def end_of(outcomes: Outcomes, of: str, many: int) -> Iterator[str]:
    """Yields the lines behind the outcomes of so many seeds or states."""
    count, expected, breaking = len(outcomes), outcomes.expected(), outcomes.breaking()
    open_lines = outcomes.open_in_each()
    if open_lines:
        yield f"open in each: {_named(open_lines)}"
    yield (
        f"outcomes {count}, {of} {many}, expected {expected}, breaking {breaking}, "
        f"open in each {len(open_lines)}"
    )


def stuck_of(outcomes: Outcomes) -> Iterator[str]:
    """Yields a line that tells which calls are blocked for good, if nothing expects it."""
    stuck = outcomes.stuck()
    if stuck:
        yield f"blocked for good, and not expected: {_named(stuck)}"


def _named(lines: list[int]) -> str:
    return ", ".join(f"line {line}" for line in lines)


def _document_of(told: ToldCall) -> dict[str, Any]:
    call = told.call
    document = {
        "line": told.line,
        "node": call.node,
        "process": call.process,
        "op": call.operation.text,
        "answer": told.answer,
    }
    return document if told.expected is None else {**document, "expected": told.expected}
