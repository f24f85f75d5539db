"""Messages with their numbers, and those about a call that did not come."""

from __future__ import annotations

from typing import Any, NamedTuple

from nuvatsimo.texts import actor_of


class Sent(NamedTuple):
    """A message, with its number as of `deliver K` in a script."""

    number: int
    text: str

    @property
    def to(self) -> str:
        """The actor that takes it."""
        return actor_of(self.text)

    def undelivered(self) -> str:
        """Returns the line that says that it did not come."""
        return f"message {self.number} is not delivered to {self.to}: {self.text}"

    def document(self) -> dict[str, Any]:
        """Returns the message for JSON."""
        return {"number": self.number, "to": self.to, "message": self.text}


class Undelivered:
    """The messages about one call that were sent and did not come since.

    Of equal ones it keeps the first.
    """

    def __init__(self) -> None:
        self._numbers: dict[str, int] = {}

    def come(self, message: str) -> None:
        """A message comes."""
        self._numbers.pop(message, None)

    def send(self, number: int, message: str) -> None:
        """A message is sent."""
        self._numbers.setdefault(message, number)

    def sent(self) -> list[Sent]:
        """Returns the messages that did not come."""
        return [Sent(number, message) for message, number in self._numbers.items()]
