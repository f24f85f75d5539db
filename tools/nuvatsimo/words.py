"""Reads the words of a command line, and prints the help of a command.

A command says in a `Command` what it takes. Words that it doesn't take end with status 2 and
a text of usage on standard error.
"""

from __future__ import annotations

import re
from dataclasses import dataclass
from typing import Any, Callable, Optional

from nuvatsimo import faults

MORE = "\n\nFor more information, try '--help'.\n"
NUMBER_MAX = 4294967295


@dataclass(frozen=True)
class Argument:
    """A word without a flag. With `many` it takes one word or more."""

    key: str
    value: str
    about: str
    many: bool = False

    def shown(self) -> str:
        return f"<{self.value}>..." if self.many else f"<{self.value}>"


@dataclass(frozen=True)
class Option:
    """A flag, or with a `value` a flag and its value. `read` makes the value from its text."""

    flag: str
    about: str
    value: Optional[str] = None
    read: Callable[[str], Any] = str
    default: Any = None
    many: bool = False

    @property
    def key(self) -> str:
        return self.flag[2:].replace("-", "_")

    def shown(self) -> str:
        return f"{self.flag} <{self.value}>" if self.value else self.flag


@dataclass(frozen=True)
class Command:
    """What a command takes, and its help. `text` stands behind the options in the long help."""

    name: str
    about: str
    arguments: tuple[Argument, ...]
    options: tuple[Option, ...] = ()
    text: str = ""

    def parse(self, words: list[str]) -> Parsed:
        """Reads the words behind the command. Help and bad words end it by a fault."""
        return _Reading(self, words).result()

    def usage(self, used: Optional[list[str]] = None) -> str:
        """Returns the line of usage: of all options, or of the used ones alone."""
        options = ["[OPTIONS]"] if used is None else used
        shown = [argument.shown() for argument in self.arguments]
        return " ".join(["Usage: lockreplay", self.name, *options, *shown])

    def help(self) -> str:
        """Returns the long help, as of `--help`."""
        lines = [self.about, "", self.usage(), "", "Arguments:"]
        for argument in self.arguments:
            lines += [f"  {argument.shown()}", f"          {argument.about}", ""]
        lines.append("Options:")
        for option in self.options:
            lines += [f"      {option.shown()}", f"          {option.about}"]
            if option.default is not None:
                lines += ["          ", f"          [default: {option.default}]"]
            lines.append("")
        lines += ["  -h, --help", "          Print help (see a summary with '-h')"]
        return "\n".join(lines) + "\n" + (f"\n{self.text}" if self.text else "")

    def summary(self) -> str:
        """Returns the short help, as of `-h`."""
        width = max(len(argument.shown()) for argument in self.arguments)
        lines = [self.about, "", self.usage(), "", "Arguments:"]
        lines += [f"  {it.shown():<{width}}  {it.about}" for it in self.arguments]
        lines += ["", "Options:"]
        width = max([len(option.shown()) for option in self.options] + [len("--help")])
        for option in self.options:
            default = "" if option.default is None else f" [default: {option.default}]"
            lines.append(f"      {option.shown():<{width}}  {option.about}{default}")
        lines.append(f"  -h, {'--help':<{width}}  Print help (see more with '--help')")
        return "\n".join(lines) + "\n"

    def refuse(self, reason: str) -> faults.Fault:
        """Returns the fault of words that don't go together. The reason tells which."""
        return _refused(f"{reason}\n\nUsage: lockreplay <COMMAND>")


class Parsed:
    """What the words say: an attribute for each argument, and for each option without `--`.

    An option that was left out is its default, or None, or False where it takes no value.
    """

    def __init__(self, values: dict[str, Any]) -> None:
        self.__dict__.update(values)

    def __getattr__(self, key: str) -> Any:
        raise AttributeError(key)


def number(least: int = 0, most: int = NUMBER_MAX) -> Callable[[str], int]:
    """Returns a reader of option values that are whole numbers within these limits."""

    def read(text: str) -> int:
        if not text:
            raise ValueError("cannot parse integer from empty string")
        if not re.fullmatch(r"[+-]?[0-9]+", text):
            raise ValueError("invalid digit found in string")
        if not least <= int(text) <= most:
            raise ValueError(f"{int(text)} is not in {least}..={most}")
        return int(text)

    return read


class _Reading:
    """Reads words from left to right."""

    def __init__(self, command: Command, words: list[str]) -> None:
        self._command = command
        self._left = list(words)
        self._options = {option.flag: option for option in command.options}
        self._given: dict[str, Any] = {}
        self._bare: list[str] = []

    def result(self) -> Parsed:
        while self._left:
            word = self._left.pop(0)
            if word == "--":
                for bare in self._left:
                    self._take_bare(bare)
                break
            if word in ("-h", "--help"):
                text = self._command.summary() if word == "-h" else self._command.help()
                raise faults.Fault(faults.DONE, output=text)
            if word.startswith("--"):
                self._take_option(word)
            elif word.startswith("-") and word != "-":
                raise self._unexpected(word[:2], "", None)
            else:
                self._take_bare(word)
        return Parsed({**self._arguments(), **self._values()})

    def _used(self) -> list[str]:
        return [self._options[flag].shown() for flag in self._given]

    def _take_option(self, word: str) -> None:
        flag, equals, value = word.partition("=")
        option = self._options.get(flag)
        if option is None:
            raise self._unknown_flag(flag)
        if flag in self._given and not option.many:
            text = f"the argument '{option.shown()}' cannot be used multiple times"
            raise _refused(f"{text}\n\n{self._command.usage()}")
        if option.value is None:
            if equals:
                text = f"unexpected value '{value}' for '{flag}' found; no more were expected"
                self._given[flag] = True
                raise _refused(f"{text}\n\n{self._command.usage(self._used())}")
            self._given[flag] = True
            return
        self._given.setdefault(flag, []).append(self._value(option, bool(equals), value))

    def _value(self, option: Option, is_here: bool, value: str) -> Any:
        if not is_here:
            following = self._left[0] if self._left else None
            if following is None or (following.startswith("--") and len(following) > 2):
                shown = option.shown()
                raise _refused(f"a value is required for '{shown}' but none was supplied")
            if following.startswith("-") and following != "-":
                raise self._unexpected(following[:2], "", None)
            value = self._left.pop(0)
        try:
            return option.read(value)
        except ValueError as error:
            shown = option.shown()
            raise _refused(f"invalid value '{value}' for '{shown}': {error}") from None

    def _take_bare(self, word: str) -> None:
        arguments = self._command.arguments
        if len(self._bare) >= len(arguments) and not (arguments and arguments[-1].many):
            text = f"unexpected argument '{word}' found"
            raise _refused(f"{text}\n\n{self._command.usage()}")
        self._bare.append(word)

    def _unknown_flag(self, flag: str) -> faults.Fault:
        import difflib

        known = [*self._options, "--help"]
        near = difflib.get_close_matches(flag, known, 1, 0.75)
        if near:
            tip = f"a similar argument exists: '{near[0]}'"
            option = self._options.get(near[0])
            used = self._used() + [option.shown() if option else near[0]]
            return self._unexpected(flag, tip, list(dict.fromkeys(used)))
        used = self._used() if self._given or self._bare else None
        return self._unexpected(flag, "", used)

    def _unexpected(self, flag: str, tip: str, used: Optional[list[str]]) -> faults.Fault:
        tip = tip or f"to pass '{flag}' as a value, use '-- {flag}'"
        text = f"unexpected argument '{flag}' found\n\n  tip: {tip}"
        return _refused(f"{text}\n\n{self._command.usage(used)}")

    def _arguments(self) -> dict[str, Any]:
        arguments = self._command.arguments
        missing = arguments[len(self._bare) :]
        if missing:
            lines = "".join(f"\n  {argument.shown()}" for argument in missing)
            text = f"the following required arguments were not provided:{lines}"
            raise _refused(f"{text}\n\n{self._command.usage(self._used())}")
        found: dict[str, Any] = {}
        for at, argument in enumerate(arguments):
            found[argument.key] = self._bare[at:] if argument.many else self._bare[at]
        return found

    def _values(self) -> dict[str, Any]:
        found: dict[str, Any] = {}
        for flag, option in self._options.items():
            given = self._given.get(flag)
            if option.value is None:
                found[option.key] = bool(given)
            elif option.many:
                found[option.key] = given or []
            else:
                found[option.key] = given[0] if given else option.default
        return found


def _refused(text: str) -> faults.Fault:
    return faults.Fault(faults.WORDS_REFUSED, f"error: {text}{MORE}")
