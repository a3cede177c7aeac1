"""Events, and the lines that say them."""
from __future__ import annotations

import re
from dataclasses import dataclass, field

from tracing.faults import Wrong, shown
from tracing.keys import KINDS, Keys

NUMBER = re.compile(r"0|[1-9][0-9]{0,19}")


@dataclass(slots=True)
class Event:
    """An event, and its index in the trace. What its line does not have is None; `Journal.take` adds the version."""

    index: int
    event: str
    version: int | None = None
    key: str | None = None
    cause: str | None = None
    base: int | None = None
    other: str | None = None
    by: int | None = None
    open: int | None = None
    ask: int | None = None
    paths: list[str] | None = None


# What a field is called in docs/FORMATS.md. `key` and `other` have two words, `cause` its own fields after it, and
# `paths` all words up to the end. Any other field is a number.
FIELDS = {
    "version": "V",
    "key": "KEY",
    "cause": "CAUSE",
    "base": "BASE",
    "other": "KEY",
    "by": "BY",
    "open": "OPEN",
    "ask": "ASK",
    "paths": "PATH ..",
}

# The word of an event, and the fields that follow it.
EVENTS = {
    "commit": ("by", "paths"),
    "open": ("by", "version"),
    "close": ("by", "open"),
    "ask": ("by", "open", "key"),
    "leave": ("by", "ask"),
    "start": ("version", "key", "cause"),
    "keep": ("version", "key", "base"),
    "end": ("version", "key"),
    "cyclic": ("version", "key"),
    "drop": ("version", "key"),
    "lost": ("version", "key"),
}


@dataclass(frozen=True)
class Cause:
    """A cause of a start: the fields that follow its word, and how a sentence tells it."""

    fields: tuple[str, ...]
    since: str


CAUSES = {
    "new": Cause((), "it had no value before"),
    "transient": Cause(("base",), "its value of version {base} holds at that version alone"),
    "differs": Cause(("base", "other"), "{other} differs from version {base}"),
}


class Numbers(dict[str, int]):
    """The numbers that were read so far."""

    def __missing__(self, word: str) -> int:
        if not NUMBER.fullmatch(word):
            raise Wrong(f"{shown(word)} is no number")
        self[word] = int(word)
        return self[word]


def paths_of(words: list[str]) -> list[str]:
    for word in words:
        if not KINDS["source"].pattern.fullmatch(word):
            raise Wrong(f"{shown(word)} is no path")
    if not words:
        raise IndexError
    return words


def form_of(word: str) -> str:
    """How the line of an event looks."""
    form = " ".join([word, *(FIELDS[name] for name in EVENTS[word])])
    if "cause" not in EVENTS[word]:
        return f"`{form}`"
    causes = (" ".join([name, *(FIELDS[part] for part in cause.fields)]) for name, cause in CAUSES.items())
    return f"`{form}`, and CAUSE is one of " + ", ".join(f"`{cause}`" for cause in causes)


@dataclass
class EventReader:
    """Reads the lines of events, one after the other."""

    keys: Keys = field(default_factory=Keys)
    numbers: Numbers = field(default_factory=Numbers)

    def read(self, index: int, line: str) -> Event:
        words = line.split(" ")
        if words[0] not in EVENTS:
            raise Wrong(f"{shown(words[0])} is no event; an event is one of {', '.join(EVENTS)}")
        event = Event(index, words[0])
        try:
            end = self.fill(event, EVENTS[words[0]], words, 1)
        except IndexError:
            raise Wrong(f"{shown(line)} has too few words; the form is {form_of(words[0])}") from None
        except Wrong as wrong:
            raise Wrong(f"{wrong} in {shown(line)}; the form is {form_of(words[0])}") from None
        if end < len(words):
            raise Wrong(f"{shown(line)} has too many words; the form is {form_of(words[0])}")
        return event

    def fill(self, event: Event, names: tuple[str, ...], words: list[str], at: int) -> int:
        """Reads these fields from the words from `at` on, and returns where they end."""
        for name in names:
            if name in ("key", "other"):
                setattr(event, name, self.keys[f"{words[at]} {words[at + 1]}"])
                at += 2
            elif name == "cause":
                cause = CAUSES.get(words[at])
                if cause is None:
                    raise Wrong(f"{shown(words[at])} is no cause")
                event.cause = words[at]
                at = self.fill(event, cause.fields, words, at + 1)
            elif name == "paths":
                event.paths = paths_of(words[at:])
                at = len(words)
            else:
                setattr(event, name, self.numbers[words[at]])
                at += 1
        return at


def line_of(event: Event) -> str:
    """The line of an event, as the trace has it."""
    words = [event.event]
    for name in EVENTS[event.event]:
        if name == "paths":
            words += event.paths
            continue
        words.append(str(getattr(event, name)))
        if name == "cause":
            words += [str(getattr(event, part)) for part in CAUSES[event.cause].fields]
    return " ".join(words)
