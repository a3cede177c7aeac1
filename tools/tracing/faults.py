"""What can be wrong with an input, and with a question."""
from __future__ import annotations


class Wrong(Exception):
    """What is wrong with a line of the trace."""


class Fault(Exception):
    """The input is no trace, and this is why."""


class NoAnswer(Exception):
    """The trace does not have what was asked for."""


def shown(text: str) -> str:
    """A text of the input as a message has it: short, and without bytes that a terminal acts upon."""
    escaped = text.encode("unicode_escape").decode()
    return f"`{escaped}`" if len(escaped) <= 70 else f"`{escaped[:67]}..`"
