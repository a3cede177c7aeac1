"""The input: the lines of an output, and then a trace."""
from __future__ import annotations

import re
from collections.abc import Iterator
from dataclasses import dataclass
from typing import BinaryIO

from tracing.events import Event, EventReader
from tracing.faults import Fault, Wrong, shown
from tracing.journal import Journal

# The lines of an output, but for that of an action, which a text follows.
ANSWERS = re.compile(
    r"commit \d+"
    r"|open [\w\-]+ \d+"
    r"|[\w\-]+ \d+ (?:[0-9a-f]{64}|cancelled|cycle .+|fault (?:no-package|bad-file|no-target|no-source) .+)",
    re.ASCII,
)
ACTION = re.compile(r"[\w\-]+ \d+ action (0|[1-9][0-9]{0,18})", re.ASCII)
COUNT = re.compile(r"trace (0|[1-9][0-9]{0,19})", re.ASCII)
REFUSED = re.compile(r"script too long|line \d+: [a-z]+", re.ASCII)


@dataclass
class Lines:
    """The lines of the input, with the number of the one that was read last."""

    stream: BinaryIO
    number: int = 0

    def next(self) -> str | None:
        """The next line without its line feed, or None at the end."""
        line = self.stream.readline()
        if not line:
            return None
        self.number += 1
        if not line.endswith(b"\n"):
            raise self.fault("the input ends within this line; it is cut off")
        return line[:-1].decode("latin-1")

    def skip(self, count: int) -> None:
        """Skips the text of an action."""
        while count > 0:
            part = self.stream.read(min(count, 1 << 20))
            if not part:
                raise self.fault("the input ends within the text of this action; it is cut off")
            self.number += part.count(b"\n")
            count -= len(part)

    def fault(self, what: str) -> Fault:
        return Fault(f"line {max(self.number, 1)}: {what}")


def count_of_trace(lines: Lines) -> int:
    """Reads the answers before the trace, and returns how many events it says it has."""
    while (line := lines.next()) is not None:
        if found := COUNT.fullmatch(line):
            return int(found[1])
        if found := ACTION.fullmatch(line):
            lines.skip(int(found[1]))
        elif REFUSED.fullmatch(line):
            raise lines.fault(f"{shown(line)}: the script was refused, so there is no trace")
        elif not ANSWERS.fullmatch(line):
            raise lines.fault(f"{shown(line)} is no line of an output, and not `trace COUNT`, with which a trace begins")
    if lines.number == 0:
        raise lines.fault("the input is empty; it has to be what `dice run --trace` prints")
    raise lines.fault("the input ends without a line `trace COUNT`; `dice run --trace` prints one")


def events_of(stream: BinaryIO) -> Iterator[tuple[Event, Journal]]:
    """The events of the trace in the stream, each with the journal up to it."""
    lines = Lines(stream)
    count = count_of_trace(lines)
    reader = EventReader()
    journal = Journal()
    for index in range(count):
        line = lines.next()
        if line is None:
            raise lines.fault(f"the input ends after {index} of {count} events; it is cut off")
        try:
            event = reader.read(index, line)
            journal.take(event)
        except Wrong as wrong:
            raise lines.fault(str(wrong)) from None
        yield event, journal
    if lines.next() is not None:
        raise lines.fault(f"there are more lines than the {count} events of `trace {count}`")
