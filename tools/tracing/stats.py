"""The command `stats`."""
from __future__ import annotations

from collections import Counter, defaultdict
from collections.abc import Iterator
from typing import BinaryIO

from tracing.events import CAUSES, Event
from tracing.history import FATES
from tracing.journal import Journal
from tracing.reading import events_of


def columns() -> list[str]:
    return ["asked", "left", *CAUSES, *(fate.column for fate in FATES.values() if fate.column)]


def column_of(event: Event, journal: Journal) -> str | None:
    """The column that counts an event."""
    if event.event == "start":
        return event.cause
    if event.event == "keep":
        return "matched" if journal.is_matched(event) else "kept"
    if event.event in FATES:
        return FATES[event.event].column
    return {"ask": "asked", "leave": "left"}.get(event.event)


def share_reused(count: Counter[str]) -> str:
    reused = count["kept"] + count["matched"]
    values = reused + count["ended"]
    return f"{100 * reused / values:.1f} %" if values else "-"


def stats(stream: BinaryIO) -> Iterator[str]:
    """The table: a row for each version that something happened at, and one for all."""
    counts: dict[int, Counter[str]] = defaultdict(Counter)
    for event, journal in events_of(stream):
        column = column_of(event, journal)
        if column is not None:
            counts[event.version][column] += 1
    rows = [["version", *columns(), "reused"]]
    for version in sorted(counts):
        rows.append(row_of(str(version), counts[version]))
    rows.append(row_of("all", sum(counts.values(), Counter())))
    widths = [max(map(len, column)) for column in zip(*rows)]
    for row in rows:
        yield "  ".join(cell.rjust(width) for cell, width in zip(row, widths))


def row_of(name: str, count: Counter[str]) -> list[str]:
    return [name, *(str(count[column]) for column in columns()), share_reused(count)]
