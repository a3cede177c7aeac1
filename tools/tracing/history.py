"""What became of keys."""
from __future__ import annotations

from dataclasses import dataclass, field
from typing import BinaryIO

from tracing.events import Event
from tracing.journal import Journal
from tracing.reading import events_of


@dataclass(slots=True)
class Task:
    """A key at a version: the event with which it came up there, and what became of it."""

    began: Event
    fate: str
    after: Event | None = None
    asked: bool = False
    needing: int = 0
    needed_by: str | None = None


@dataclass(frozen=True)
class Fate:
    """What can become of a key: its column in the statistics, its colour in the graph, and how a sentence goes on."""

    column: str
    colour: str
    tail: str


FATES = {
    "running": Fate("", "lightyellow", ", and had not ended when the trace ends"),
    "end": Fate("ended", "lightblue", ""),
    "kept": Fate("kept", "palegreen", ""),
    "matched": Fate("matched", "mediumseagreen", ""),
    "cyclic": Fate("cyclic", "salmon", ", and came to no value, since it reaches a cycle"),
    "drop": Fate("dropped", "lightgray", ", and was dropped, since nobody waited for it after `{after}`"),
    "lost": Fate("lost", "orange", ", and was given up, since memory was refused"),
}


@dataclass
class History:
    """The whole trace, by keys."""

    journal: Journal = field(default_factory=Journal)
    tasks: dict[str, list[Task]] = field(default_factory=dict)
    asks: list[Event] = field(default_factory=list)
    left: set[int] = field(default_factory=set)
    commits: list[list[str]] = field(default_factory=list)
    running: dict[tuple[int, str], Task] = field(default_factory=dict)
    last: Event | None = None

    def take(self, event: Event, journal: Journal) -> None:
        self.journal = journal
        if event.event == "commit":
            self.commits.append(event.paths)
        elif event.event == "ask":
            self.asks.append(event)
        elif event.event == "leave":
            self.left.add(event.ask)
        elif event.event == "start":
            self.running[event.version, event.key] = self.begin(event, "running")
        elif event.event == "keep":
            self.begin(event, "matched" if journal.is_matched(event) else "kept")
        elif event.event in FATES:
            self.end(event)
        if event.event != "drop":
            self.last = event

    def begin(self, event: Event, fate: str) -> Task:
        asked = self.journal.epochs[event.version].asked
        task = Task(event, fate, asked=event.key in asked, needing=len(asked))
        task.needed_by = next(iter(asked), None)
        self.tasks.setdefault(event.key, []).append(task)
        return task

    def end(self, event: Event) -> None:
        """A key ended; it need not have been started, if it was checked."""
        task = self.running.pop((event.version, event.key), None) or self.begin(event, event.event)
        task.fate = event.event
        task.after = self.last if event.event == "drop" else None

    def before(self, key: str, event: Event) -> Task | None:
        """The last task of a key at an event's version before it; of the event's own key, one that did more than go on."""
        for task in reversed(self.tasks.get(key, [])):
            began = task.began
            if began.version == event.version and began.index < event.index:
                if key != event.key or began.event != "keep" or began.base != began.version:
                    return task
        return None

    def versions(self, key: str) -> list[int]:
        """The versions at which the trace has something of a key."""
        asked = {ask.version for ask in self.asks if ask.key == key}
        came_up = {task.began.version for task in self.tasks.get(key, [])}
        return sorted(asked | came_up | set(self.journal.changed.get(key, [])))


def history_of(stream: BinaryIO) -> History:
    history = History()
    for event, journal in events_of(stream):
        history.take(event, journal)
    return history
