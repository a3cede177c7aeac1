"""The command `dot`."""
from __future__ import annotations

from collections.abc import Iterator
from dataclasses import dataclass, field

from tracing.events import Event
from tracing.faults import NoAnswer
from tracing.history import FATES, History, Task
from tracing.keys import first_asked


def quoted(text: str) -> str:
    """A text as Graphviz reads it back."""
    return '"' + text.replace("\\", "\\\\").replace('"', '\\"').replace("\n", "\\n") + '"'


def node(version: int, key: str) -> str:
    return quoted(f"{version} {key}")


@dataclass
class Graph:
    """What was asked for and came up, at one version or at all."""

    history: History
    version: int | None
    nodes: dict[int, dict[str, str]] = field(default_factory=dict)
    edges: dict[str, None] = field(default_factory=dict)
    commits: set[int] = field(default_factory=set)

    def lines(self) -> Iterator[str]:
        if self.version is not None and self.version > self.history.journal.newest:
            raise NoAnswer(f"the trace has no version {self.version}; its newest is {self.history.journal.newest}")
        asks = [ask for ask in self.history.asks if self.is_drawn(ask.version)]
        tasks = [task for of_key in self.history.tasks.values() for task in of_key if self.is_drawn(task.began.version)]
        for ask in asks:
            self.put(ask.version, ask.key, "asked", "white")
        for task in tasks:
            self.put(task.began.version, task.began.key, self.words_of(task), FATES[task.fate].colour)
        for task in tasks:
            self.reason(task)
        for ask in asks:
            word = "left" if ask.index in self.history.left else "asks"
            self.edge(quoted(f"open {ask.open}"), node(ask.version, ask.key), word)
        yield "digraph trace {"
        yield "    rankdir=LR"
        yield "    node [shape=box, style=filled, fillcolor=white]"
        yield from self.clusters(asks)
        yield from (f"    {edge}" for edge in self.edges)
        yield "}"

    def is_drawn(self, version: int) -> bool:
        return self.version is None or version == self.version

    def put(self, version: int, key: str, words: str, colour: str) -> None:
        """Puts a node, in place of one that the key has there."""
        label = quoted(f"{key}\n{words}" if words else key)
        self.nodes.setdefault(version, {})[key] = f"{node(version, key)} [label={label}, fillcolor={colour}]"

    def words_of(self, task: Task) -> str:
        event = task.began
        if event.event == "keep":
            return f"{task.fate}, from {event.base}"
        fate = FATES[task.fate].column or "not ended"
        return f"{event.cause}, {fate}" if event.event == "start" else fate

    def reason(self, task: Task) -> None:
        """The edges of a task: to the key that differs, to the version it is kept from, and to the key it asks first."""
        event = task.began
        here = node(event.version, event.key)
        if event.other is not None:
            if event.other not in self.nodes[event.version]:
                self.put(event.version, event.other, "", "white")
            self.edge(here, node(event.version, event.other), f"differs from {event.base}")
            for commit in self.history.journal.changes(event.other, event.base, event.version):
                self.commits.add(commit)
                self.edge(node(event.version, event.other), quoted(f"commit {commit}"), "changed by")
        if event.event == "keep" and event.base != event.version and event.key in self.nodes.get(event.base, {}):
            self.edge(here, node(event.base, event.key), "kept")
        below = first_asked(event.key)
        if below != event.other and below in self.nodes[event.version]:
            self.edge(here, node(event.version, below), "")

    def edge(self, one: str, other: str, word: str) -> None:
        """An edge, drawn once; the one to the key that is asked first has no word, and is dotted."""
        styles = {"": "[style=dotted]", "kept": "[label=kept, style=dashed]", "left": "[label=left, style=dashed]"}
        self.edges[f"{one} -> {other} {styles.get(word, f'[label={quoted(word)}]')}"] = None

    def clusters(self, asks: list[Event]) -> Iterator[str]:
        opened = {ask.open: ask.version for ask in asks}
        for version in sorted(self.nodes):
            yield f"    subgraph {quoted(f'cluster {version}')} {{"
            yield f"        label={quoted(f'version {version}')}"
            yield from (f"        {line}" for line in self.nodes[version].values())
            yield "    }"
        for index, version in opened.items():
            label = quoted(f"transaction {index}\nversion {version}")
            yield f"    {quoted(f'open {index}')} [label={label}, shape=ellipse]"
        for commit in sorted(self.commits):
            yield f"    {quoted(f'commit {commit}')} [shape=ellipse]"
