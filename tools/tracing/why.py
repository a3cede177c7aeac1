"""The command `why`."""
from __future__ import annotations

from collections.abc import Iterator
from dataclasses import dataclass

from tracing.events import CAUSES, Event, line_of
from tracing.faults import NoAnswer
from tracing.history import FATES, History, Task
from tracing.keys import asks_more, first_asked, is_source


def listed(things: list, most: int = 6) -> str:
    """`1, 2 and 3`; of many things the first, and how many more there are."""
    texts = [str(thing) for thing in things]
    if len(texts) > most:
        texts = [*texts[: most - 1], f"{len(things) - most + 1} more"]
    return " and ".join([", ".join(texts[:-1]), texts[-1]]) if len(texts) > 1 else texts[0]


def commits_named(versions: list[int]) -> str:
    return f"commit{'s' if len(versions) > 1 else ''} {listed(versions)}"


# How a sentence tells of a key that was not started, by what became of it.
UNSTARTED = {
    "cyclic": "has no value at version {version}, since it reaches a cycle",
    "drop": "was dropped at version {version} before it was started, since nobody waited for it after `{after}`",
    "lost": "was given up at version {version} before it was started, since memory was refused",
}


@dataclass(frozen=True)
class Why:
    """Tells why a key came up at a version, and goes down to the commit that was the reason."""

    history: History

    def tell(self, key: str, version: int | None) -> Iterator[str]:
        if version is not None and version > self.history.journal.newest:
            raise NoAnswer(f"the trace has no version {version}; its newest is {self.history.journal.newest}")
        versions = self.history.versions(key)
        if not versions:
            raise NoAnswer(f"the trace has no key {key}")
        if is_source(key):
            return self.source(key, version)
        tasks = self.history.tasks.get(key, [])
        if version is None:
            version = max((task.began.version for task in tasks), default=versions[-1])
        if version not in versions:
            has = f"version{'s' if len(versions) > 1 else ''} {listed(versions, 20)}"
            raise NoAnswer(f"the trace has nothing of {key} at version {version}; it has it at {has}")
        found = [task for task in tasks if task.began.version == version]
        if not found:
            return iter([f"{key} was asked for at version {version}, and nothing else is told of it there."])
        return self.chain(found)

    def source(self, key: str, version: int | None) -> Iterator[str]:
        newest = self.history.journal.newest if version is None else version
        changes = self.history.journal.changes(key, 0, newest)
        if not changes:
            raise NoAnswer(f"no commit up to version {newest} changed {key}")
        yield f"{key} has at version {newest} what commit {changes[-1]} gave it."
        if changes[:-1]:
            yield f"Before that it was changed by {commits_named(changes[:-1])}."

    def chain(self, found: list[Task]) -> Iterator[str]:
        """The sentences of the last of these tasks, which are of one key at one version, and of what was its reason."""
        task = found[-1]
        yield self.sentence(task)
        if len(found) > 1:
            yield f"It came up {len(found)} times at version {task.began.version}; this is the last of them."
        if task.began.event == "keep":
            yield from self.last_computed(task)
        while True:
            yield from self.ending(task)
            below = self.below(task)
            if below is None:
                return
            event = task.began
            if is_source(below):
                yield self.changed(below, event.base, event.version)
                return
            task = self.history.before(below, event)
            if task is None:
                yield f"The trace does not tell what became of {below} at version {event.version}."
                return
            yield self.sentence(task)

    def below(self, task: Task) -> str | None:
        """The key that the reason goes on with."""
        event = task.began
        if event.event == "start":
            return event.other
        if event.event == "keep" and event.base == event.version:
            return event.key
        return first_asked(event.key) if task.fate == "kept" else None

    def sentence(self, task: Task) -> str:
        event = task.began
        if event.event == "keep":
            return self.kept(task)
        after = line_of(task.after) if task.after else "the beginning"
        if event.event == "start":
            verb = "computed" if task.fate == "end" else "started"
            since = CAUSES[event.cause].since.format(base=event.base, other=event.other)
            tail = FATES[task.fate].tail.format(after=after)
            return f"{event.key} was {verb} at version {event.version}, since {since}{tail}."
        unstarted = UNSTARTED.get(event.event, "ended at version {version}, and the trace has no start of it there")
        return f"{event.key} {unstarted.format(version=event.version, after=after)}."

    def kept(self, task: Task) -> str:
        event = task.began
        if event.base == event.version:
            return f"{event.key} was kept at version {event.version}: an earlier transaction at this version had it."
        head = f"{event.key} was kept at version {event.version}, as it was at version {event.base}"
        below = first_asked(event.key)
        if below is None:
            return f"{head}."
        if task.fate == "kept":
            asked = f"{below} and all else that it asks" if asks_more(event.key) else below
            return f"{head}: {asked} made no difference."
        if is_source(below):
            return f"{head}: no commit between them changed {below}."
        return f"{head}, without a look at {below}."

    def ending(self, task: Task) -> Iterator[str]:
        """What there is to say after the sentence of a task at which the reason may end."""
        event = task.began
        if event.event == "start" and event.other is None:
            yield self.wanted(task)
        if task.fate == "matched" and event.base != event.version:
            yield self.between(event)

    def wanted(self, task: Task) -> str:
        if task.asked:
            return "It was asked for itself."
        if task.needing == 1:
            return f"It is needed by {task.needed_by}, the only key asked for then."
        return f"It is needed by one of the {task.needing} keys asked for then."

    def between(self, keep: Event) -> str:
        """What was committed between the versions of a keep."""
        low, high = sorted((keep.base, keep.version))
        paths = sorted({path for commit in self.history.commits[low:high] for path in commit})
        commits = commits_named(list(range(low + 1, high + 1)))
        return f"Between the versions {commits} changed {'sources' if len(paths) > 1 else 'source'} {listed(paths)}."

    def last_computed(self, task: Task) -> Iterator[str]:
        """When a key that was kept was computed."""
        tasks = self.history.tasks[task.began.key]
        earlier = (other for other in reversed(tasks) if other.fate == "end" and other.began.index < task.began.index)
        computed = next(earlier, None)
        if computed is not None and computed.began.version != task.began.version:
            yield f"It was last computed at version {computed.began.version}."

    def changed(self, source: str, base: int, version: int) -> str:
        changes = self.history.journal.changes(source, base, version)
        if not changes:
            return f"No commit between versions {base} and {version} changed {source}."
        return f"{source} was changed by {commits_named(changes)}."
