"""What the events up to some point have made."""
from __future__ import annotations

import bisect
from collections import Counter
from dataclasses import dataclass, field

from tracing.events import Event
from tracing.faults import Wrong
from tracing.keys import first_asked, is_source


@dataclass(slots=True)
class Transaction:
    """An open transaction, and the keys of its asks that were not left, by the index of the ask."""

    version: int
    asks: dict[int, str] = field(default_factory=dict)


@dataclass(slots=True)
class Epoch:
    """The time in which some transaction is open at a version: how many are, what is asked for, and what came up."""

    transactions: int = 0
    asked: Counter[str] = field(default_factory=Counter)
    seen: set[str] = field(default_factory=set)

    def leave(self, key: str) -> None:
        """One ask of a key less."""
        self.asked[key] -= 1
        if self.asked[key] == 0:
            del self.asked[key]


@dataclass
class Journal:
    """What the events so far have made. Transactions and asks are found by the index of their event."""

    newest: int = 0
    changed: dict[str, list[int]] = field(default_factory=dict)
    transactions: dict[int, Transaction] = field(default_factory=dict)
    asks: dict[int, int] = field(default_factory=dict)
    epochs: dict[int, Epoch] = field(default_factory=dict)

    def take(self, event: Event) -> None:
        """Takes in the next event, and gives it the version that it belongs to."""
        if event.event in ("commit", "open", "close", "ask", "leave"):
            getattr(self, event.event)(event)
        else:
            self.task(event)

    def commit(self, event: Event) -> None:
        self.newest += 1
        event.version = self.newest
        for path in event.paths:
            self.changed.setdefault(f"source {path}", []).append(self.newest)

    def open(self, event: Event) -> None:
        self.check_version(event.version)
        epoch = self.epochs.get(event.version)
        if epoch is None or epoch.transactions == 0:
            epoch = self.epochs[event.version] = Epoch()
        epoch.transactions += 1
        self.transactions[event.index] = Transaction(event.version)

    def close(self, event: Event) -> None:
        transaction = self.transaction(event.open)
        event.version = transaction.version
        epoch = self.epochs[transaction.version]
        epoch.transactions -= 1
        for key in transaction.asks.values():
            epoch.leave(key)
        del self.transactions[event.open]

    def ask(self, event: Event) -> None:
        transaction = self.transaction(event.open)
        event.version = transaction.version
        transaction.asks[event.index] = event.key
        self.asks[event.index] = event.open
        self.epochs[transaction.version].asked[event.key] += 1

    def leave(self, event: Event) -> None:
        transaction = self.transactions.get(self.asks.get(event.ask))
        if transaction is None or event.ask not in transaction.asks:
            raise Wrong(f"event {event.ask} is no ask that can be left")
        event.version = transaction.version
        self.epochs[transaction.version].leave(transaction.asks.pop(event.ask))

    def task(self, event: Event) -> None:
        """An event of a key; one that tells no version changes nothing here."""
        if event.version is None:
            return
        self.check_version(event.version)
        if event.base is not None:
            self.check_version(event.base)
        epoch = self.epochs.get(event.version)
        if epoch is None:
            raise Wrong(f"no transaction was opened at version {event.version}")
        epoch.seen.add(event.key)

    def transaction(self, index: int) -> Transaction:
        if index not in self.transactions:
            raise Wrong(f"event {index} is no open transaction")
        return self.transactions[index]

    def check_version(self, version: int) -> None:
        if version > self.newest:
            raise Wrong(f"there is no version {version} yet; the newest is {self.newest}")

    def changes(self, source: str, one: int, other: int) -> list[int]:
        """The commits after one version, up to the other, that changed a source; the versions may stand in either order."""
        versions = self.changed.get(source, [])
        low, high = sorted((one, other))
        return versions[bisect.bisect_right(versions, low) : bisect.bisect_right(versions, high)]

    def is_matched(self, keep: Event) -> bool:
        """Whether a key that is kept was surely not checked: nothing that it asks was looked at."""
        if keep.base == keep.version:
            return True
        below = first_asked(keep.key)
        if below is None or is_source(below):
            return below is not None and not self.changes(below, keep.base, keep.version)
        return below not in self.epochs[keep.version].seen
