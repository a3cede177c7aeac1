"""Keys, as docs/FORMATS.md has them: a kind, a space and a name."""
from __future__ import annotations

import re
from collections.abc import Callable
from dataclasses import dataclass

from tracing.faults import Wrong, shown

SEGMENT = r"(?!\.\.?(?:[/:]|\Z))[A-Za-z0-9_\-.+=,@~]+"
PATH = rf"{SEGMENT}(?:/{SEGMENT})*"
LABEL = rf"//(?:{PATH})?:{PATH}"


@dataclass(frozen=True)
class Kind:
    """A kind of key: the pattern of its name, the key that it asks first, and whether it may ask others too."""

    pattern: re.Pattern[str]
    first: Callable[[str], str] | None
    asks_more: bool = False


def target_file_of(package: str) -> str:
    """The source that is a package's target file."""
    path = package.removeprefix("//")
    return f"source {path}/BUCK" if path else "source BUCK"


KINDS = {
    "source": Kind(re.compile(PATH), None),
    "package": Kind(re.compile(rf"//(?:{PATH})?"), target_file_of),
    "rule": Kind(re.compile(LABEL), lambda label: "package " + label.partition(":")[0]),
    "action": Kind(re.compile(LABEL), lambda label: f"rule {label}", asks_more=True),
    "digest": Kind(re.compile(LABEL), lambda label: f"action {label}"),
}


def first_asked(key: str) -> str | None:
    """The key that a key asks first; a source asks none."""
    kind, _, name = key.partition(" ")
    first = KINDS[kind].first
    return first(name) if first else None


def asks_more(key: str) -> bool:
    """Whether a key may ask others besides."""
    return KINDS[key.partition(" ")[0]].asks_more


def is_source(key: str) -> bool:
    return key.startswith("source ")


def key_named(kind: str, name: str) -> str:
    """The key of a kind and a name, as the trace writes it: `//a` is the label `//a:a`."""
    if kind not in KINDS:
        raise ValueError(f"{shown(kind)} is no kind of key; a kind is one of {', '.join(KINDS)}")
    if KINDS[kind].pattern.pattern == LABEL and name.startswith("//") and ":" not in name:
        name = f"{name}:{name[2:].rpartition('/')[2]}"
    if not KINDS[kind].pattern.fullmatch(name):
        raise ValueError(f"{shown(f'{kind} {name}')} is no key")
    return f"{kind} {name}"


class Keys(dict[str, str]):
    """The keys that were read so far, each once."""

    def __missing__(self, text: str) -> str:
        kind, _, name = text.partition(" ")
        if kind not in KINDS or not KINDS[kind].pattern.fullmatch(name):
            raise Wrong(f"{shown(text)} is no key")
        self[text] = text
        return text
