"""The command `json`."""
from __future__ import annotations

import json
from collections.abc import Iterator
from dataclasses import fields
from typing import BinaryIO

from tracing.events import Event
from tracing.reading import events_of


def objects(stream: BinaryIO) -> Iterator[str]:
    names = [part.name for part in fields(Event)]
    encoder = json.JSONEncoder(check_circular=False)
    for event, _ in events_of(stream):
        yield encoder.encode({name: value for name in names if (value := getattr(event, name)) is not None})
