"""Shows registers again and again: a line for each, with the time."""

from __future__ import annotations

import contextlib
import itertools
import time

from ipbus.errors import IpbusError
from ipbus.hub import Hub
from ipbus.values import Value


def _shown(value: Value) -> str:
    error = value.error
    return f"{value:#010x} {value}" if error is None else f"{type(error).__name__}: {error}"


def watch(hub: Hub, paths: list[str], every: float = 1.0, count: int | None = None) -> None:
    """Prints these registers every so many seconds, so often or until an interruption. If the hub does not answer the
    lines say so, and the next round tries again."""
    nodes = [hub.node(path) for path in paths]
    hub.connect()
    due = time.monotonic()
    for number in itertools.count(1):
        values = [node.read() for node in nodes]
        with contextlib.suppress(IpbusError):  # the lines tell
            hub.dispatch()
        for path, value in zip(paths, values):
            print(f"{time.strftime('%H:%M:%S')} {path} {_shown(value)}", flush=True)
        if number == count:
            return
        due = max(due + every, time.monotonic())
        time.sleep(max(0.0, due - time.monotonic()))
