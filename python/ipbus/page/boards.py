"""The boards behind the page: each has a connection and a thread of its own, so that none waits for another."""

from __future__ import annotations

import concurrent.futures
import contextlib
import time
from collections.abc import Callable
from dataclasses import dataclass
from typing import Any

from ipbus.documents import Document
from ipbus.errors import BadLine, ConnectionEnded, Garbled, IpbusError, LinkLost, TimedOut
from ipbus.hub import Hub
from ipbus.nodes import Node
from ipbus.page.lamps import Lamp
from ipbus.registers import Register
from ipbus.values import Result

# words that one read of a block or a port shows at most
MOST_WORDS = 4096
# an operation with one of these errors may have been executed
UNCERTAIN = (TimedOut, LinkLost, ConnectionEnded, Garbled)


@dataclass(frozen=True)
class Sample:
    """What one read of a register came to: when (seconds of the clock), its word or words, or an error."""

    at: float
    value: int | list[int] | None
    error: str = ""
    told: str = ""

    def as_json(self) -> list[object]:
        """What the page is told."""
        return [self.at, self.value, self.error, self.told]


def sample_of(result: Result) -> Sample:
    """The sample of a read whose dispatch has ended."""
    error = result.error
    if error is not None:
        return Sample(time.time(), None, type(error).__name__, str(error))
    value = result.value()
    return Sample(time.time(), list(value) if isinstance(value, (list, tuple)) or hasattr(value, "__len__") else int(value))


def asked(node: Node) -> Result:
    """Asks for what a register shows: a word, or the words of a block or a port."""
    if node.mode in ("block", "port"):
        return node.readBlock(min(node.size, MOST_WORDS))
    return node.read()


class PageBoard:
    """A board of the page. Its calls are done one after another, in its own thread."""

    def __init__(self, document: Document, name: str, host: str, port: int, seconds: float, mtu: int) -> None:
        self.name = name
        self.lamp = Lamp()
        self._hub = Hub(document, host, port, mtu, seconds, connect=False)
        self.registers: dict[str, Register] = self._hub.board(name).table.registers
        self._thread = concurrent.futures.ThreadPoolExecutor(1, thread_name_prefix=name)
        self.is_polled = False

    def node(self, name: str) -> Node:
        """The register of this name, as an `IpbusError` tells where there is none."""
        return self._hub.board(self.name).node(name)

    def submit(self, call: Callable[..., Any], *words: Any) -> concurrent.futures.Future:
        """Has a call done in the board's thread, behind those that wait."""
        return self._thread.submit(call, *words)

    def read(self, names: list[str]) -> dict[str, Sample]:
        """Reads these registers in one dispatch. Called in the board's thread."""
        results: dict[str, Result] = {}
        samples: dict[str, Sample] = {}
        for name in names:
            try:
                results[name] = asked(self.node(name))
            except IpbusError as error:
                samples[name] = Sample(time.time(), None, type(error).__name__, str(error))
        self._dispatch(list(results.values()))
        samples.update((name, sample_of(result)) for name, result in results.items())
        return samples

    def write(self, name: str, words: list[int]) -> dict[str, object]:
        """Writes a register once, and never again by itself. Called in the board's thread."""
        node = self.node(name)
        if node.mode not in ("block", "port") and len(words) != 1:
            raise BadLine(f"{node.path} takes one word, and {len(words)} are given")
        result = node.writeBlock(words) if node.mode in ("block", "port") else node.write(words[0])
        self._dispatch([result])
        error = result.error
        if error is None:
            return {"done": True}
        # of several words the first ones may stand there, whatever became of the last
        is_uncertain = isinstance(error, UNCERTAIN) or len(words) > 1
        return {"done": False, "error": type(error).__name__, "told": str(error), "uncertain": is_uncertain}

    def _dispatch(self, results: list[Result]) -> None:
        if not results:
            return
        with contextlib.suppress(IpbusError):  # the results tell
            self._hub.dispatch()
        self.lamp.show(result.error for result in results)

    def close(self) -> None:
        """Ends the thread and the connection."""
        self._thread.shutdown(wait=False, cancel_futures=True)
        self._hub.close()
