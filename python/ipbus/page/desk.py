"""What the page can ask for: the document, the state, reads, writes and watches. Each call takes and gives plain values."""

from __future__ import annotations

import concurrent.futures
import time
from collections.abc import Mapping
from typing import Any

from ipbus.documents import MTU, Document
from ipbus.errors import BadLine, IpbusError, Refused
from ipbus.packets import WHOLE
from ipbus.page.boards import MOST_WORDS, PageBoard
from ipbus.page.watches import Watches

MOST_READ = 1000
# a dispatch at a board, and how long a request waits for one, in seconds
SECONDS = 30.0
WAIT = 60.0


class NotAsked(Exception):
    """A request that is out of form or not allowed: nothing was sent. Its text says what to do."""


class ReadOnly(NotAsked):
    """A write at a page that only reads."""


def text_of(given: Mapping[str, Any], key: str) -> str:
    """A text of a request."""
    value = given.get(key)
    if not isinstance(value, str) or len(value) > 1000:
        raise NotAsked(f"the request has no text {key}")
    return value


def words_of(given: Mapping[str, Any]) -> list[int]:
    """The words of a write: whole numbers of 32 bits, one at least."""
    words = given.get("words")
    if not isinstance(words, list) or not 1 <= len(words) <= MOST_WORDS:
        raise NotAsked(f"a write has 1 to {MOST_WORDS} words")
    if not all(isinstance(word, int) and not isinstance(word, bool) and 0 <= word <= WHOLE for word in words):
        raise NotAsked("each word of a write is a whole number from 0 to 0xffffffff")
    return words


class Desk:
    """The boards of a document at a hub, for any number of browsers."""

    def __init__(self, document: Document, title: str, host: str, port: int, may_write: bool, mtu: int = MTU) -> None:
        self.title = title
        self.may_write = may_write
        self._boards = {name: PageBoard(document, name, host, port, SECONDS, mtu) for name in document.boards}
        self._watches = Watches(self._boards)

    def document(self) -> dict[str, object]:
        """The boards with their registers, and what the page may do."""
        boards = [{"name": board.name, "registers": self._registers(board)} for board in self._boards.values()]
        return {"title": self.title, "mayWrite": self.may_write, "boards": boards}

    @staticmethod
    def _registers(board: PageBoard) -> list[list[object]]:
        return [
            [name, it.address, it.mask, it.permission, it.mode, it.size, it.description]
            for name, it in board.registers.items()
        ]

    def state(self, browser: str, since: int) -> dict[str, object]:
        """How the boards stand, and what a browser's registers showed after the sample of that number."""
        is_known = self._watches.heard(browser)
        last, samples = self._watches.since(browser, since)
        lamps = {board.name: board.lamp.as_json() for board in self._boards.values()}
        return {"now": time.time(), "last": last, "samples": samples, "boards": lamps, "isKnown": is_known}

    def watch(self, given: Mapping[str, Any]) -> dict[str, object]:
        """A browser says all that it watches from now on."""
        rates = given.get("rates")
        if not isinstance(rates, dict) or not all(isinstance(rate, int) for rate in rates.values()):
            raise NotAsked("a watch has rates: a number of times a second for each register")
        self._watches.set(text_of(given, "browser"), rates)
        return {"watched": len(rates)}

    def read(self, given: Mapping[str, Any]) -> dict[str, object]:
        """Reads registers of any boards, each board in one dispatch."""
        paths = given.get("paths")
        if not isinstance(paths, list) or not 1 <= len(paths) <= MOST_READ:
            raise NotAsked(f"a read names 1 to {MOST_READ} registers")
        names: dict[str, list[str]] = {}
        for path in paths:
            board, name = self._find(path)
            names.setdefault(board.name, []).append(name)
        asked = {name: self._boards[name].submit(self._boards[name].read, these) for name, these in names.items()}
        found = {}
        for board, future in asked.items():
            found.update({f"{board}:{name}": sample.as_json() for name, sample in self._ended(future).items()})
        return {"samples": found}

    def write(self, given: Mapping[str, Any]) -> dict[str, object]:
        """Writes a register once."""
        if not self.may_write:
            raise ReadOnly("this page only reads: start it with --write")
        board, name = self._find(given.get("path"))
        return self._ended(board.submit(board.write, name, words_of(given)))

    def _find(self, path: object) -> tuple[PageBoard, str]:
        board, colon, name = path.partition(":") if isinstance(path, str) else ("", "", "")
        if not colon or board not in self._boards:
            raise NotAsked(f"{path!r} names no board and register, as in b0:ctrl.gain")
        self._boards[board].node(name)
        return self._boards[board], name

    @staticmethod
    def _ended(future: concurrent.futures.Future) -> Any:
        try:
            return future.result(WAIT)
        except concurrent.futures.TimeoutError:
            raise NotAsked(f"the board is still busy after {WAIT:.0f} s: what was asked may be done later") from None

    def close(self) -> None:
        """Ends all threads and connections."""
        self._watches.close()
        for board in self._boards.values():
            board.close()


def refusal(error: Exception) -> tuple[int, str]:
    """The status of HTTP and the sentence for what a call raised."""
    if isinstance(error, ReadOnly):
        return 403, str(error)
    if isinstance(error, (NotAsked, BadLine, Refused)):
        return 400, str(error)
    if isinstance(error, IpbusError):
        return 502, str(error)
    raise error
