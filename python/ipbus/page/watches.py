"""Registers that browsers watch. Each is read once for all browsers, as often as the quickest of them wants."""

from __future__ import annotations

import itertools
import threading
import time
from collections import deque
from collections.abc import Iterable
from dataclasses import dataclass, field

from ipbus.errors import BadLine
from ipbus.page.boards import PageBoard, Sample

MOST_OF_A_BROWSER = 64
MOST_IN_ALL = 256
MOST_BROWSERS = 64
# times a second
SLOWEST, QUICKEST = 1, 10
# seconds that a curve shows, and after which a browser that says nothing counts as gone
KEPT = 600
GONE = 10
TICK = 0.02


@dataclass
class Watched:
    """A register that is watched: how often, when it is due, and its samples, each with a number that only rises."""

    rate: int = SLOWEST
    due: float = 0.0
    samples: deque[tuple[int, Sample]] = field(default_factory=lambda: deque(maxlen=KEPT * QUICKEST))

    def behind(self, number: int) -> list[tuple[int, Sample]]:
        """The samples behind the one of that number, the oldest first."""
        newest = itertools.takewhile(lambda numbered: numbered[0] > number, reversed(self.samples))
        return list(newest)[::-1]


@dataclass
class Browser:
    """What a browser watches, and when it was heard last."""

    rates: dict[str, int] = field(default_factory=dict)
    heard: float = field(default_factory=time.monotonic)


class Watches:
    """All that is watched. Its thread reads what is due, one dispatch a board at a time."""

    def __init__(self, boards: dict[str, PageBoard]) -> None:
        self._boards = boards
        self._lock = threading.Lock()
        self._browsers: dict[str, Browser] = {}
        self._watched: dict[str, Watched] = {}
        self._numbers = itertools.count(1)
        self._ended = threading.Event()
        self._thread = threading.Thread(target=self._run, name="watches", daemon=True)
        self._thread.start()

    def set(self, browser: str, rates: dict[str, int]) -> None:
        """What a browser watches from now on, and how often a second. `BadLine` where that is too much."""
        if len(rates) > MOST_OF_A_BROWSER:
            raise BadLine(f"{len(rates)} registers are watched at once, and {MOST_OF_A_BROWSER} is the most")
        for path, rate in rates.items():
            board, _, name = path.partition(":")
            if board not in self._boards:
                raise BadLine(f"{path}: the document has no board {board}")
            if self._boards[board].node(name).mode != "single":
                raise BadLine(f"{path} is no single word: read it, as often as you like")
            if not SLOWEST <= rate <= QUICKEST:
                raise BadLine(f"{path}: {rate} times a second is not {SLOWEST} to {QUICKEST}")
        with self._lock:
            others = {path for name, other in self._browsers.items() if name != browser for path in other.rates}
            if len(others | set(rates)) > MOST_IN_ALL:
                raise BadLine(f"{MOST_IN_ALL} registers are watched by all browsers together: take some away first")
            if browser not in self._browsers and len(self._browsers) >= MOST_BROWSERS:
                raise BadLine(f"{MOST_BROWSERS} browsers look at this page already")
            self._browsers[browser] = Browser(dict(rates))
            self._settle()

    def heard(self, browser: str) -> bool:
        """A browser is still there. Says whether it has watches: they go with a browser that says nothing for a while."""
        with self._lock:
            if browser in self._browsers:
                self._browsers[browser].heard = time.monotonic()
            return browser in self._browsers

    def since(self, browser: str, number: int) -> tuple[int, dict[str, list[list[object]]]]:
        """The number of the last sample, and what a browser's registers showed behind the sample of that number."""
        with self._lock:
            known = self._browsers.get(browser)
            paths: Iterable[str] = known.rates if known else ()
            found = {path: self._watched[path].behind(number) for path in paths}
            last = max((samples[-1][0] for samples in found.values() if samples), default=number)
            return last, {path: [sample.as_json() for _, sample in samples] for path, samples in found.items() if samples}

    def close(self) -> None:
        """Ends the thread."""
        self._ended.set()
        self._thread.join()

    def _settle(self) -> None:
        """Brings what is watched to what browsers want. Called under the lock."""
        rates: dict[str, int] = {}
        for browser in self._browsers.values():
            for path, rate in browser.rates.items():
                rates[path] = max(rate, rates.get(path, SLOWEST))
        for path in [path for path in self._watched if path not in rates]:
            del self._watched[path]
        for path, rate in rates.items():
            self._watched.setdefault(path, Watched()).rate = rate

    def _run(self) -> None:
        while not self._ended.wait(TICK):
            now = time.monotonic()
            with self._lock:
                gone = [name for name, browser in self._browsers.items() if now - browser.heard > GONE]
                for name in gone:
                    del self._browsers[name]
                if gone:
                    self._settle()
                due = self._due(now)
            for board, paths in due.items():
                self._boards[board].is_polled = True
                self._boards[board].submit(self._poll, self._boards[board], paths)

    def _due(self, now: float) -> dict[str, list[str]]:
        """What is to be read now, by board; a board that is still being read waits. Called under the lock."""
        found: dict[str, list[str]] = {}
        for path, watched in self._watched.items():
            board = path.partition(":")[0]
            if watched.due <= now and not self._boards[board].is_polled:
                watched.due = max(watched.due + 1 / watched.rate, now)
                found.setdefault(board, []).append(path)
        return found

    def _poll(self, board: PageBoard, paths: list[str]) -> None:
        try:
            samples = board.read([path.partition(":")[2] for path in paths])
            with self._lock:
                for name, sample in samples.items():
                    watched = self._watched.get(f"{board.name}:{name}")
                    if watched is not None:
                        watched.samples.append((next(self._numbers), sample))
        finally:
            board.is_polled = False
