"""How a board stands, as the page's lamps show it: what its last answers tell."""

from __future__ import annotations

import time
from collections.abc import Iterable
from dataclasses import dataclass, field

from ipbus.errors import (
    BusError,
    ConnectionEnded,
    Garbled,
    IpbusError,
    LaneFull,
    LinkLost,
    NotConnected,
    NotSent,
    Skipped,
    TimedOut,
    Unsent,
)

# after so many dispatches in a row that timed out, at a board that answered before, the lamp asks whether it was reset
MOST_TIMEOUTS = 3

UNASKED = "not asked yet"
ANSWERS = "answers"
SILENT = "silent"
TIMING_OUT = "timing out"
RESET = "reset or off"
LINK_LOST = "link lost"
WORN_OUT = "takes no more"
ANOTHER_HUB = "another hub?"
NO_HUB = "no hub"

BY_ERROR: tuple[tuple[type[IpbusError], str], ...] = (
    (TimedOut, TIMING_OUT),
    (Unsent, SILENT),
    (LinkLost, LINK_LOST),
    (LaneFull, WORN_OUT),
    (Garbled, ANOTHER_HUB),
    (NotConnected, NO_HUB),
    (NotSent, NO_HUB),
    (ConnectionEnded, NO_HUB),
)


@dataclass
class Lamp:
    """The state of a board, since when it has it (seconds of the clock), and what the last error said."""

    state: str = UNASKED
    since: float = field(default_factory=time.time)
    told: str = ""
    has_answered: bool = False
    timeouts: int = 0

    def show(self, errors: Iterable[IpbusError | None]) -> None:
        """Takes what the operations of one dispatch came to."""
        told = [error for error in errors if error is not None and not isinstance(error, (BusError, Skipped))]
        state = self._state_of(told)
        if state != self.state:
            self.state, self.since = state, time.time()
        self.told = str(told[0]) if told else ""

    def _state_of(self, told: list[IpbusError]) -> str:
        if not told:
            self.has_answered, self.timeouts = True, 0
            return ANSWERS
        state = next((name for kind, name in BY_ERROR if isinstance(told[0], kind)), TIMING_OUT)
        if state not in (TIMING_OUT, SILENT):
            return state
        self.timeouts += 1
        if self.has_answered and self.timeouts >= MOST_TIMEOUTS:
            return RESET
        return TIMING_OUT if self.has_answered else state

    def as_json(self) -> dict[str, object]:
        """What the page is told."""
        return {"state": self.state, "since": self.since, "told": self.told}
