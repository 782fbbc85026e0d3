"""What a picture says of the datagrams of a capture: row by row, with the window of the hub."""

from __future__ import annotations

from collections.abc import Sequence
from itertools import groupby
from typing import NamedTuple

from ipbus.captures import FIRST_LINE, Capture, Caught, Order
from ipbus.packets import VERBS, control_in, is_status, replies_in, requests_in, resend_in, status_in
from ipbus.picture import LINE, LOST

AGAIN = "#b26a00"
MOST_SIGNS = 44


class Row(NamedTuple):
    """A row of the picture: the line of the capture, whether the hub sent it, what is said and in which color, the
    places from the lowest open one to the last, each with whether it is open, and what is known of the board."""

    line: int
    is_sent: bool
    text: str
    color: str
    window: list[tuple[int, bool]]
    told: str


def _listed(names: Sequence[str]) -> str:
    """Names one after another, those that repeat counted."""
    counted = [(name, len(list(same))) for name, same in groupby(names)]
    text = ", ".join(name if count == 1 else f"{name} ×{count}" for name, count in counted)
    return text if len(text) <= MOST_SIGNS else text[:MOST_SIGNS] + ".."


def _requests_said(body: Sequence[int]) -> str:
    found, bad = requests_in(body)
    return _listed([VERBS[each.kind] for each in found] + ["?"] * (bad is not None))


def _replies_said(body: Sequence[int]) -> str:
    found = replies_in(body)
    if found is None:
        return "?"
    return _listed([VERBS[each.kind] + (f" error {each.info}" if each.info else "") for each in found])


def _with(head: str, verbs: str) -> str:
    return f"{head}: {verbs}" if verbs else head


class HubSide:
    """What a hub knows, datagram by datagram: the places that it sent, those that are open, whether it asked for the
    status, and up to which place the board has shown that it executed."""

    def __init__(self, first: int) -> None:
        self._order = Order(first)
        self._open: set[int] = set()
        self._has_asked = False

    def _window(self) -> list[tuple[int, bool]]:
        low = min(self._open, default=self._order.sent + 1)
        return [(place, place in self._open) for place in range(low, self._order.sent + 1)]

    def _sent(self, item: Caught) -> tuple[str, str]:
        """What is said of a datagram that was sent, and its color."""
        packet, again = control_in(item.data), resend_in(item.data)
        if is_status(item.data):
            self._has_asked = True
            return "status request", LINE
        if again is not None:
            return f"re-send request for {again}", AGAIN
        if not packet:
            return f"{len(item.data)} bytes that are no packet", LINE
        said = _with(f"control {packet.identifier}", _requests_said(packet.body))
        before = self._order.sent
        self._order.add(item)
        if self._order.sent == before:
            return f"{said}, again", AGAIN
        self._open.add(self._order.sent)
        return said, LINE

    def _received(self, item: Caught) -> tuple[str, str]:
        """What is said of a datagram that was received, and its color."""
        self._order.add(item)
        packet, status = control_in(item.data), status_in(item.data)
        if status:
            said = f"status: MTU {status.mtu}, {status.buffers} buffers, expects {status.expected}"
            is_taken, self._has_asked = self._has_asked, False
            return said, LINE if is_taken else LOST
        if not packet:
            return f"{len(item.data)} bytes that are no packet", LOST
        said = _with(f"control {packet.identifier}", _replies_said(packet.body))
        place = self._order.place_of(packet.identifier)
        if place not in self._open:
            return said, LOST
        self._open.remove(place)
        return said, LINE

    def row(self, line: int, item: Caught) -> Row:
        """The row of the next datagram, which stands in this line."""
        shown = self._order.shown
        text, color = self._sent(item) if item.is_sent else self._received(item)
        told = f"executed up to place {self._order.shown}" if self._order.shown > shown else ""
        return Row(line, item.is_sent, text, color, self._window(), told)

    @property
    def shown(self) -> int:
        """Up to which place the board has shown that it executed."""
        return self._order.shown


def rows_of(capture: Capture) -> tuple[list[Row], int]:
    """The rows of a capture, and up to which place it shows that the board executed."""
    hub = HubSide(capture.first)
    return [hub.row(line, item) for line, item in enumerate(capture.items, FIRST_LINE)], hub.shown
