"""What befalls datagrams on their way: nothing, or on a bad network, drawn from a seed, loss, repetition and delay."""

from __future__ import annotations

import random

# of a hundred datagrams; and the longest delay, in seconds
LOST, TWICE, LATE, STRANGE = 10, 10, 20, 10
LONGEST_DELAY = 0.03


class Fair:
    """Each datagram takes so many seconds."""

    def __init__(self, seconds: float = 0.0) -> None:
        self._seconds = seconds

    def delays(self) -> list[float]:
        """The delay of each copy of a datagram, in seconds."""
        return [self._seconds]

    def strange(self, expected: int) -> list[bytes]:
        """Datagrams that come beside it."""
        return []


class Foul:
    """A datagram is lost, comes twice or late, so that later ones overtake it, and strange ones come beside it. `lost`
    is how many of a hundred are lost, and `longest` the longest delay in seconds."""

    def __init__(self, seed: int, lost: int = LOST, longest: float = LONGEST_DELAY) -> None:
        self._draw = random.Random(seed)
        self._lost = lost
        self._longest = longest

    def _hits(self, of_a_hundred: int) -> bool:
        return self._draw.randrange(100) < of_a_hundred

    def delays(self) -> list[float]:
        """The delay of each copy of a datagram, in seconds: none if it is lost."""
        if self._hits(self._lost):
            return []
        copies = 2 if self._hits(TWICE) else 1
        shortest = self._longest / 30
        return [self._draw.uniform(shortest, self._longest) if self._hits(LATE) else 0.0 for _ in range(copies)]

    def strange(self, expected: int) -> list[bytes]:
        """Datagrams that answer nothing: parts of words, no packet, a re-send request, a reply to another packet."""
        if not self._hits(STRANGE):
            return []
        other = ((expected + 30_000) % 65_535 + 1).to_bytes(2, "big")
        tail = bytes(self._draw.randrange(256) for _ in range(8))
        resend, reply = b" " + other + b"\xf2", b" " + other + b"\xf0" + tail
        return [self._draw.choice([b"", tail[:3], b"0" + tail[:7], resend, reply])]
