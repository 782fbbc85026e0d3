"""Words, packets and transactions of IPbus 2.0, as `docs/PROTOCOL.md` has them. A body is a list of 32-bit words."""

from __future__ import annotations

import struct
from collections.abc import Iterable, Sequence
from typing import NamedTuple

WHOLE = 0xFFFFFFFF
LAST_IDENTIFIER = 0xFFFF
# bytes of the headers of IP and UDP, and words of the longest packet
HEADER_BYTES = 28
MOST_WORDS = 2243

READ, WRITE, READ_PORT, WRITE_PORT, RMW_BITS, RMW_SUM = range(6)
VERBS = ("read", "write", "readport", "writeport", "rmwbits", "rmwsum")
ASKED = 0xF
BAD_HEADER = 1

_VERSION = 2 << 28
_CONTROL, _STATUS, _RESEND = 0xF0, 0xF1, 0xF2
_STATUS_BYTES = 64


def packed(words: Iterable[int], is_little: bool = False) -> bytes:
    """The bytes of words."""
    words = list(words)
    return struct.pack(f"{'<' if is_little else '>'}{len(words)}I", *words)


def unpacked(data: bytes, is_little: bool = False) -> tuple[int, ...]:
    """The words of bytes, of which there are four for each."""
    return struct.unpack(f"{'<' if is_little else '>'}{len(data) // 4}I", data)


def payload_of(mtu: int) -> int:
    """The words of a packet, its header included, of an IP packet of at most so many bytes."""
    return (mtu - HEADER_BYTES) // 4


def identifier_after(identifier: int) -> int:
    """The identifier of the next packet: 1 follows the last one."""
    return 1 if identifier == LAST_IDENTIFIER else identifier + 1


# ---- packets


class Control(NamedTuple):
    """A control packet, in big-endian or little-endian order."""

    identifier: int
    body: tuple[int, ...]
    is_little: bool


class Status(NamedTuple):
    """What a board tells of itself: bytes of an IP packet, replies that it keeps, the identifier that it expects."""

    mtu: int
    buffers: int
    expected: int


def header_of(identifier: int, kind: int = _CONTROL) -> int:
    """The first word of a packet."""
    return _VERSION | identifier << 8 | kind


def control_packet(identifier: int, body: Sequence[int], is_little: bool = False) -> bytes:
    """The bytes of a control packet."""
    return packed([header_of(identifier), *body], is_little)


def control_in(data: bytes) -> Control | None:
    """The control packet that has these bytes, or None."""
    if not data or len(data) % 4 or len(data) > 4 * MOST_WORDS:
        return None
    is_little = data[0] == _CONTROL
    header, *body = unpacked(data, is_little)
    identifier = header >> 8 & 0xFFFF
    return Control(identifier, tuple(body), is_little) if header == header_of(identifier) else None


def is_status(data: bytes) -> bool:
    """Whether these bytes are a status request or a status reply."""
    return len(data) == _STATUS_BYTES and data[:4] == packed([_VERSION | _STATUS])


def status_packet(status: Status | None = None) -> bytes:
    """A status reply, or the request if there is no status."""
    told = [] if status is None else [status.mtu, status.buffers, header_of(status.expected)]
    return packed([_VERSION | _STATUS, *told]).ljust(_STATUS_BYTES, b"\0")


def status_in(data: bytes) -> Status | None:
    """What a status reply tells, or None if it is none or out of range."""
    if not is_status(data):
        return None
    mtu, buffers, header = unpacked(data)[1:4]
    expected = header >> 8 & 0xFFFF
    is_right = header == header_of(expected) and expected > 0 and 92 <= mtu <= 9000 and 1 <= buffers <= 64
    return Status(mtu, buffers, expected) if is_right else None


def resend_in(data: bytes) -> int | None:
    """The identifier whose reply a re-send request asks for, or None."""
    if len(data) != 4:
        return None
    identifier = unpacked(data)[0] >> 8 & 0xFFFF
    return identifier if data == packed([header_of(identifier, _RESEND)]) else None


# ---- transactions


class Transaction(NamedTuple):
    """One request of a body, or one reply: `info` is its info code, and `words` what follows the header."""

    number: int
    kind: int
    count: int
    info: int
    words: tuple[int, ...]


def transaction_header(number: int, kind: int, count: int, info: int) -> int:
    """The first word of a request or a reply."""
    return _VERSION | number << 16 | count << 8 | kind << 4 | info


def reads_words(kind: int) -> bool:
    """Whether a reply of this kind carries words."""
    return kind not in (WRITE, WRITE_PORT)


def _fields(header: int) -> tuple[int, int, int, int]:
    return header >> 16 & 0xFFF, header >> 4 & 0xF, header >> 8 & 0xFF, header & 0xF


def _request_length(kind: int, count: int) -> int:
    """The words after the header of a request."""
    return {READ: 1, READ_PORT: 1, RMW_BITS: 3, RMW_SUM: 2}.get(kind, 1 + count)


def requests_in(body: Sequence[int]) -> tuple[list[Transaction], int | None]:
    """The requests of a body up to the first bad header, and the transaction identifier of that, or None."""
    found: list[Transaction] = []
    at = 0
    while at < len(body):
        number, kind, count, info = _fields(body[at])
        is_right = body[at] >> 28 == 2 and kind <= RMW_SUM and info == ASKED
        is_right = is_right and (kind < RMW_BITS or count == 1)
        end = at + 1 + (_request_length(kind, count) if is_right else 0)
        if not is_right or end > len(body):
            return found, number
        found.append(Transaction(number, kind, count, info, tuple(body[at + 1 : end])))
        at = end
    return found, None


def _can_be_reply(kind: int, count: int, info: int) -> bool:
    if info == BAD_HEADER:
        return kind == READ and count == 0
    if kind > RMW_SUM or info != 0 and not 4 <= info <= 7:
        return False
    return kind < RMW_BITS or count == (info == 0)


def replies_in(body: Sequence[int]) -> list[Transaction] | None:
    """The replies of a body, or None if it has something else."""
    found = []
    at = 0
    while at < len(body):
        number, kind, count, info = _fields(body[at])
        end = at + 1 + (count if reads_words(kind) else 0)
        if body[at] >> 28 != 2 or not _can_be_reply(kind, count, info) or end > len(body):
            return None
        found.append(Transaction(number, kind, count, info, tuple(body[at + 1 : end])))
        at = end
    return found


def longest_reply(body: Sequence[int]) -> int:
    """The words of the longest body that can answer this one."""
    found, bad = requests_in(body)
    return sum(1 + (each.count if reads_words(each.kind) else 0) for each in found) + (bad is not None)
