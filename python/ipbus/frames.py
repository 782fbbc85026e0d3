"""A connection to a hub that serves, and the frames on it, as `docs/FORMATS.md` has them."""

from __future__ import annotations

import contextlib
import socket
import struct
import time
from typing import NamedTuple

from ipbus.errors import ConnectionEnded, NoAnswerInTime, NotConnected

DONE = 0
_SHORTEST_REPLY = 8
_LONGEST_REPLY = 8 + 4 * 2243
_TAKE = 65_536


class Answer(NamedTuple):
    """A reply frame: the position of the board that was asked, a code, and the packet after it."""

    board: int
    code: int
    packet: bytes


def request_frame(board: int, packet: bytes) -> bytes:
    """The frame of a control packet for the board at this position in the hub's document."""
    return struct.pack(">II", 4 + len(packet), board) + packet


class Connection:
    """One connection to a hub. Each call takes a deadline, in seconds of `time.monotonic()`, and raises `IpbusError`
    alone: `NotConnected` at its start, and `ConnectionEnded` or `NoAnswerInTime` from then on."""

    def __init__(self, host: str, port: int, seconds: float) -> None:
        where = f"{host}:{port}"
        try:
            self._socket = socket.create_connection((host, port), max(seconds, 0.001))
            self._socket.setsockopt(socket.IPPROTO_TCP, socket.TCP_NODELAY, 1)
        except (OSError, OverflowError, UnicodeError) as error:
            reason = getattr(error, "strerror", None) or str(error)
            raise NotConnected(f"no hub answers at {where}: {reason}") from error
        self._where = where
        self._held = bytearray()

    def _wait_until(self, deadline: float) -> None:
        left = deadline - time.monotonic()
        if left <= 0:
            raise NoAnswerInTime(f"the hub at {self._where} did not answer in time: this may have been executed")
        self._socket.settimeout(left)

    def _ended(self, reason: str) -> ConnectionEnded:
        return ConnectionEnded(f"the connection to {self._where} ended ({reason}): this may have been executed")

    def send(self, data: bytes, deadline: float) -> None:
        """Sends whole frames."""
        self._wait_until(deadline)
        try:
            self._socket.sendall(data)
        except socket.timeout:
            self._wait_until(0)
        except OSError as error:
            raise self._ended(error.strerror or str(error)) from error

    def _fill(self, count: int, deadline: float) -> None:
        """Waits until so many bytes are held."""
        while len(self._held) < count:
            self._wait_until(deadline)
            try:
                piece = self._socket.recv(_TAKE)
            except socket.timeout:
                continue
            except OSError as error:
                raise self._ended(error.strerror or str(error)) from error
            if not piece:
                raise self._ended("the hub closed it")
            self._held += piece

    def answer(self, deadline: float) -> Answer:
        """The next reply frame."""
        self._fill(4, deadline)
        length = int.from_bytes(self._held[:4], "big")
        if not _SHORTEST_REPLY <= length <= _LONGEST_REPLY:
            raise self._ended(f"a frame of {length} bytes is no reply of a hub")
        self._fill(4 + length, deadline)
        board, code, zero = struct.unpack(">IHH", self._held[4:12])
        packet = bytes(self._held[12 : 4 + length])
        del self._held[: 4 + length]
        if zero or code != DONE and packet:
            raise self._ended("a frame is no reply of a hub")
        return Answer(board, code, packet)

    def close(self) -> None:
        """Ends the connection."""
        with contextlib.suppress(OSError):
            self._socket.close()

    def __del__(self) -> None:
        if hasattr(self, "_socket"):
            self.close()
