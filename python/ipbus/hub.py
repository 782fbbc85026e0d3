"""A client of `ipbus serve` that speaks of boards and registers by the names of the session document.

    from ipbus import Hub

    with Hub("session.toml", "127.0.0.1", 5000) as hub:
        gain = hub.board("b0").node("ctrl.gain")
        gain.write(5)
        read_back = gain.read()
        hub.dispatch()
        print(read_back)

What is asked waits until `dispatch`, which sends it in as few packets as its order allows and fills the values.
"""

from __future__ import annotations

import os
import threading
import time
from collections.abc import Iterable, Mapping
from typing import Any

from ipbus.boards import Board
from ipbus.documents import MTU, BoardEntry, Document
from ipbus.errors import BadLine, IpbusError, UnknownBoard, WrongBoard
from ipbus.exchange import exchange
from ipbus.frames import Connection
from ipbus.nodes import Node, matching
from ipbus.operations import Operation, Packet, Request
from ipbus.packets import READ
from ipbus.values import Value

SECONDS = 60.0


class Hub:
    """A connection to `ipbus serve` at a host and a port, which serves this session document.

    `document` is the path of a session document. `mtu` is that of boards on UDP ports in bytes, for which a document
    has none: one number, or one for each board by its name. `seconds` is how long connecting, and a dispatch as a
    whole, may take. `check` has a word for registers, as `{"b0:id": 0xabcd}`: each connection begins with reading
    these, and raises `WrongBoard` if one is another, since the hub does not tell which document it serves. With
    `connect=False` the first dispatch connects.

    All that is raised is an `IpbusError`. One thread uses a hub at a time: each call takes `lock`, which a thread may
    hold for a queue of its own and its dispatch. A connection that ended is made anew by the next dispatch."""

    def __init__(
        self,
        document: str | os.PathLike[str] | Document,
        host: str = "127.0.0.1",
        port: int = 5000,
        mtu: int | Mapping[str, int] = MTU,
        seconds: float = SECONDS,
        check: Mapping[str, int] | None = None,
        connect: bool = True,
    ) -> None:
        self.host = host
        self.port = port
        self.seconds = seconds
        self.lock = threading.RLock()
        self._mtu = mtu
        self._check = dict(check or {})
        self._connection: Connection | None = None
        self._is_in_exchange = False
        self.document = Document.read(document)
        self._boards = {name: self._board(entry) for name, entry in self.document.boards.items()}
        if connect:
            self.connect()

    def _board(self, entry: BoardEntry) -> Board:
        return Board(self, entry.name, entry.position, entry.table, self.mtu_of(entry))

    def mtu_of(self, entry: BoardEntry) -> int:
        """The MTU of a board in bytes: that of the document, or what was said of boards on the network."""
        if entry.mtu is not None:
            return entry.mtu
        return self._mtu.get(entry.name, MTU) if isinstance(self._mtu, Mapping) else self._mtu

    @property
    def boards(self) -> list[Board]:
        """The boards, in the order of the document."""
        return list(self._boards.values())

    def board(self, name: str) -> Board:
        """The board of this name. `UnknownBoard` if there is none."""
        if name not in self._boards:
            raise UnknownBoard(f"the document has no board {name}, but {', '.join(self._boards)}")
        return self._boards[name]

    def node(self, path: str) -> Node:
        """A register as scripts write it: the board, a colon and its name there."""
        board, colon, register = path.partition(":")
        if not colon:
            raise BadLine(f"{path} has no colon, as in b0:ctrl.gain")
        return self.board(board).node(register)

    def nodes(self, pattern: str = "") -> list[str]:
        """The registers of all boards that the regular expression is found in, as scripts write them."""
        found = matching(pattern)
        paths = (f"{board.name}:{name}" for board in self.boards for name in board.nodes())
        return [path for path in paths if found.search(path)]

    # ---- the connection

    def _connected(self, deadline: float) -> Connection:
        """The connection, made anew if it ended, or if an exchange on it did not come to its end."""
        if self._is_in_exchange:
            self.close()
        if self._connection is None:
            connection = Connection(self.host, self.port, deadline - time.monotonic())
            try:
                self._check_boards(connection, deadline)
            except BaseException:
                connection.close()
                raise
            self._connection = connection
        return self._connection

    def _check_boards(self, connection: Connection, deadline: float) -> None:
        for path, word in self._check.items():
            node = self.node(path)
            value = Value("read", path, node.mask)
            exchange(connection, node.board.packets([(value, [Request(READ, node.address, 1)])]), deadline)
            if value != word:
                raise WrongBoard(f"{path} shows {value:#010x} where {word:#010x} was to be")

    def connect(self) -> None:
        """Connects now, if there is no connection. `NotConnected` if nobody listens."""
        with self.lock:
            self._connected(time.monotonic() + self.seconds)

    def close(self) -> None:
        """Ends the connection. The next dispatch makes a new one."""
        connection, self._connection = self._connection, None
        self._is_in_exchange = False
        if connection is not None:
            connection.close()

    def __enter__(self) -> Hub:
        return self

    def __exit__(self, *_: Any) -> None:
        self.close()

    # ---- the dispatch

    def dispatch(self, seconds: float | None = None) -> None:
        """Sends what was asked of all boards, board by board, waits for the answers and fills the values, within so
        many seconds, those of the hub if none are given. Raises the first error of a value, after all values have
        theirs. If a dispatch is interrupted, its connection ends, and each value that was sent says that it may have
        been executed."""
        self.send(self._boards.values(), seconds)

    def forget(self) -> None:
        """What was asked and not dispatched is never sent."""
        with self.lock:
            for board in self._boards.values():
                board.take_queue()

    def send(self, boards: Iterable[Board], seconds: float | None = None) -> None:
        """Dispatches what was asked of these boards."""
        with self.lock:
            deadline = time.monotonic() + (self.seconds if seconds is None else seconds)
            operations: list[Operation] = []
            packets: list[Packet] = []
            for board in boards:
                waiting = board.take_queue()
                operations += waiting
                packets += board.packets(waiting)
            if packets:
                self._exchange(packets, deadline)
        if all(packet.is_done for packet in packets):
            return
        first = next((result for result, _ in operations if not result.valid()), None)
        if first is not None:
            raise first.error.with_traceback(None)

    def _exchange(self, packets: list[Packet], deadline: float) -> None:
        """Sends packets, whose answers fill the results. Other exceptions, as of a control-C, go on to the caller."""
        try:
            connection = self._connected(deadline)
            self._is_in_exchange = True
            exchange(connection, packets, deadline)
            self._is_in_exchange = False
        except BaseException as error:
            self.close()
            for packet in packets:
                packet.give_up(error)
            if not isinstance(error, IpbusError):
                raise

    def __repr__(self) -> str:
        return f"<hub at {self.host}:{self.port}>"
