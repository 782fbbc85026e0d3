"""Boards on UDP ports, each in a thread, behind a network that loses, repeats and delays datagrams by a seed."""
import heapq
import itertools
import select
import socket
import threading
import time
from typing import Any, NamedTuple

from ipbus.weather import Fair, Foul
from net.device import Device, Registers
from net.packets import identifier_after
from net.peers import Board, require

QUIET = 0.5


class Network(NamedTuple):
    """What befalls the datagrams of a board: of a hundred so many are lost, and they are late by so many milliseconds at
    most. 0 of both is a calm network. The board falls silent with the packet of the number `answers` that it executes, if
    that is not 0."""

    seed: int = 0
    lost: int = 0
    latest: float = 0
    answers: int = 0


class UdpBoard(threading.Thread):
    """A board at a port of 127.0.0.1. It keeps what it executed."""

    def __init__(self, board: Board, network: Network) -> None:
        super().__init__(daemon=True)
        self.board = board
        self.device = Device(Registers(board.ranges), board.mtu, board.buffers, board.first, self.note)
        self.executed: list[tuple[int, list[int]]] = []
        is_calm = network.lost == 0 and network.latest == 0
        settings = network.lost, network.latest / 1000
        self.coming = Fair() if is_calm else Foul(2 * network.seed, *settings)
        self.going = Fair() if is_calm else Foul(2 * network.seed + 1, *settings)
        self.answers_left = network.answers or None
        self.late: list[tuple[float, int, bool, bytes, Any]] = []
        self.numbers = itertools.count()
        self.socket = socket.socket(socket.AF_INET, socket.SOCK_DGRAM)
        self.socket.bind(("127.0.0.1", 0))
        board.port = self.socket.getsockname()[1]
        self.is_over = threading.Event()
        self.start()

    def note(self, line: str) -> None:
        kind, *rest = line.split()
        if kind == "executed":
            self.executed.append((int(rest[0]), [int(word, 16) for word in rest[1:]]))

    def carry(self, is_for_board: bool, data: bytes, peer: Any) -> None:
        for delay in (self.coming if is_for_board else self.going).delays():
            heapq.heappush(self.late, (time.monotonic() + delay, next(self.numbers), is_for_board, data, peer))

    def hear(self, data: bytes, peer: Any) -> None:
        before = len(self.executed)
        answer = self.device.hear(data)
        if self.answers_left is not None and len(self.executed) > before:
            self.answers_left -= 1
        for strange in self.going.strange(self.device.expected):
            self.socket.sendto(strange, peer)
        is_silent = self.answers_left is not None and self.answers_left <= 0
        if answer is not None and not is_silent:
            self.carry(False, answer, peer)

    def arrive(self) -> None:
        while self.late and self.late[0][0] <= time.monotonic():
            _, _, is_for_board, data, peer = heapq.heappop(self.late)
            if is_for_board:
                self.hear(data, peer)
            else:
                self.socket.sendto(data, peer)

    def run(self) -> None:
        while not self.is_over.is_set():
            wait = self.late[0][0] - time.monotonic() if self.late else QUIET
            ready, _, _ = select.select([self.socket], [], [], max(0.0, wait))
            if ready:
                self.carry(True, *self.socket.recvfrom(65_536))
            self.arrive()

    def stop(self) -> None:
        """Ends the thread: a datagram wakes it."""
        self.is_over.set()
        with socket.socket(socket.AF_INET, socket.SOCK_DGRAM) as bell:
            bell.sendto(b"", ("127.0.0.1", self.board.port))
        self.join()
        self.socket.close()

    def bodies(self) -> list[list[int]]:
        """The bodies that it executed, in order: one identifier after another, none twice."""
        expected = self.board.first
        for identifier, _ in self.executed:
            require(identifier == expected, f"{self.board.name} executed {identifier} in place of {expected}")
            expected = identifier_after(expected)
        return [body for _, body in self.executed]


class UdpBoards:
    """The boards of a case, which end with it."""

    def __init__(self, boards: list[Board], networks: list[Network]) -> None:
        self.threads = [UdpBoard(board, network) for board, network in zip(boards, networks)]

    def __enter__(self) -> "UdpBoards":
        return self

    def __exit__(self, *_: object) -> None:
        for thread in self.threads:
            thread.stop()

    def bodies(self) -> list[list[list[int]]]:
        """What each board executed."""
        return [thread.bodies() for thread in self.threads]
