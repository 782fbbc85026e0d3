"""The command `ipbus-board`: a board on a UDP port, for trying out a hub without hardware.

With --seed the network to it is a bad one: datagrams both ways are lost, come twice or late, and strange ones come
beside them. It first prints the port that it has, and then, with --log, a line for each datagram that it hears. A
control-C ends it."""

from __future__ import annotations

import argparse
import contextlib
import heapq
import itertools
import select
import socket
import sys
import time
from typing import Any, Union

from ipbus.device import KINDS, Device, Range
from ipbus.packets import control_in, control_packet
from ipbus.arguments import seconds_of, word_of
from ipbus.weather import LONGEST_DELAY, LOST, Fair, Foul

FOREVER = float("inf")
Weather = Union[Fair, Foul]
# what another port forges: a reply of one word
FORGED = (0x2000_0100, 0xBAD)


def range_of(text: str) -> Range:
    """BASE:SIZE[:KIND[:WORD,WORD,..]]"""
    base, *rest = text.split(":")
    kind = rest[1] if len(rest) > 1 else "rw"
    if not 1 <= len(rest) <= 3 or kind not in KINDS:
        raise argparse.ArgumentTypeError(f"{text!r} is not BASE:SIZE:KIND:WORDS, with a kind of {', '.join(KINDS)}")
    words = [word_of(word) for word in rest[2].split(",")] if len(rest) > 2 else []
    return Range(word_of(base), word_of(rest[0]), kind, words)


def _number(least: int, most: int) -> Any:
    def number(text: str) -> int:
        value = word_of(text)
        if not least <= value <= most:
            raise argparse.ArgumentTypeError(f"{text} is not {least} to {most}")
        return value

    return number


def options(words: list[str] | None) -> argparse.Namespace:
    """What the command line says."""
    parser = argparse.ArgumentParser(prog="ipbus-board", description=__doc__.partition("\n\n")[2])
    add = parser.add_argument
    add("--port", type=_number(0, 65_535), default=0, help="the UDP port; 0, which is the default, takes a free one")
    add("--range", type=range_of, action="append", dest="ranges", metavar="BASE:SIZE[:KIND[:WORDS]]",
        help="addresses with registers, as 0:16:rw:7,8; by default 0:65536")  # fmt: skip
    add("--mtu", type=_number(92, 9000), default=1500, help="the greatest IP packet in bytes, 92 to 9000")
    add("--buffers", type=_number(1, 64), default=16, help="how many replies it keeps, 1 to 64")
    add("--first", type=_number(1, 65_535), default=1, help="the identifier that it expects first, 1 to 65535")
    add("--host", default="127.0.0.1", help="the address of the port; 127.0.0.1 by default")
    add("--seed", type=int, help="draws what befalls datagrams")
    add("--lost", type=_number(0, 100), default=LOST, help="with a seed: so many of a hundred datagrams are lost")
    add("--latest", type=float, default=1000 * LONGEST_DELAY, help="with a seed: late by N milliseconds at most")
    add("--late", type=float, default=0, help="without a seed: each answer is late by N milliseconds")
    add("--mute-after", type=int, help="it answers nothing from its N-th control packet on")
    add("--together", type=int, default=1, help="it answers control packets only once it holds N of them")
    add("--forge", type=int, default=0, help="another port sends N false replies before each reply")
    add("--seconds", type=seconds_of, default=FOREVER, help="ends after so many seconds")
    add("--log", help="a file for the log, or - for standard output")
    return parser.parse_args(words)


def _udp_socket() -> socket.socket:
    return socket.socket(socket.AF_INET, socket.SOCK_DGRAM)


class Server:
    """A board at its socket, and datagrams that are late."""

    def __init__(self, told: argparse.Namespace) -> None:
        self._socket = _udp_socket()
        self._socket.bind((told.host, told.port))
        self._forger = _udp_socket()
        self._forged = told.forge
        self._log_to = sys.stdout if told.log == "-" else told.log and open(told.log, "w", encoding="utf-8")
        ranges = told.ranges or [Range(0, 65_536)]
        self._device = Device(ranges, told.mtu, told.buffers, told.first, self._log)
        settings = told.lost, told.latest / 1000
        self._coming: Weather = Fair() if told.seed is None else Foul(2 * told.seed, *settings)
        self._going: Weather = Fair(told.late / 1000) if told.seed is None else Foul(2 * told.seed + 1, *settings)
        self._answers_left = told.mute_after
        self._together = told.together
        self._held: list[tuple[bytes, Any]] = []
        self._on_the_way: list[tuple[float, int, bool, bytes, Any]] = []
        self._numbers = itertools.count()

    @property
    def port(self) -> int:
        """The UDP port."""
        return self._socket.getsockname()[1]

    def _log(self, line: str) -> None:
        if self._log_to:
            print(line, file=self._log_to, flush=True)

    def _carry(self, weather: Weather, is_for_board: bool, data: bytes, peer: Any) -> None:
        """A datagram goes on its way, each copy of it."""
        for delay in weather.delays():
            due = time.monotonic() + delay
            heapq.heappush(self._on_the_way, (due, next(self._numbers), is_for_board, data, peer))

    def _arrive(self) -> None:
        """The datagrams that are due arrive."""
        while self._on_the_way and self._on_the_way[0][0] <= time.monotonic():
            _, _, is_for_board, data, peer = heapq.heappop(self._on_the_way)
            (self._hear if is_for_board else self._send)(data, peer)

    def _send(self, data: bytes, peer: Any) -> None:
        """Sends a datagram. One that the machine refuses, as without a route, is lost."""
        with contextlib.suppress(OSError):
            self._socket.sendto(data, peer)

    def _hear(self, data: bytes, peer: Any) -> None:
        packet = control_in(data)
        if packet:
            for _ in range(self._forged):
                self._forger.sendto(control_packet(packet.identifier, FORGED), peer)
        answer = self._device.hear(data)
        if self._answers_left is not None:
            self._answers_left -= packet is not None
            answer = answer if self._answers_left > 0 else None
        for strange in self._going.strange(self._device.expected):
            self._send(strange, peer)
        if answer is None:
            return
        self._held.append((answer, peer))
        if packet is None or len(self._held) >= self._together:
            for held, to in self._held:
                self._carry(self._going, False, held, to)
            self._held = []

    def serve(self, seconds: float = FOREVER) -> None:
        """Answers datagrams for so many seconds."""
        end = time.monotonic() + seconds
        while (now := time.monotonic()) < end:
            due = min(end, self._on_the_way[0][0] if self._on_the_way else end)
            ready, _, _ = select.select([self._socket], [], [], None if due == FOREVER else max(0.0, due - now))
            if ready:
                self._carry(self._coming, True, *self._socket.recvfrom(65_536))
            self._arrive()


def main(words: list[str] | None = None) -> None:
    """Runs the command until its time is over or a control-C comes."""
    told = options(words)
    try:
        server = Server(told)
    except OSError as error:
        advice = "Take another --port, or --port 0 for a free one"
        sys.exit(f"ipbus-board: {told.host}:{told.port}: {error.strerror}. {advice}")
    print(f"port {server.port}", flush=True)
    with contextlib.suppress(KeyboardInterrupt):
        server.serve(told.seconds)


if __name__ == "__main__":
    main()
