"""A board of IPbus 2.0: its registers, and what it answers to a datagram, as `docs/PROTOCOL.md` has it."""

from __future__ import annotations

from collections import OrderedDict
from collections.abc import Callable, Sequence
from typing import NamedTuple

from ipbus.packets import (
    BAD_HEADER,
    READ,
    READ_PORT,
    RMW_BITS,
    RMW_SUM,
    WHOLE,
    WRITE,
    Control,
    Status,
    Transaction,
    control_in,
    control_packet,
    identifier_after,
    is_status,
    longest_reply,
    payload_of,
    requests_in,
    resend_in,
    status_packet,
    transaction_header,
)

KINDS = ("rw", "ro", "wo", "slow")


class BusFault(Exception):
    """An access that the bus refuses, with its info code."""

    def __init__(self, info: int) -> None:
        super().__init__(info)
        self.info = info


class Range(NamedTuple):
    """So many addresses from a base on, of one kind, with the words of the first ones. The others begin with 0."""

    base: int
    size: int
    kind: str = "rw"
    init: Sequence[int] = ()


class Bus:
    """The words of ranges. A word that was never written is that of its range."""

    def __init__(self, ranges: Sequence[Range]) -> None:
        self._ranges = list(ranges)
        self._written: dict[int, int] = {}

    def _range_of(self, address: int) -> Range | None:
        return next((each for each in self._ranges if each.base <= address < each.base + each.size), None)

    def read(self, address: int) -> int:
        """The word at an address. `BusFault` if it is not to be read."""
        found = self._range_of(address)
        if found is None or found.kind == "wo":
            raise BusFault(4)
        if found.kind == "slow":
            raise BusFault(6)
        offset = address - found.base
        return self._written.get(address, found.init[offset] if offset < len(found.init) else 0)

    def write(self, address: int, word: int) -> None:
        """Changes the word at an address. `BusFault` if it is not to be written."""
        found = self._range_of(address)
        if found is None or found.kind == "ro":
            raise BusFault(5)
        if found.kind == "slow":
            raise BusFault(7)
        self._written[address] = word

    def modify(self, request: Transaction) -> int:
        """Does a read-modify-write. Gives the word before."""
        address, *terms = request.words
        before = self.read(address)
        after = before + terms[0] if request.kind == RMW_SUM else before & terms[0] | terms[1]
        self.write(address, after & WHOLE)
        return before


def _execute(bus: Bus, request: Transaction) -> list[int]:
    """Does a request. Gives the words of its reply, the header first."""
    words: list[int] = []
    done = info = 0
    steps = request.kind in (READ, WRITE)
    try:
        while done < request.count:
            address = request.words[0] + (done if steps else 0)
            if request.kind in (RMW_BITS, RMW_SUM):
                words.append(bus.modify(request))
            elif request.kind in (READ, READ_PORT):
                words.append(bus.read(address))
            else:
                bus.write(address, request.words[1 + done])
            done += 1
    except BusFault as fault:
        info = fault.info
    return [transaction_header(request.number, request.kind, done, info), *words]


def execute(bus: Bus, body: Sequence[int]) -> list[int]:
    """Does the requests of a body up to the first that fails. Gives the body of the reply."""
    reply: list[int] = []
    requests, bad = requests_in(body)
    for request in requests:
        words = _execute(bus, request)
        reply += words
        if words[0] & 0xF:
            return reply
    if bad is not None:
        reply.append(transaction_header(bad, READ, 0, BAD_HEADER))
    return reply


class Device:
    """A board: `mtu` in bytes, so many `buffers` for replies, and the identifier that it expects first. `log` is called
    with a line for each datagram that it hears."""

    def __init__(
        self,
        ranges: Sequence[Range],
        mtu: int = 1500,
        buffers: int = 16,
        first: int = 1,
        log: Callable[[str], None] = lambda line: None,
    ) -> None:
        self.bus = Bus(ranges)
        self.expected = first
        self._mtu = mtu
        self._buffers = buffers
        self._log = log
        self._replies: OrderedDict[int, bytes] = OrderedDict()

    def hear(self, datagram: bytes) -> bytes | None:
        """Takes a datagram. Gives the one that answers it, if any does."""
        if is_status(datagram):
            self._log(f"status {self.expected}")
            return status_packet(Status(self._mtu, self._buffers, self.expected))
        again = resend_in(datagram)
        if again is not None:
            reply = self._replies.get(again)
            self._log(f"{'not held' if reply is None else 'sent again'} {again}")
            return reply
        packet = control_in(datagram)
        refusal = self._refusal(packet)
        if packet is None or refusal:
            self._log(refusal)
            return None
        return self._answer(packet)

    def _refusal(self, packet: Control | None) -> str:
        """Why a datagram is not executed, or an empty text."""
        if packet is None:
            return "no packet"
        if 1 + max(len(packet.body), longest_reply(packet.body)) > payload_of(self._mtu):
            return f"too long {packet.identifier}"
        return "" if packet.identifier in (0, self.expected) else f"not expected {packet.identifier}"

    def _answer(self, packet: Control) -> bytes:
        self._log(" ".join([f"executed {packet.identifier}", *(f"{word:08x}" for word in packet.body)]))
        reply = control_packet(packet.identifier, execute(self.bus, packet.body), packet.is_little)
        if packet.identifier:
            self.expected = identifier_after(self.expected)
            self._replies[packet.identifier] = reply
            if len(self._replies) > self._buffers:
                self._replies.popitem(last=False)
        return reply
