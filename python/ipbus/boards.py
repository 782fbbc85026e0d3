"""A board of a hub: its registers by names and by addresses, and what waits for its dispatch."""

from __future__ import annotations

from collections.abc import Iterable, Iterator
from typing import TYPE_CHECKING

from ipbus import nodes
from ipbus.errors import BadLine
from ipbus.nodes import Node
from ipbus.operations import Operation, Packet, packets_of
from ipbus.packets import WHOLE, payload_of
from ipbus.registers import Register, RegisterTable
from ipbus.values import Block, Value, Written

if TYPE_CHECKING:
    from ipbus.hub import Hub

LEAST_MTU, GREATEST_MTU = 92, 9000


class Board:
    """A board of the hub's document. `payload` is the words of a packet, its header included."""

    def __init__(self, hub: Hub, name: str, position: int, table: RegisterTable, mtu: int) -> None:
        if not LEAST_MTU <= mtu <= GREATEST_MTU:
            raise BadLine(f"{name}: an MTU of {mtu} bytes is not {LEAST_MTU} to {GREATEST_MTU}")
        self.hub = hub
        self._lock = hub.lock
        self.name = name
        self.position = position
        self.table = table
        self.payload = payload_of(mtu)
        self._queue: list[Operation] = []

    # ---- by names

    def node(self, path: str) -> Node:
        """The register of this name. `UnknownName` if there is none."""
        return nodes.find(self, path)

    def nodes(self, pattern: str = "") -> list[str]:
        """The names of all registers that the regular expression is found in."""
        found = nodes.matching(pattern)
        return [name for name in self.table.registers if found.search(name)]

    def children(self) -> list[Node]:
        """The nodes at the top of the board's table."""
        return [self.node(name) for name in self.table.children.get("", [])]

    def __iter__(self) -> Iterator[Node]:
        return iter(self.children())

    # ---- by addresses

    def at(self, address: int, mask: int = WHOLE, mode: str = "single", size: int = 1) -> Node:
        """A node at an address that needs no name. `mode` is `single`, `block` or `port`, and `size` counts words."""
        if not 0 <= address <= WHOLE or not 1 <= mask <= WHOLE:
            raise BadLine(f"{self.name}: the address {address} and the mask {mask} are not words of 32 bits")
        return Node(self, f"{address:#010x}", Register(address, mask, "rw", mode, size))

    def read(self, address: int, mask: int = WHOLE) -> Value:
        """Reads the word at an address; under a mask its bits, shifted down."""
        return self.at(address, mask).read()

    def write(self, address: int, value: int, mask: int = WHOLE) -> Written:
        """Writes the word at an address; under a mask its bits alone, by one read-modify-write."""
        return self.at(address, mask).write(value)

    def readBlock(self, address: int, count: int, port: bool = False) -> Block:
        """Reads so many words from an address on, or all from the one address of a port."""
        return self._block(address, port).readBlock(count)

    def writeBlock(self, address: int, values: Iterable[int], port: bool = False) -> Written:
        """Writes words from an address on, or all to the one address of a port."""
        return self._block(address, port).writeBlock(values)

    def _block(self, address: int, port: bool) -> Node:
        return self.at(address, mode="port") if port else self.at(address, mode="block", size=WHOLE + 1 - address)

    def rmw_bits(self, address: int, and_term: int, or_term: int) -> Value:
        """The word becomes (word AND and_term) OR or_term. Gives the word before."""
        return self.at(address).rmw_bits(and_term, or_term)

    def rmw_sum(self, address: int, addend: int) -> Value:
        """The word becomes word + addend, modulo 2 to the 32nd. Gives the word before."""
        return self.at(address).rmw_sum(addend)

    # ---- what waits

    def queue(self, operation: Operation) -> None:
        """Has an operation wait for the dispatch."""
        with self._lock:
            self._queue.append(operation)

    def take_queue(self) -> list[Operation]:
        """The operations that wait, which wait no more."""
        queue, self._queue = self._queue, []
        return queue

    def packets(self, operations: list[Operation]) -> list[Packet]:
        """The packets that these operations go in."""
        return packets_of(operations, self.position, self.payload)

    def dispatch(self, seconds: float | None = None) -> None:
        """Sends what was asked of this board alone, as `Hub.dispatch` does."""
        self.hub.send([self], seconds)

    def __repr__(self) -> str:
        return f"<board {self.name} at {self.hub.host}:{self.hub.port}>"
