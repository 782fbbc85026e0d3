"""Devices and their clients as uHAL has them."""

from __future__ import annotations

from collections.abc import Iterable

from ipbus.boards import Board
from ipbus.packets import WHOLE
from ipbus.uhal.enums import BlockReadWriteMode
from ipbus.uhal.exceptions import Named
from ipbus.uhal.nodes import Node
from ipbus.uhal.tree import AddressTree
from ipbus.values import Block, Value, Written

MILLISECONDS = 1000


class ClientInterface(Named):
    """The client of a device, which asks by addresses. What it asks waits for the dispatch of the device."""

    def __init__(self, board: Board, name: str, uri: str) -> None:
        self._board = board
        self._id = name
        self._uri = uri

    def id(self) -> str:
        """The id of the connection."""
        return self._id

    def uri(self) -> str:
        """The URI of the connection."""
        return self._uri

    def read(self, address: int, mask: int = WHOLE) -> Value:
        """Reads the word at an address; under a mask its bits, shifted down."""
        return self._board.read(address, mask)

    def write(self, address: int, value: int, mask: int = WHOLE) -> Written:
        """Writes the word at an address; under a mask its bits alone, by one read-modify-write."""
        return self._board.write(address, value, mask)

    def readBlock(
        self, address: int, size: int, mode: BlockReadWriteMode = BlockReadWriteMode.INCREMENTAL
    ) -> Block:
        """Reads so many words from an address on, or all from the one address."""
        return self._board.readBlock(address, size, mode is BlockReadWriteMode.NON_INCREMENTAL)

    def writeBlock(
        self, address: int, values: Iterable[int], mode: BlockReadWriteMode = BlockReadWriteMode.INCREMENTAL
    ) -> Written:
        """Writes words from an address on, or all to the one address."""
        return self._board.writeBlock(address, values, mode is BlockReadWriteMode.NON_INCREMENTAL)

    def rmw_bits(self, address: int, and_term: int, or_term: int) -> Value:
        """The word becomes (word AND and_term) OR or_term. Gives the word before."""
        return self._board.rmw_bits(address, and_term, or_term)

    def rmw_sum(self, address: int, addend: int) -> Value:
        """The word becomes word + addend, modulo 2 to the 32nd. Gives the word before."""
        return self._board.rmw_sum(address, addend)

    def dispatch(self) -> None:
        """Sends what was asked of the device and fills the values."""
        self._board.dispatch()

    def setTimeoutPeriod(self, milliseconds: int) -> None:
        """How long connecting to the hub, and a dispatch as a whole, may take, for all devices of this hub. How long
        the hub waits for a board stands in the session document."""
        self._board.hub.seconds = milliseconds / MILLISECONDS

    def getTimeoutPeriod(self) -> int:
        """How long a dispatch as a whole may take, in milliseconds."""
        return round(self._board.hub.seconds * MILLISECONDS)


class HwInterface(Named):
    """A device: a board of the hub, with the address table of its connection."""

    def __init__(self, board: Board, tree: AddressTree, name: str, uri: str) -> None:
        self.board = board
        self.tree = tree
        self._client = ClientInterface(board, name, uri)

    def id(self) -> str:
        """The id of the connection."""
        return self._client.id()

    def uri(self) -> str:
        """The URI of the connection."""
        return self._client.uri()

    def getNode(self, path: str = "") -> Node:
        """The node of this name, or the top of the address table."""
        return Node(self, path)

    def getNodes(self, pattern: str = ".*") -> list[str]:
        """The names of all nodes that the regular expression matches as a whole."""
        return self.getNode().getNodes(pattern)

    def getClient(self) -> ClientInterface:
        """The client of the device, which asks by addresses."""
        return self._client

    def dispatch(self) -> None:
        """Sends what was asked of the device and fills the values. Raises the first error, after all have theirs."""
        self._client.dispatch()

    def setTimeoutPeriod(self, milliseconds: int) -> None:
        """How long connecting to the hub, and a dispatch as a whole, may take."""
        self._client.setTimeoutPeriod(milliseconds)

    def getTimeoutPeriod(self) -> int:
        """How long a dispatch as a whole may take, in milliseconds."""
        return self._client.getTimeoutPeriod()

    def __str__(self) -> str:
        return self.id()
