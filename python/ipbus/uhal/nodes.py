"""Nodes as uHAL has them."""

from __future__ import annotations

import re
from collections.abc import Iterable, Iterator
from typing import TYPE_CHECKING

from ipbus import nodes
from ipbus.errors import BadLine
from ipbus.registers import Register
from ipbus.uhal.enums import BlockReadWriteMode, NodePermission
from ipbus.uhal.exceptions import Named
from ipbus.uhal.tree import Extra, firmware_info_of, pairs_of
from ipbus.values import Block, Value, Written

if TYPE_CHECKING:
    from ipbus.uhal.interface import ClientInterface, HwInterface

# the top of a device is a group at address 0
TOP = Register(0, mode="hierarchical")


class Node(Named):
    """A node of a device's address table. Its path begins below the root of the address table."""

    def __init__(self, device: HwInterface, path: str) -> None:
        self._device = device
        self._path = path
        board = device.board
        self._node = board.node(path) if path else nodes.Node(board, "", TOP)
        self._extra = device.tree.extras.get(path, Extra())

    # ---- the tree

    def getNode(self, path: str = "") -> Node:
        """The node of this name below this one; this one if there is no name."""
        return Node(self._device, self._below(path)) if path else self

    def _below(self, path: str) -> str:
        return f"{self._path}.{path}" if self._path else path

    def getNodes(self, pattern: str = ".*") -> list[str]:
        """The names of all nodes below this one, as seen from it, that the regular expression matches as a whole."""
        prefix = self._below("")
        try:
            matches = re.compile(pattern).fullmatch
        except re.error as error:
            raise BadLine(f"{pattern!r} is no regular expression: {error}") from None
        below = (name[len(prefix) :] for name in self._device.tree.table.registers if name.startswith(prefix))
        return [name for name in below if matches(name)]

    def __iter__(self) -> Iterator[Node]:
        """This node, and then all below it."""
        yield self
        for name in self.getNodes():
            yield self.getNode(name)

    # ---- what the node is

    def getId(self) -> str:
        """The last id of the path."""
        return self._path.rpartition(".")[2]

    def getPath(self) -> str:
        """The ids from the top of the address table down to this node, with dots between."""
        return self._path

    def getAddress(self) -> int:
        """The address of its (first) word."""
        return self._node.address

    def getMask(self) -> int:
        """Its bits in the word."""
        return self._node.mask

    def getSize(self) -> int:
        """How many words a block has; 1 for any other node."""
        return self._node.size

    def getMode(self) -> BlockReadWriteMode:
        """How its words lie."""
        return BlockReadWriteMode(self._node.mode)

    def getPermission(self) -> NodePermission:
        """What may be done with it."""
        return NodePermission(self._node.permission)

    def getTags(self) -> str:
        """The tags of the address table."""
        return self._node.tags

    def getDescription(self) -> str:
        """The description of the address table."""
        return self._node.description

    def getModule(self) -> str:
        """The address table of its module, as the attribute `module` has it."""
        return self._extra.module

    def getParameters(self) -> dict[str, str]:
        """The attribute `parameters` by its keys."""
        return pairs_of(self._extra.parameters)

    def getFirmwareInfo(self) -> dict[str, str]:
        """The attribute `fwinfo` by its keys; its first word is the `type`."""
        return firmware_info_of(self._extra.firmware_info)

    def getClient(self) -> ClientInterface:
        """The client of the device, which asks by addresses."""
        return self._device.getClient()

    # ---- what is asked

    def read(self) -> Value:
        """Reads the word; under a mask its bits, shifted down."""
        return self._node.read()

    def write(self, value: int) -> Written:
        """Writes the word; under a mask its bits alone, by one read-modify-write on the board."""
        return self._node.write(value)

    def readBlock(self, size: int) -> Block:
        """Reads so many words."""
        return self._node.readBlock(size)

    def readBlockOffset(self, size: int, offset: int) -> Block:
        """Reads so many words, beginning `offset` words after the first one."""
        return self._node.readBlock(size, offset)

    def writeBlock(self, values: Iterable[int]) -> Written:
        """Writes these words."""
        return self._node.writeBlock(values)

    def writeBlockOffset(self, values: Iterable[int], offset: int) -> Written:
        """Writes these words, beginning `offset` words after the first one."""
        return self._node.writeBlock(values, offset)

    def __repr__(self) -> str:
        return f"<node {self._path or 'at the top'} of {self._device.id()}>"
