"""Registers of a board, as one asks them: `Node`. What is asked waits for the dispatch of its hub or board."""

from __future__ import annotations

import functools
import operator
import re
from collections.abc import Iterable, Iterator
from typing import TYPE_CHECKING, Any

from ipbus import operations
from ipbus.errors import (
    BadLine,
    BitsOutside,
    NoReadPermission,
    NotWhole,
    NoWritePermission,
    PastSize,
    Refused,
    UnknownName,
    WrongMode,
)
from ipbus.operations import Request
from ipbus.packets import READ, WHOLE
from ipbus.registers import Register
from ipbus.values import Block, Value, Written

if TYPE_CHECKING:
    from ipbus.hub import Board


def matching(pattern: str) -> re.Pattern[str]:
    """A regular expression, or a refusal that says what is wrong with it."""
    try:
        return re.compile(pattern)
    except re.error as error:
        raise BadLine(f"{pattern!r} is no regular expression: {error}") from None


class Node:
    """A register of a board. Its calls ask for something and answer the value that the dispatch fills. What breaks a
    rule of the register's mask, permission, mode or size is refused at once, as a `Refused`, and nothing is sent."""

    def __init__(self, board: Board, name: str, register: Register) -> None:
        self.board = board
        self.name = name
        self.register = register
        self.path = f"{board.name}:{name}"

    # ---- what the register is

    @property
    def address(self) -> int:
        """The address of its (first) word."""
        return self.register.address

    @property
    def mask(self) -> int:
        """Its bits in the word."""
        return self.register.mask

    @property
    def size(self) -> int:
        """How many words a block has; 1 for any other register."""
        return self.register.size

    @property
    def permission(self) -> str:
        """`r`, `w` or `rw`."""
        return self.register.permission

    @property
    def mode(self) -> str:
        """`single`, `block`, `port`, or `hierarchical` for a group."""
        return self.register.mode

    @property
    def tags(self) -> str:
        """The tags of the register table."""
        return self.register.tags

    @property
    def description(self) -> str:
        """The description of the register table."""
        return self.register.description

    def node(self, path: str) -> Node:
        """The node of this name below this one. `UnknownName` if there is none."""
        return self.board.node(f"{self.name}.{path}")

    def nodes(self, pattern: str = "") -> list[str]:
        """The names of all nodes below this one, as seen from it, that the regular expression is found in."""
        found, prefix = matching(pattern), self.name + "."
        below = (name[len(prefix) :] for name in self.board.table.registers if name.startswith(prefix))
        return [name for name in below if found.search(name)]

    def children(self) -> list[Node]:
        """The nodes right below this one."""
        return [self.board.node(name) for name in self.board.table.children.get(self.name, [])]

    def __iter__(self) -> Iterator[Node]:
        return iter(self.children())

    # ---- what is asked

    def read(self) -> Value:
        """Reads the word; under a mask its bits, shifted down."""
        value = Value("read", self.path, self.register.mask)
        self.board.queue((value, self._reading))
        return value

    @functools.cached_property
    def _reading(self) -> tuple[Request]:
        """The transaction of each read, where the register may be read."""
        self._check("read", "r")
        return (Request(READ, self.register.address, 1),)

    def write(self, value: int) -> Written:
        """Writes the word; under a mask its bits alone, by one read-modify-write on the board."""
        (value,) = self._words("write", [value])
        self._check("write", "w")
        register = self.register
        if value << register.shift & ~register.mask:
            raise self._refusal(BitsOutside, "write", f"{value:#x} does not fit the mask {register.mask:#010x}")
        return self._ask(Written("write", self.path), [operations.write_request(register, value)])

    def readBlock(self, count: int | None = None, offset: int = 0) -> Block:
        """Reads so many words, all from the offset on if no number is given, beginning `offset` words after the
        first one. A port gives all words from its one address."""
        offset = self._whole_number("readblock", offset)
        count = self.register.size - offset if count is None else self._whole_number("readblock", count)
        self._check_counts("readblock", count, offset)
        self._check("readblock", "r")
        self._check_block("readblock", count, offset)
        address, is_port = self.register.address + offset, self.register.mode == "port"
        requests = operations.read_requests(address, is_port, count, self.board.payload)
        return self._ask(Block("readblock", self.path, len(requests)), requests)

    def writeBlock(self, values: Iterable[int], offset: int = 0) -> Written:
        """Writes these words, the first of them `offset` words after the first word of the block. A port takes all
        words at its one address."""
        words = self._words("writeblock", values)
        offset = self._whole_number("writeblock", offset)
        self._check_counts("writeblock", len(words), offset)
        self._check("writeblock", "w")
        self._check_block("writeblock", len(words), offset)
        address, is_port = self.register.address + offset, self.register.mode == "port"
        requests = operations.write_requests(address, is_port, words, self.board.payload)
        return self._ask(Written("writeblock", self.path, len(requests)), requests)

    def rmw_bits(self, and_term: int, or_term: int) -> Value:
        """The word becomes (word AND and_term) OR or_term, in one step on the board. Gives the word before."""
        terms = self._words("rmwbits", [and_term, or_term])
        self._check("rmwbits", "rw")
        self._check_whole("rmwbits")
        request = operations.bits_request(self.register.address, *terms)
        return self._ask(Value("rmwbits", self.path), [request])

    def rmw_sum(self, addend: int) -> Value:
        """The word becomes word + addend, modulo 2 to the 32nd, in one step on the board. Gives the word before."""
        (addend,) = self._words("rmwsum", [addend])
        self._check("rmwsum", "rw")
        self._check_whole("rmwsum")
        request = operations.sum_request(self.register.address, addend)
        return self._ask(Value("rmwsum", self.path), [request])

    def _ask(self, result: Any, requests: list[Request]) -> Any:
        self.board.queue((result, requests))
        return result

    # ---- the rules, in the order of those of scripts

    def _refusal(self, kind: type[Refused], verb: str, why: str) -> Refused:
        return kind(f"{verb} {self.path}: {why}")

    def _whole_number(self, verb: str, value: Any) -> int:
        try:
            return operator.index(value)
        except TypeError:
            raise self._refusal(BadLine, verb, f"{value!r} is no whole number") from None

    def _words(self, verb: str, values: Iterable[Any]) -> list[int]:
        try:
            words = [self._whole_number(verb, value) for value in values]
        except TypeError:
            raise self._refusal(BadLine, verb, f"{values!r} is no list of words") from None
        outside = [word for word in words if not 0 <= word <= WHOLE]
        if outside:
            raise self._refusal(BadLine, verb, f"{outside[0]} is no word of 32 bits")
        if not words:
            raise self._refusal(BadLine, verb, "there is no word")
        return words

    def _check(self, verb: str, rights: str) -> None:
        register = self.register
        for right in rights:
            if right not in register.permission:
                kind = NoReadPermission if right == "r" else NoWritePermission
                raise self._refusal(kind, verb, f"its permission is {register.permission}")
        if register.mode == "hierarchical":
            raise self._refusal(WrongMode, verb, "it is a group of registers")

    def _check_counts(self, verb: str, count: int, offset: int) -> None:
        if not 1 <= count <= WHOLE or not 0 <= offset <= WHOLE:
            raise self._refusal(BadLine, verb, f"{count} words from the offset {offset} are no block")

    def _check_block(self, verb: str, count: int, offset: int) -> None:
        register = self.register
        if offset and register.mode == "port":
            raise self._refusal(WrongMode, verb, "it is a port, which has one address and no offset")
        is_endless = register.mode == "port" and register.size == 1
        if count + offset > register.size and not is_endless:
            told = f"{count} words" + (f" from the offset {offset}" if offset else "")
            raise self._refusal(PastSize, verb, f"{told} are asked of {register.size}")
        self._check_whole(verb)

    def _check_whole(self, verb: str) -> None:
        if self.register.mask != WHOLE:
            raise self._refusal(NotWhole, verb, f"its mask is {self.register.mask:#010x}")

    def __repr__(self) -> str:
        return f"<{self.path} at {self.register.address:#010x}>"


def find(board: Board, name: str) -> Node:
    """The node of a board by its full name."""
    register = board.table.registers.get(name)
    if register is None:
        raise UnknownName(f"{board.name} has no register {name}")
    return Node(board, name, register)
