"""Registers by their names, from the register tables of a session document."""

from __future__ import annotations

from collections.abc import Mapping
from typing import Any, NamedTuple

from ipbus.errors import BadDocument
from ipbus.packets import WHOLE

MOST_NAMES = 65_536
DEEPEST = 16

PERMISSIONS = {
    "r": "r",
    "read": "r",
    "w": "w",
    "write": "w",
    "rw": "rw",
    "wr": "rw",
    "readwrite": "rw",
    "writeread": "rw",
}
MODES = {
    "single": "single",
    "block": "block",
    "incremental": "block",
    "inc": "block",
    "port": "port",
    "non-incremental": "port",
    "non-inc": "port",
    "hierarchical": "hierarchical",
}


def shift_of(mask: int) -> int:
    """How many bits stand below the lowest bit of a mask."""
    return (mask & -mask).bit_length() - 1


class Register(NamedTuple):
    """A register of a board: `address` in words, `mask` of 32 bits, `permission` `r`, `w` or `rw`, `mode` `single`,
    `block`, `port` or `hierarchical`, and `size` in words."""

    address: int
    mask: int = WHOLE
    permission: str = "rw"
    mode: str = "single"
    size: int = 1
    tags: str = ""
    description: str = ""

    @property
    def shift(self) -> int:
        """How many bits stand below the lowest bit of the mask."""
        return shift_of(self.mask)


def number_of(value: Any) -> int:
    """A TOML integer, or a text in decimal digits or in hexadecimal ones after 0x."""
    if isinstance(value, str):
        return int(value, 16 if value[:2] in ("0x", "0X") else 10)
    if isinstance(value, bool) or not isinstance(value, int):
        raise BadDocument(f"{value!r} is no number")
    return value


def _word_of(words: Mapping[str, str], word: str) -> str:
    if word not in words:
        raise BadDocument(f"{word!r} is none of {', '.join(words)}")
    return words[word]


class RegisterTable:
    """The registers of a table by their dotted names, in the order of the table, and the names below each."""

    def __init__(self, registers: Mapping[str, Register]) -> None:
        self.registers = dict(registers)
        self.children: dict[str, list[str]] = {}
        for name in self.registers:
            self.children.setdefault(name.rpartition(".")[0], []).append(name)

    @classmethod
    def of(cls, tables: Mapping[str, Any], name: str) -> RegisterTable:
        """The registers of the table of this name, those of its modules among them."""
        found: dict[str, Register] = {}
        _add_registers(found, tables, _table(tables, name), "", 0, 1)
        return cls(found)


def _table(tables: Mapping[str, Any], name: str) -> list:
    if name not in tables:
        raise BadDocument(f"there is no register table {name}")
    return tables[name]


def _add_registers(found: dict, tables: Mapping, nodes: list, prefix: str, base: int, depth: int) -> None:
    if depth > DEEPEST:
        raise BadDocument(f"a register below {prefix} has more than {DEEPEST} ids, or a module leads back to itself")
    for node in nodes:
        below = _table(tables, node["module"]) if "module" in node else node.get("nodes", [])
        for name, offset in _places_of(node):
            address = base + number_of(node.get("address", 0)) + offset
            found[prefix + name] = _register(node, address)
            if len(found) > MOST_NAMES:
                raise BadDocument(f"a table has more than {MOST_NAMES} names")
            if below:
                _add_registers(found, tables, below, f"{prefix}{name}.", address, depth + 1)


def _places_of(node: Mapping[str, Any]) -> list[tuple[str, int]]:
    """The ids of a node, of which there are several if it has a count, and how many words each is further on."""
    if "count" not in node:
        return [(node["id"], 0)]
    stride = number_of(node.get("stride", 1))
    return [(f"{node['id']}[{index}]", index * stride) for index in range(number_of(node["count"]))]


def _register(node: Mapping[str, Any], address: int) -> Register:
    return Register(
        address,
        number_of(node.get("mask", WHOLE)),
        _word_of(PERMISSIONS, node.get("permission", "rw")),
        _word_of(MODES, node.get("mode", "single")),
        number_of(node.get("size", 1)),
        node.get("tags", ""),
        node.get("description", ""),
    )
