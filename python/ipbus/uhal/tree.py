"""The nodes of a uHAL address table by their dotted names, with what a session document has no counterpart of."""

from __future__ import annotations

import pathlib
from typing import NamedTuple

from ipbus.address_tables import AddressTables, TableNode
from ipbus.packets import WHOLE
from ipbus.registers import Register, RegisterTable
from ipbus.xml_tree import Element


class Extra(NamedTuple):
    """What an address table says of a node besides its register."""

    module: str = ""
    parameters: str = ""
    firmware_info: str = ""


class AddressTree(NamedTuple):
    """The registers of an address table, and their extras, by dotted names."""

    table: RegisterTable
    extras: dict[str, Extra]


def read_tree(file: pathlib.Path, named_by: Element | None = None) -> AddressTree:
    """The tree of an address table. What cannot be meant is refused by file and line."""
    tables = AddressTables()
    name = tables.add(file, named_by=named_by)
    tables.check_sizes(name)
    registers: dict[str, Register] = {}
    extras: dict[str, Extra] = {}
    _add(tables, tables.tables[name], "", 0, registers, extras)
    return AddressTree(RegisterTable(registers), extras)


def _add(
    tables: AddressTables,
    nodes: list[TableNode],
    prefix: str,
    base: int,
    registers: dict[str, Register],
    extras: dict[str, Extra],
) -> None:
    for node in nodes:
        name, address = prefix + node.id, base + node.address
        registers[name] = _register(node, address)
        attributes = node.element.attributes
        extras[name] = Extra(*(attributes.get(key, "") for key in ("module", "parameters", "fwinfo")))
        below = tables.tables[node.module] if node.module else node.nodes
        _add(tables, below, f"{name}.", address, registers, extras)


def _register(node: TableNode, address: int) -> Register:
    keys = node.keys
    texts = (keys.get(key, "") for key in ("tags", "description"))
    mode = keys.get("mode", "single")
    return Register(address, keys.get("mask", WHOLE), keys.get("permission", "rw"), mode, keys.get("size", 1), *texts)


def pairs_of(text: str) -> dict[str, str]:
    """The pairs of a text as `width=4;speed=fast`. A word without a value has an empty one."""
    pairs = (part.partition("=") for part in text.split(";") if part.strip())
    return {key.strip(): value.strip() for key, _, value in pairs}


def firmware_info_of(text: str) -> dict[str, str]:
    """The firmware info of a text as `endpoint;width=4`: its first word is the type."""
    kind, _, rest = text.partition(";")
    return {"type": kind.strip(), **pairs_of(rest)} if kind.strip() else {}
