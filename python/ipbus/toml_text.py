"""Register tables of a session document as TOML."""

from __future__ import annotations

import json
from collections.abc import Iterator, Sequence
from typing import TYPE_CHECKING

if TYPE_CHECKING:
    from ipbus.address_tables import TableNode

HEXADECIMAL = {"address": "0x{:x}", "mask": "0x{:08x}"}
KEYS = ("id", "address", "mask", "permission", "mode", "size", "module", "tags", "description")


def text_of(text: str) -> str:
    """A TOML text: JSON spells it in the same way, but for the one sign below."""
    return json.dumps(text, ensure_ascii=False).replace("\x7f", "\\u007f")


def _number_text(key: str, value: int) -> str:
    return HEXADECIMAL.get(key, "{}").format(value)


def _pairs_of(node: TableNode) -> Iterator[str]:
    for key in KEYS:
        if key in node.keys:
            value = node.keys[key]
            yield f"{key} = {text_of(value) if isinstance(value, str) else _number_text(key, value)}"


def _inline(node: TableNode, indent: str) -> str:
    """A node below another one, in a line, with a line for each node below it."""
    text = f"{indent}{{ {', '.join(_pairs_of(node))}"
    if not node.nodes:
        return text + " },\n"
    below = "".join(_inline(child, indent + "  ") for child in node.nodes)
    return f"{text}, nodes = [\n{below}{indent}] }},\n"


def table_text(name: str, nodes: Sequence[TableNode]) -> str:
    """The nodes of a table. They may stand anywhere after the first keys of a document."""
    text = ""
    for node in nodes:
        text += f"[[tables.{name}]]\n" + "".join(pair + "\n" for pair in _pairs_of(node))
        if node.nodes:
            text += "nodes = [\n" + "".join(_inline(child, "  ") for child in node.nodes) + "]\n"
        text += "\n"
    return text
