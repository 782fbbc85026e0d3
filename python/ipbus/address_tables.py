"""uHAL address tables, read from XML files, as register tables of a session document.

A file makes one table, and so does each file that a `module` of it names, however often it is named.
"""

from __future__ import annotations

import os
import pathlib
import re
from collections import Counter
from collections.abc import Mapping

from ipbus.packets import WHOLE
from ipbus.registers import DEEPEST, MODES, MOST_NAMES, PERMISSIONS
from ipbus.toml_text import table_text
from ipbus.xml_tree import Element, read_xml

GREATEST_SIZE = 4_194_304
SCHEME = "file://"
ID = re.compile("[A-Za-z0-9_-]{1,64}")
NUMBER = re.compile("0[xX]([0-9a-fA-F]+)|([0-9]+)")
MEANT = {"id", "address", "mask", "permission", "mode", "size", "module", "tags", "description"}
# what a session document has no counterpart of
LEFT_OUT = ("fwinfo", "class", "parameters")
# a root is the table itself, which has no address and no word
OF_NODES_ALONE = ("address", "mask", "permission", "mode", "size", "module")


class TableNode:
    """A node below a root: the keys of its TOML table, in their order, and its children."""

    def __init__(self, element: Element) -> None:
        self.element = element
        self.keys: dict[str, int | str] = {}
        self.nodes: list[TableNode] = []
        self.module: str | None = None

    @property
    def id(self) -> str:
        """The id, which is a part of the register's name."""
        return self.keys["id"]

    @property
    def address(self) -> int:
        """The address, counted from that of the node above."""
        return self.keys.get("address", 0)

    @property
    def last_address(self) -> int:
        """How many words its own last address is after its address."""
        return self.keys.get("size", 1) - 1 if self.keys.get("mode") == "block" else 0


class AddressTables:
    """The tables of some files, by the names of the files, and notes about what was left out of them."""

    def __init__(self) -> None:
        self.names: dict[pathlib.Path, str] = {}
        self.tables: dict[str, list[TableNode]] = {}
        self._notes: list[str] = []
        self._left_out: Counter[str] = Counter()
        self._first_left_out: Element | None = None
        self._reading: list[pathlib.Path] = []

    @property
    def notes(self) -> list[str]:
        """What was not taken over: a line for all that has no counterpart, and then one for each other thing."""
        if self._first_left_out is None:
            return self._notes
        counts = (f"{name} of {self._left_out[name]}" for name in LEFT_OUT if self._left_out[name])
        first = self._first_left_out.note(f"left out here and below: {', '.join(counts)} nodes")
        return [first, *self._notes]

    def note(self, text: str) -> None:
        """Adds a note."""
        self._notes.append(text)

    def add(self, file: pathlib.Path, name: str | None = None, named_by: Element | None = None) -> str:
        """The name of the table of a file, which is read if it was not before. `named_by` is the element that names
        the file."""
        key = file.resolve()
        if key in self._reading:
            raise named_by.refused(f"{file} takes itself as a module")
        if len(self._reading) > DEEPEST:
            raise named_by.refused(f"modules are nested more than {DEEPEST} deep")
        if key not in self.names:
            self.names[key] = self.free_name(name or re.sub("[^A-Za-z0-9_-]", "_", file.stem)[:60])
            self._reading.append(key)
            self.tables[self.names[key]] = self.read(file, named_by)
            self._reading.pop()
        return self.names[key]

    def free_name(self, name: str) -> str:
        """A name that no table has: this one, or with a number after it."""
        taken = self.names.values()
        number = 1
        free = name
        while free in taken:
            number += 1
            free = f"{name}_{number}"
        return free

    def read(self, file: pathlib.Path, named_by: Element | None) -> list[TableNode]:
        """The nodes of a file."""
        root = read_xml(file, named_by)
        if root.name != "node":
            raise root.refused(f"the root is <{root.name}> and no <node>")
        for name in OF_NODES_ALONE:
            value = root.attributes.get(name)
            if name == "address" and value is not None and self.number(root, name) == 0:
                continue
            if value is not None and (name, value) != ("mode", "hierarchical"):
                raise root.refused(f"the root has {name}={value!r}: that belongs to the nodes below it")
        self.look_at(root)
        for name in ("tags", "description"):
            if name in root.attributes:
                self.note(root.note(f"{name} of the root is left out"))
        nodes = self.nodes_of(root, file, 1)
        if not nodes:
            raise root.refused("the root has no nodes")
        return nodes

    def look_at(self, element: Element) -> None:
        """Leaves out what has no counterpart, and counts it."""
        what = element.attributes.get("id", "the root")
        for name in element.attributes:
            if name in LEFT_OUT:
                self._left_out[name] += 1
                self._first_left_out = self._first_left_out or element
            elif name.startswith("xmlns") or ":" in name:
                self.note(element.note(f"{name} of {what} is left out"))
            elif name not in MEANT:
                raise element.refused(f"{what} has the attribute {name}, which no node has")

    def nodes_of(self, element: Element, file: pathlib.Path, depth: int) -> list[TableNode]:
        """The nodes below an element, which are so many ids deep in their file."""
        nodes: list[TableNode] = []
        seen: dict[str, int] = {}
        for child in element.elements:
            if child.name != "node":
                self.note(child.note(f"<{child.name}> is left out"))
                continue
            if depth > DEEPEST:
                raise child.refused(f"a node is {depth} ids deep, and may be {DEEPEST}")
            node = self.node(child, file, depth)
            if node.id in seen:
                raise child.refused(f"the id {node.id} stands in line {seen[node.id]} already")
            seen[node.id] = child.line
            nodes.append(node)
        return nodes

    def node(self, element: Element, file: pathlib.Path, depth: int) -> TableNode:
        """The node of an element, with all below it."""
        self.look_at(element)
        node = TableNode(element)
        name = element.attributes.get("id")
        if name is None:
            raise element.refused("a node has no id")
        if not ID.fullmatch(name):
            raise element.refused(f"the id {name!r} is not 1 to 64 letters, digits, _ and -")
        node.keys["id"] = name
        if "address" in element.attributes:
            node.keys["address"] = self.number(element, "address")
        if "mask" in element.attributes:
            node.keys["mask"] = self.number(element, "mask")
            if node.keys["mask"] == 0:
                raise element.refused(f"the mask of {name} has no bit")
        if "permission" in element.attributes:
            node.keys["permission"] = self.word(element, "permission", PERMISSIONS)
        node.nodes = self.nodes_of(element, file, depth + 1)
        self.set_mode(node)
        self.set_module(node, file)
        for text in ("tags", "description"):
            if element.attributes.get(text):
                node.keys[text] = element.attributes[text]
        return node

    def number(self, element: Element, name: str) -> int:
        """A number as uHAL writes it: decimal, also after zeros, or hexadecimal after 0x or 0X."""
        text = element.attributes[name].strip()
        found = NUMBER.fullmatch(text)
        value = found and (int(found[1], 16) if found[1] else int(found[2]))
        if value is None or value > WHOLE:
            raise element.refused(f"{name}={text!r} is no number of 32 bits")
        return value

    def word(self, element: Element, name: str, words: Mapping[str, str]) -> str:
        """The one spelling of a word that has several."""
        text = element.attributes[name].strip()
        if text not in words:
            raise element.refused(f"{name}={text!r} is none of {', '.join(words)}")
        return words[text]

    def set_mode(self, node: TableNode) -> None:
        """The mode that is written. If none is: a block if there is a size of more than 1, a group if there
        are children and none is a field of the word, and else one word."""
        element, keys = node.element, node.keys
        name = keys["id"]
        size = self.number(element, "size") if "size" in element.attributes else None
        if size is not None and not 1 <= size <= GREATEST_SIZE:
            raise element.refused(f"the size of {name} is not 1 to {GREATEST_SIZE}")
        mode = None
        if "mode" in element.attributes:
            mode = self.word(element, "mode", MODES)
        elif size is not None and size > 1:
            mode = "block"
        elif "module" in element.attributes or node.nodes and "mask" not in keys and not has_field(node):
            mode = "hierarchical"
        if mode is not None:
            keys["mode"] = mode
        if size is not None:
            keys["size"] = size
        if mode == "block" and size is None:
            raise element.refused(f"the block {name} has no size")
        if mode in (None, "single", "hierarchical") and keys.get("size", 1) != 1:
            raise element.refused(f"{name} has a size of {size} and is {mode}")
        if mode in ("block", "port", "hierarchical") and keys.get("mask", WHOLE) != WHOLE:
            raise element.refused(f"{name} has a mask and is {mode}")
        if mode == "block" and node.nodes:
            raise element.refused(f"the block {name} has nodes below it")

    def set_module(self, node: TableNode, file: pathlib.Path) -> None:
        """Takes the table of the file that a module names."""
        element = node.element
        module = element.attributes.get("module")
        if module is None:
            return
        name = node.keys["id"]
        if node.nodes:
            raise element.refused(f"{name} has a module and nodes of its own")
        if node.keys["mode"] != "hierarchical":
            raise element.refused(f"{name} has a module and is {node.keys['mode']}")
        node.module = self.add(file_of(element, "module", file.parent), named_by=element)
        node.keys["module"] = node.module

    def check_sizes(self, name: str) -> None:
        """The registers that a table names are neither too many nor too deep, and all their addresses have 32 bits."""
        count = 0
        waiting = [(node, node.id, node.address) for node in reversed(self.tables[name])]
        while waiting:
            node, path, address = waiting.pop()
            count += 1
            if count > MOST_NAMES:
                raise node.element.refused(f"{path} is register {count} of {name}, and there may be {MOST_NAMES}")
            if path.count(".") >= DEEPEST:
                raise node.element.refused(f"{path} is {path.count('.') + 1} ids deep, and may be {DEEPEST}")
            if address + node.last_address > WHOLE:
                raise node.element.refused(f"{path} goes past the address 0xffffffff")
            below = self.tables[node.module] if node.module else node.nodes
            for child in reversed(below):
                waiting.append((child, f"{path}.{child.id}", address + child.address))

    def text(self) -> str:
        """All tables as TOML, in the order of their names as they were first met."""
        return "".join(table_text(name, nodes) for name, nodes in self.tables.items())


def has_field(node: TableNode) -> bool:
    """Whether a child is a field of the word of this node: some of its bits, at the same address."""
    return any("mask" in child.keys and child.address == 0 for child in node.nodes)


def file_of(element: Element, name: str, folder: pathlib.Path) -> pathlib.Path:
    """The file that an attribute names, beside the file that it stands in if the path is relative."""
    text = element.attributes[name].strip()
    if not text.startswith(SCHEME) or text == SCHEME:
        raise element.refused(f"{name}={text!r} is not file:// and a path")
    return folder / expanded(text[len(SCHEME) :])


def expanded(name: str) -> str:
    """The name of a file as uHAL takes it: `~` and environment variables stand for what they are in a shell."""
    return os.path.expandvars(os.path.expanduser(name))
