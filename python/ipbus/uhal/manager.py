"""Connections files as uHAL takes them, and the boards of the hub that their connections are."""

from __future__ import annotations

import argparse
import glob
import os
import pathlib
import re
from collections.abc import Sequence

from ipbus.address_tables import SCHEME, AddressTables, expanded, file_of
from ipbus.arguments import end_of
from ipbus.boards import Board
from ipbus.connections import ADDRESS, CONTROL_HUB, UDP, attribute, board_name, connections_of
from ipbus.connections import end_of as end_of_uri
from ipbus.documents import MTU, BoardEntry, Document
from ipbus.errors import BadDocument, BadLine
from ipbus.hub import Hub
from ipbus.uhal.exceptions import ConnectionUIDDoesNotExist, Named, ProtocolDoesNotExist
from ipbus.uhal.interface import HwInterface
from ipbus.uhal.tree import read_tree
from ipbus.xml_tree import Element

# environment variables, and what is taken if they are not set
HUB, SESSION, MTU_OF_BOARDS = "IPBUS_HUB", "IPBUS_SESSION", "IPBUS_MTU"
HUB_HERE = "127.0.0.1:5000"
SESSION_BESIDE = "session.toml"

# one connection to a hub for all devices
_hubs: dict[tuple[str, str], Hub] = {}


def _hub(folder: pathlib.Path) -> Hub:
    """The hub, whose document stands in this folder if the environment does not say another one."""
    where = os.environ.get(HUB, HUB_HERE)
    session = pathlib.Path(os.environ.get(SESSION) or folder / SESSION_BESIDE)
    if not session.exists():
        makes = f"`ipbus-session connections.xml > {SESSION_BESIDE}` makes one for the hub to serve"
        raise BadDocument(f"there is no session document {session}: {makes}, and {SESSION}=FILE names another one")
    key = where, str(session.resolve())
    if key not in _hubs:
        try:
            host, port = end_of(where)
            mtu = int(os.environ.get(MTU_OF_BOARDS, MTU))
        except (argparse.ArgumentTypeError, ValueError) as error:
            raise BadLine(f"{HUB} or {MTU_OF_BOARDS}: {error}") from None
        _hubs[key] = Hub(session, host, port, mtu=mtu, connect=False)
    return _hubs[key]


def _entry(document: Document, element: Element) -> BoardEntry:
    """The board of the document that a connection is: by its id, or by the address of its board."""
    name, uri = attribute(element, "id"), attribute(element, "uri")
    if uri.split("://")[0] not in (UDP, CONTROL_HUB):
        raise ProtocolDoesNotExist(element.note(f"connection {name}: {uri}"))
    host, port, _ = end_of_uri(element, uri)
    address = f"{host}:{int(port)}"
    entry = document.boards.get(board_name(name))
    # a host name has its address in the document
    is_there = entry is not None and (entry.address in (None, address) or not ADDRESS.fullmatch(host))
    if entry is not None and is_there:
        return entry
    for other in document.boards.values():
        if other.address == address:
            return other
    known = ", ".join(f"{board.name} at {board.address}" for board in document.boards.values())
    told = f"connection {name} at {address} is none of the hub's boards: {known}"
    raise ConnectionUIDDoesNotExist(element.note(told))


def _device(element: Element, folder: pathlib.Path) -> HwInterface:
    hub = _hub(folder)
    entry = _entry(hub.document, element)
    attribute(element, "address_table")
    tree = read_tree(file_of(element, "address_table", element.file.parent), element)
    board = Board(hub, attribute(element, "id"), entry.position, tree.table, hub.mtu_of(entry))
    return HwInterface(board, tree, attribute(element, "id"), attribute(element, "uri"))


class ConnectionManager(Named):
    """The connections of a file, as `file://connections.xml`, or of several, with ; between them or * in a name."""

    def __init__(self, files: str, _patterns: Sequence[str] = ()) -> None:
        self._connections: dict[str, Element] = {}
        for file in _files(files):
            for element in connections_of(file, AddressTables()):
                self._connections.setdefault(attribute(element, "id"), element)

    def getDevices(self, pattern: str = ".*") -> list[str]:
        """The ids of the connections that the regular expression matches as a whole."""
        try:
            matches = re.compile(pattern).fullmatch
        except re.error as error:
            raise BadLine(f"{pattern!r} is no regular expression: {error}") from None
        return [name for name in self._connections if matches(name)]

    def getDevice(self, name: str) -> HwInterface:
        """The device of the connection with this id. Nothing is sent before its first dispatch."""
        if name not in self._connections:
            known = ", ".join(self._connections)
            raise ConnectionUIDDoesNotExist(f"no connection has the id {name}, but {known}")
        element = self._connections[name]
        return _device(element, element.file.parent)


def _files(text: str) -> list[pathlib.Path]:
    """The files of a text as `file://a.xml;file://boards/*.xml`."""
    found: list[pathlib.Path] = []
    for part in text.split(";"):
        name = part.strip()
        name = expanded(name[len(SCHEME) :] if name.startswith(SCHEME) else name)
        names = sorted(glob.glob(name)) or [name]
        found += map(pathlib.Path, names)
    return found


def getDevice(name: str, uri: str, address_table: str) -> HwInterface:
    """The device with this id, URI and address table, without a connections file. The session document is that of
    `IPBUS_SESSION`, or `session.toml` of the working folder."""
    here = pathlib.Path()
    table = address_table if address_table.startswith(SCHEME) else f"{SCHEME}{address_table}"
    attributes = {"id": name, "uri": uri, "address_table": table}
    return _device(Element(here / "getDevice", 1, "connection", attributes), here)
