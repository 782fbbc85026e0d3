"""uHAL connections files, read from XML, as the boards of a session document."""

from __future__ import annotations

import pathlib
import re
import socket
from collections.abc import Sequence
from typing import NamedTuple
from urllib.parse import parse_qs

from ipbus.address_tables import AddressTables, file_of
from ipbus.toml_text import text_of
from ipbus.xml_tree import Element, read_xml

MOST_BOARDS = 16
UDP = "ipbusudp-2.0"
CONTROL_HUB = "chtcp-2.0"
TARGET = "target"
URI = re.compile(r"([A-Za-z0-9.+-]+)://([^/?#:]+):([0-9]{1,5})/?(?:\?(.*))?")
END = re.compile(r"([^/?#:]+):([0-9]{1,5})")
BYTE = "(25[0-5]|2[0-4][0-9]|1[0-9][0-9]|[1-9]?[0-9])"
ADDRESS = re.compile(rf"{BYTE}\.{BYTE}\.{BYTE}\.{BYTE}")


class BoardOfConnection(NamedTuple):
    """A board on a UDP port: its name, its register table, and its address with its port."""

    name: str
    table: str
    address: str


def attribute(element: Element, name: str) -> str:
    """An attribute that a connection has."""
    value = element.attributes.get(name, "").strip()
    if not value:
        raise element.refused(f"a connection has no {name}")
    return value


def end_of(element: Element, uri: str) -> tuple[str, str, list[str]]:
    """The host and the port of the board that a URI leads to, and what of the URI is left out."""
    name = element.attributes.get("id", "")
    scheme = uri.split("://")[0]
    found = URI.fullmatch(uri)
    if scheme == UDP and found:
        _, host, port, query = found.groups()
        return host, port, [f"?{query} of {uri}"] if query else []
    if scheme == CONTROL_HUB and found:
        _, host, port, query = found.groups()
        keys = parse_qs(query or "")
        target = END.fullmatch(keys.pop(TARGET, [""])[0])
        if not target:
            raise element.refused(f"connection {name}: {uri!r} has no ?{TARGET}=ADDRESS:PORT of its board")
        left_out = [f"the control hub {host}:{port} of {name}"]
        return target[1], target[2], left_out + [f"{key} of {uri}" for key in keys]
    if scheme in (UDP, CONTROL_HUB):
        form = f"{UDP}://host:port" if scheme == UDP else f"{CONTROL_HUB}://host:port?{TARGET}=address:port"
        raise element.refused(f"connection {name}: {uri!r} is not {form}")
    raise element.refused(f"connection {name}: {scheme} is not {UDP} or {CONTROL_HUB}")


def address_of(element: Element, uri: str, tables: AddressTables) -> str:
    """The address and port of a board, as the URI of its connection has them."""
    host, port, left_out = end_of(element, uri)
    if not 1 <= int(port) <= 65_535:
        raise element.refused(f"the port {port} is not 1 to 65535")
    for what in left_out:
        tables.note(element.note(f"{what} is left out"))
    if not ADDRESS.fullmatch(host):
        host = resolved(element, host, tables)
    return f"{host}:{int(port)}"


def resolved(element: Element, host: str, tables: AddressTables) -> str:
    """The IPv4 address that a host name has now: a session document has no names."""
    try:
        address = socket.gethostbyname(host)
    except (OSError, UnicodeError):
        raise element.refused(f"the host {host} has no IPv4 address here") from None
    tables.note(element.note(f"the host {host} stands as {address}"))
    return address


def board_name(connection: str) -> str:
    """The name of the board of a connection: its id, with _ for each sign that a board's name has not."""
    return re.sub("[^A-Za-z0-9_-]", "_", connection)[:64]


def board_of(element: Element, file: pathlib.Path, tables: AddressTables) -> BoardOfConnection:
    """The board of a connection. Its table joins `tables`."""
    name = attribute(element, "id")
    board = board_name(name)
    if board != name:
        tables.note(element.note(f"the connection {name} is the board {board}"))
    address = address_of(element, attribute(element, "uri"), tables)
    attribute(element, "address_table")
    table = tables.add(file_of(element, "address_table", file.parent), named_by=element)
    tables.check_sizes(table)
    return BoardOfConnection(board, table, address)


def connections_of(file: pathlib.Path, tables: AddressTables) -> list[Element]:
    """The connections of a connections file."""
    root = read_xml(file)
    if root.name != "connections":
        raise root.refused(f"the root is <{root.name}> and not <connections>")
    for element in root.elements:
        if element.name != "connection":
            tables.note(element.note(f"<{element.name}> is left out"))
    found = [element for element in root.elements if element.name == "connection"]
    if not found:
        raise root.refused("no connections")
    return found


def chosen(elements: list[Element], ids: Sequence[str], file: pathlib.Path) -> list[Element]:
    """The connections with these ids, all of them if there are no ids."""
    found = [element for element in elements if not ids or element.attributes.get("id") in ids]
    for name in ids:
        if not any(element.attributes["id"] == name for element in found):
            raise Element(file, 1, "", {}).refused(f"no connection has the id {name}")
    if len(found) > MOST_BOARDS:
        raise found[MOST_BOARDS].refused(f"more than {MOST_BOARDS} connections: name those that are wanted")
    return found


def read_connections(
    file: pathlib.Path, ids: Sequence[str], tables: AddressTables, takes_first: bool = False
) -> list[BoardOfConnection]:
    """The boards of a connections file, or of the connections with these ids. Their tables join `tables`. Of several
    connections to one address the first is taken if `takes_first` says so, and else that is refused."""
    boards: dict[str, BoardOfConnection] = {}
    for element in chosen(connections_of(file, tables), ids, file):
        board = board_of(element, file, tables)
        if any(board.name == other.name for other in boards.values()):
            raise element.refused(f"the board {board.name} stands there already")
        other = boards.setdefault(board.address, board)
        if other is board:
            continue
        same = f"the connection {board.name} leads to {board.address}, as {other.name} does"
        if not takes_first:
            raise element.refused(f"{same}, and a board stands once in a document: name one, or say --first")
        tables.note(element.note(f"{same}: it is left out"))
    return list(boards.values())


def boards_text(boards: Sequence[BoardOfConnection]) -> str:
    """The boards as TOML."""
    return "\n".join(
        f'[[board]]\nname = "{name}"\ntable = {text_of(table)}\nlink = "udp"\naddress = "{address}"\n'
        for name, table, address in boards
    )
