"""Session documents: the boards and the register tables that a hub serves. Scripts in them are left alone.

The document is taken to be one that the hub takes; `ipbus check` says what is wrong with another one."""

from __future__ import annotations

import os
import pathlib
import sys
from collections.abc import Iterable
from typing import Any, NamedTuple

from ipbus.errors import BadDocument
from ipbus.registers import RegisterTable, number_of

MTU = 1500


class BoardEntry(NamedTuple):
    """A board of a document: its position from 0, its registers, its MTU in bytes if the document says one, and its
    `ADDRESS:PORT` if it is on the network."""

    name: str
    position: int
    table: RegisterTable
    mtu: int | None
    address: str | None


def toml_module() -> Any:
    """The module that reads TOML: a part of Python from 3.11 on."""
    try:
        import tomllib
    except ModuleNotFoundError:
        try:
            import tomli as tomllib
        except ModuleNotFoundError:
            version = "{}.{}".format(*sys.version_info)
            raise BadDocument(f"Python {version} reads no TOML by itself: `pip install tomli` adds that") from None
    return tomllib


class Document:
    """The boards of a session document, by their names."""

    def __init__(self, boards: Iterable[BoardEntry]) -> None:
        self.boards = {board.name: board for board in boards}

    @classmethod
    def parse(cls, text: str, where: str = "the document") -> Document:
        """The document of a text in TOML. `where` is what errors call it."""
        toml = toml_module()
        try:
            session = toml.loads(text)
            tables = session.get("tables", {})
            compiled: dict[str, RegisterTable] = {}
            boards: dict[str, BoardEntry] = {}
            for position, board in enumerate(session.get("board", [])):
                name = board["table"]
                if name not in compiled:
                    compiled[name] = RegisterTable.of(tables, name)
                entry = _entry(board, position, compiled[name])
                if boards.setdefault(entry.name, entry) is not entry:
                    raise BadDocument(f"two boards have the name {entry.name}")
        except BadDocument as error:
            raise BadDocument(f"{where}: {error.what}") from None
        except toml.TOMLDecodeError as error:
            raise BadDocument(f"{where} is no TOML: {error}") from None
        except (KeyError, TypeError, ValueError, AttributeError) as error:
            raise BadDocument(f"{where} is no session document: {type(error).__name__} at {error}") from error
        if not boards:
            raise BadDocument(f"{where} has no [[board]]")
        return cls(boards.values())

    @classmethod
    def read(cls, path: str | os.PathLike[str] | Document) -> Document:
        """The document of a file. One that was read before is taken as it is."""
        if isinstance(path, Document):
            return path
        try:
            text = pathlib.Path(path).read_text("utf-8")
        except OSError as error:
            raise BadDocument(f"{path} cannot be read: {error.strerror}") from error
        except UnicodeDecodeError as error:
            raise BadDocument(f"{path} is no text in UTF-8: {error}") from error
        return cls.parse(text, str(path))


def _entry(board: dict, position: int, table: RegisterTable) -> BoardEntry:
    is_udp = board.get("link", "sim") == "udp"
    mtu = None if is_udp else number_of(board.get("mtu", MTU))
    return BoardEntry(board["name"], position, table, mtu, board.get("address") if is_udp else None)


