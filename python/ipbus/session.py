"""The command `ipbus-session`: prints a session document of a uHAL connections file.

Each connection is a board on a UDP port, with the register table of its address table; with IDs after the file those
connections alone. Their URIs are `ipbusudp-2.0://host:port`, or `chtcp-2.0://host:port?target=address:port`, whose
target is the board; others are refused by their names. What has no counterpart is not taken over, and standard error
says so. What cannot be meant ends it with status 3 and nothing printed, and standard error has the file and line."""

from __future__ import annotations

import argparse
import pathlib

from ipbus.address_tables import AddressTables
from ipbus.connections import boards_text, read_connections
from ipbus.converted import print_document


def main(words: list[str] | None = None) -> None:
    """Runs the command."""
    parser = argparse.ArgumentParser(prog="ipbus-session", description=__doc__.partition("\n\n")[2])
    parser.add_argument("--first", action="store_true", help="of several connections to one board take the first")
    parser.add_argument("file", type=pathlib.Path, help="a connections file of uHAL, in XML")
    parser.add_argument("id", nargs="*", help="the connections that are wanted; all if none is named")
    told = parser.parse_args(words)
    tables = AddressTables()

    def read() -> str:
        return boards_text(read_connections(told.file, told.id, tables, told.first))

    print_document(tables, read)


if __name__ == "__main__":
    main()
