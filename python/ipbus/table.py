"""The command `ipbus-table`: prints the register tables of a uHAL address table.

They are TOML and belong into a session document: one table for the file, which is named NAME or as the file is, and one
for each file that a `module` names, named as that file is. With --document they stand in a document that `ipbus check`
takes, with a board in the program's memory. What a session document has no counterpart of, as `fwinfo`, `class` and
`parameters`, is not taken over, and a line on standard error says so. What cannot be meant ends it with status 3 and
nothing printed, and standard error has the file and the line."""

from __future__ import annotations

import argparse
import pathlib

from ipbus.address_tables import ID, AddressTables
from ipbus.converted import print_document


def _name(text: str) -> str:
    if not ID.fullmatch(text):
        raise argparse.ArgumentTypeError(f"{text!r} is not 1 to 64 letters, digits, _ and -")
    return text


def main(words: list[str] | None = None) -> None:
    """Runs the command."""
    parser = argparse.ArgumentParser(prog="ipbus-table", description=__doc__.partition("\n\n")[2])
    parser.add_argument("--document", action="store_true", help="print a document that `ipbus check NAME` takes")
    parser.add_argument("file", type=pathlib.Path, help="an address table of uHAL, in XML")
    parser.add_argument("name", type=_name, nargs="?", help="the name of the table; that of the file by default")
    told = parser.parse_args(words)
    tables = AddressTables()

    def read() -> str:
        name = tables.add(told.file, told.name)
        tables.check_sizes(name)
        return f'[[board]]\nname = "b0"\ntable = "{name}"\n' if told.document else ""

    print_document(tables, read)


if __name__ == "__main__":
    main()
