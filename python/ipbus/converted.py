"""Prints what files of uHAL become, or why they become nothing."""

from __future__ import annotations

import sys
from collections.abc import Callable

from ipbus.address_tables import AddressTables
from ipbus.xml_tree import BadXml

REFUSED = 3


def print_document(tables: AddressTables, read: Callable[[], str]) -> None:
    """Prints the tables that `read` adds, and after them the text that it gives. Standard error has what was not taken
    over; if a file is refused, the reason alone, and the status is 3."""
    try:
        text = read()
    except BadXml as refused:
        print(f"refused: {refused}", file=sys.stderr)
        sys.exit(REFUSED)
    for note in tables.notes:
        print(note, file=sys.stderr)
    sys.stdout.write(tables.text() + text)
