"""Lines by numbers, asked of a board by its position in the hub's document: `read 0x8`, `rmwsum 0x8 1` and so on."""

from __future__ import annotations

import argparse
import time

from ipbus.boards import Board
from ipbus.documents import BoardEntry, Document
from ipbus.errors import BadLine, BusError, IpbusError, LinkLost, NotConnected, TimedOut, Unsent
from ipbus.hub import Hub
from ipbus.arguments import word_of
from ipbus.registers import RegisterTable
from ipbus.scripts import shown
from ipbus.values import Result

HELP = """a LINE by numbers is one of
  read ADDRESS [COUNT]        write ADDRESS WORD ..       rmwbits ADDRESS AND OR
  readport ADDRESS COUNT      writeport ADDRESS WORD ..   rmwsum ADDRESS ADDEND"""

# the least and the most numbers after the address of a line
_NUMBERS = {
    "read": (0, 1),
    "readport": (1, 1),
    "write": (1, None),
    "writeport": (1, None),
    "rmwbits": (2, 2),
    "rmwsum": (1, 1),
}
# what became of a packet without a reply, in the words of a transcript
_UNANSWERED = {TimedOut: "timeout, execution unknown", Unsent: "unsent", LinkLost: "link lost"}
# how long a client waits for a hub to listen, in seconds
PATIENCE = 60.0


def _ask(board: Board, text: str) -> Result:
    """Queues what a line says. A line that is none is refused."""
    verb, *words = text.split() or [""]
    if verb not in _NUMBERS:
        raise BadLine(f"{text!r}: {verb!r} is none of {', '.join(_NUMBERS)}")
    try:
        address, *numbers = map(word_of, words)
    except (ValueError, argparse.ArgumentTypeError):
        raise BadLine(f"{text!r}: after {verb} come an address and numbers of 32 bits") from None
    least, most = _NUMBERS[verb]
    if len(numbers) < least or most is not None and len(numbers) > most:
        raise BadLine(f"{text!r}: {verb} has another number of words")
    if verb in ("write", "writeport"):
        return board.writeBlock(address, numbers, port=verb == "writeport")
    if verb == "rmwbits":
        return board.rmw_bits(address, *numbers)
    if verb == "rmwsum":
        return board.rmw_sum(address, *numbers)
    return board.readBlock(address, *(numbers or [1]), port=verb == "readport")


def _shown(result: Result) -> str:
    error = result.error
    if isinstance(error, BusError):
        return f"error {error.code} after {error.done}"
    return _UNANSWERED.get(type(error)) or shown(result)


def _connect(hub: Hub, waits: bool) -> None:
    """Connects. If it is to wait for the hub to listen, it does so for up to a minute."""
    end = time.monotonic() + (PATIENCE if waits else 0)
    while True:
        try:
            return hub.connect()
        except NotConnected:
            if time.monotonic() >= end:
                raise
            time.sleep(0.01)


def run_numbered(host: str, port: int, position: int, lines: list[str], waits: bool = False) -> bool:
    """Prints what each line came to, and says whether all were done. Each line is a packet of its own. Where one of
    them is no line, that is raised and no connection is made."""
    entry = BoardEntry(f"board {position}", position, RegisterTable({}), None, None)
    hub = Hub(Document([entry]), host, port, connect=False)
    (board,) = hub.boards
    for text in lines:
        _ask(board, text)
    hub.forget()
    _connect(hub, waits)
    are_done = True
    with hub:
        for text in lines:
            result = _ask(board, text)
            try:
                hub.dispatch()
            except IpbusError:  # the line tells
                are_done = False
            print(f"{text}: {_shown(result)}", flush=True)
    return are_done
