"""The command `ipbus-capture`: makes the text of a capture from a packet dump of a board's UDP port.

DUMP is a file that `tcpdump -w` wrote, in the format pcap: of Ethernet, of any interface of Linux, of a loopback
interface or of IP alone. If several ends spoke with the board, --hub says which one is the hub. The first status reply
tells the identifier that the board expected first, if the dump has the hub's greeting.

    tcpdump -i eth0 -s 0 -w board.pcap udp port 50001 and host 10.0.0.1
    ipbus-capture board.pcap 10.0.0.1:50001 | bin/ipbus describe"""

from __future__ import annotations

import argparse
import pathlib
import sys
from collections.abc import Iterator

from ipbus.captures import LONGEST, Capture, Caught, write_capture
from ipbus.dumps import BadDump, End, datagrams, end_of
from ipbus.packets import status_in


def exchanged(dump: bytes, board: End, hub: End | None) -> Iterator[Caught]:
    """The datagrams between a board and its hub, in order."""
    found = [each for each in datagrams(dump) if board in (each.source, each.target)]
    others = {each.target if each.source == board else each.source for each in found}
    if hub is None and len(others) > 1:
        ends = ", ".join(map(str, sorted(others)))
        raise BadDump(f"several ends spoke with the board, so --hub is needed: {ends}")
    for each in found:
        if hub is None or hub in (each.source, each.target):
            is_sent = each.target == board
            # of a longer datagram a hub takes so many bytes
            yield Caught(is_sent, each.data if is_sent else each.data[:LONGEST])


def capture_of(dump: bytes, board: End, hub: End | None, first: int) -> Capture:
    """The capture of a dump. `BadDump` if there is none."""
    items = list(exchanged(dump, board, hub))
    if not items:
        raise BadDump("the dump has no datagram of this board")
    for number, item in enumerate(items, 1):
        if len(item.data) > LONGEST:
            raise BadDump(f"datagram {number} has {len(item.data)} bytes, and a capture has at most {LONGEST} of each")
    return Capture(first, items)


def first_told(capture: Capture) -> int | None:
    """The identifier that the first status reply tells, or None."""
    told = (status_in(item.data) for item in capture.items if not item.is_sent)
    return next((status.expected for status in told if status), None)


def _identifier(text: str) -> int:
    if not text.isascii() or not text.isdecimal() or not 1 <= int(text) <= 65_535:
        raise argparse.ArgumentTypeError(f"{text} is no identifier from 1 to 65535")
    return int(text)


def _end(text: str) -> End:
    try:
        return end_of(text)
    except ValueError as why:
        raise argparse.ArgumentTypeError(str(why)) from why


def main(words: list[str] | None = None) -> None:
    """Runs the command."""
    raw = argparse.RawDescriptionHelpFormatter
    parser = argparse.ArgumentParser(
        prog="ipbus-capture", description=__doc__.partition("\n\n")[2], formatter_class=raw
    )
    parser.add_argument("dump", help="a file in the format pcap, or - for standard input")
    parser.add_argument("board", type=_end, help="the board's ADDRESS:PORT")
    parser.add_argument("--hub", type=_end, help="the hub's ADDRESS:PORT")
    parser.add_argument("--first", type=_identifier, default=1, help="the identifier that the board expected first")
    told = parser.parse_args(words)
    try:
        dump = sys.stdin.buffer.read() if told.dump == "-" else pathlib.Path(told.dump).read_bytes()
        capture = capture_of(dump, told.board, told.hub, told.first)
    except (BadDump, OSError) as why:
        sys.exit(f"ipbus-capture: {why}")
    sys.stdout.buffer.write(write_capture(capture))
    first = first_told(capture)
    if first not in (None, told.first):
        said = f"the first status reply expects {first}; if the hub began there, say --first {first}"
        print(f"ipbus-capture: {said}", file=sys.stderr)


if __name__ == "__main__":
    main()
