"""The command `ipbus-client`: a client of a hub that serves, and words of a board without one."""

from __future__ import annotations

import argparse
import os
import sys

from ipbus.documents import MTU
from ipbus.errors import BadLine, IpbusError
from ipbus.hub import Hub
from ipbus.numbered import HELP, run_numbered
from ipbus.peek import peek, poke
from ipbus.arguments import end_of, seconds_of, word_of
from ipbus.scripts import run_lines, shown
from ipbus.watch import watch

USAGE = """ipbus-client --document DOCUMENT HOST:PORT LINE ..
       ipbus-client [--wait] [HOST:]PORT BOARD LINE ..
       ipbus-client peek ADDRESS:PORT WHERE [COUNT]
       ipbus-client poke ADDRESS:PORT WHERE WORD ..
       ipbus-client watch HOST:PORT DOCUMENT BOARD:REGISTER .. [--every SECONDS] [--count N] [--mtu BYTES]"""


def _parser(usage: str, description: str) -> argparse.ArgumentParser:
    formatter = argparse.RawDescriptionHelpFormatter
    return argparse.ArgumentParser(prog="ipbus-client", usage=usage, description=description, formatter_class=formatter)


def _add_mtu(parser: argparse.ArgumentParser) -> None:
    parser.add_argument("--mtu", type=word_of, default=MTU, help="of boards on UDP ports, in bytes; 1500 by default")


def _peek(words: list[str]) -> bool:
    parser = _parser("ipbus-client peek ADDRESS:PORT WHERE [COUNT]", "Reads words of a board on a UDP port.")
    parser.add_argument("board", type=end_of, help="the address and the UDP port of the board")
    parser.add_argument("where", type=word_of, help="the address of the first word, as 0x4")
    parser.add_argument("count", type=word_of, nargs="?", default=1, help="how many words, 1 if it is left out")
    told = parser.parse_args(words)
    print(" ".join(f"0x{word:08x}" for word in peek(*told.board, told.where, told.count)))
    return True


def _poke(words: list[str]) -> bool:
    parser = _parser("ipbus-client poke ADDRESS:PORT WHERE WORD ..", "Writes words to a board on a UDP port.")
    parser.add_argument("board", type=end_of, help="the address and the UDP port of the board")
    parser.add_argument("where", type=word_of, help="the address of the first word, as 0x4")
    parser.add_argument("word", type=word_of, nargs="+", help="what is written")
    told = parser.parse_args(words)
    poke(*told.board, told.where, told.word)
    print("done")
    return True


def _watch(words: list[str]) -> bool:
    usage = "ipbus-client watch HOST:PORT DOCUMENT BOARD:REGISTER .. [--every SECONDS] [--count N] [--mtu BYTES]"
    parser = _parser(usage, "Prints registers once a second, until a control-C.")
    parser.add_argument("hub", type=end_of, help="where the hub serves")
    parser.add_argument("document", help="the session document that it serves")
    parser.add_argument("register", nargs="+", help="as b0:rate")
    parser.add_argument("--every", type=seconds_of, default=1.0, help="seconds from one line to the next; 1 by default")
    parser.add_argument("--count", type=word_of, help="how often; until a control-C if it is left out")
    _add_mtu(parser)
    told = parser.parse_args(words)
    with Hub(told.document, *told.hub, mtu=told.mtu, connect=False) as hub:
        watch(hub, told.register, told.every, told.count)
    return True


def _by_names(told: argparse.Namespace) -> bool:
    host, port = end_of(told.word[0])
    hub = Hub(told.document, host, port, mtu=told.mtu, connect=False)
    with hub:
        results = run_lines(hub, told.word[1:])
    for line, result in results:
        print(f"{line}: {shown(result)}")
    return all(result.valid() for _, result in results)


def _by_numbers(told: argparse.Namespace) -> bool:
    if len(told.word) < 3:
        raise argparse.ArgumentTypeError("a port, the position of a board and a line are needed")
    host, port = end_of(told.word[0])
    return run_numbered(host, port, word_of(told.word[1]), told.word[2:], told.wait)


def _lines(words: list[str]) -> bool:
    parser = _parser(USAGE, f"Asks a hub that serves, by names or by numbers.\n\n{HELP}")
    parser.add_argument("--document", help="the session document that is served: lines have its names")
    _add_mtu(parser)
    parser.add_argument("--wait", action="store_true", help="by numbers: wait for the hub to listen")
    parser.add_argument("word", nargs="+", help="lines as 'read b0:id', or as 'read 4', 'write 8 1 2', 'rmwsum 8 1'")
    told = parser.parse_args(words)
    try:
        return _by_names(told) if told.document else _by_numbers(told)
    except argparse.ArgumentTypeError as error:
        parser.error(str(error))
    except BadLine as error:
        parser.error(error.what)


COMMANDS = {"peek": _peek, "poke": _poke, "watch": _watch}


def main(words: list[str] | None = None) -> None:
    """Runs the command. The status is 0 if all was done, 1 if it was not, and 2 if the words are no command."""
    words = sys.argv[1:] if words is None else words
    command = COMMANDS.get(words[0]) if words else None
    try:
        is_done = command(words[1:]) if command else _lines(words)
    except IpbusError as error:
        print(f"ipbus-client: {type(error).__name__}: {error}", file=sys.stderr)
        is_done = False
    except KeyboardInterrupt:
        is_done = command is _watch
    except BrokenPipeError:  # whoever reads has gone, and nothing is flushed at the end
        os.dup2(os.open(os.devnull, os.O_WRONLY), sys.stdout.fileno())
        is_done = False
    sys.exit(0 if is_done else 1)


if __name__ == "__main__":
    main()
