"""Peek and poke: words of a board on the network, without a document and without a hub that serves. `ipbus run` does
it, on a document that is made here."""

from __future__ import annotations

import os
import pathlib
import re
import shutil
import socket
import subprocess
import sys

from ipbus.errors import BadLine, BusError, IpbusError, LinkLost, NotConnected, NotRun, TimedOut, Unsent

# the environment variable with the path of the program `ipbus`
PROGRAM = "IPBUS"
# the first run of a clone compiles the program
_SECONDS = 600
# the exit status of a refused document
REFUSED = 3
# what the board told at its greeting, which serves an audit and not a peek
_GREETED = re.compile(r"^ipbus: board: MTU .*\n", re.MULTILINE)
_RESULT = re.compile(r"1 \w+ board:word (= .*?|done|error (\d+) after (\d+)|[a-z].*?)(?: @[0-9.,]+)?")

_DOCUMENT = """[[tables.words]]
id = "word"
address = {address}
mode = "block"
size = {count}
[[board]]
name = "board"
table = "words"
link = "udp"
address = "{host}:{port}"
[[client]]
script = ["{line}"]
"""


def program() -> str:
    """The program `ipbus`: that of the environment variable IPBUS, `bin/ipbus` of the clone that this package stands
    in, or the one on the path."""
    named = os.environ.get(PROGRAM)
    if named:
        return named
    beside = pathlib.Path(__file__).resolve().parents[2] / "bin" / "ipbus"
    found = str(beside) if beside.exists() else shutil.which("ipbus")
    if found is None:
        raise NotConnected(f"there is no program `ipbus` on the path: say where it is, as {PROGRAM}=/path/to/bin/ipbus")
    return found


def _address_of(host: str) -> str:
    """The IPv4 address of a host: a document has no names."""
    try:
        return socket.gethostbyname(host)
    except (OSError, UnicodeError) as error:
        raise BadLine(f"{host} has no IPv4 address here: {error}") from None


def _run(host: str, port: int, address: int, count: int, line: str) -> list[int]:
    """The words that a line of a script gives on a board of this address."""
    board = {"host": _address_of(host), "port": port}
    document = _DOCUMENT.format(**board, address=address, count=count, line=line)
    try:
        done = subprocess.run([program(), "run"], input=document, capture_output=True, text=True, timeout=_SECONDS)
    except (OSError, subprocess.TimeoutExpired) as error:
        raise NotConnected(f"{program()} cannot be run: {error}") from error
    sys.stderr.write(_GREETED.sub("", done.stderr))
    lines = done.stdout.splitlines()
    found = _RESULT.fullmatch(lines[1]) if len(lines) > 1 else None
    if not found and done.returncode == REFUSED and lines:
        raise BadLine(f"`ipbus run` says {lines[0]}")
    if not found:
        raise NotRun(f"{host}:{port}: `ipbus run` ended with status {done.returncode}")
    return _words_of(f"{host}:{port}", found)


def _words_of(where: str, found: re.Match[str]) -> list[int]:
    result, code, done = found.groups()
    if result.startswith("= "):
        return [int(word, 16) for word in result[2:].split()]
    if result == "done":
        return []
    if code is not None:
        raise BusError.of(int(code), int(done)).about(where)
    kinds: dict[str, type[IpbusError]] = {"unsent": Unsent, "link lost": LinkLost}
    kind = kinds.get(result, TimedOut)
    raise kind(f"{where}: {kind.__doc__}")


def peek(host: str, port: int, address: int, count: int = 1) -> list[int]:
    """The words of a board from an address on."""
    return _run(host, port, address, count, f"readblock board:word {count}")


def poke(host: str, port: int, address: int, words: list[int]) -> None:
    """Writes words to a board from an address on."""
    _run(host, port, address, len(words), f"writeblock board:word {' '.join(map(str, words))}")
