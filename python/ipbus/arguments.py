"""Words of a command line: ends as HOST:PORT, and numbers."""

from __future__ import annotations

import argparse
import re

LOCAL = "127.0.0.1"
_WORD = re.compile("0[xX][0-9a-fA-F]{1,8}|[0-9]{1,10}")


def end_of(text: str) -> tuple[str, int]:
    """The host and the port of HOST:PORT, or of a port of this machine."""
    host, _, port = text.rpartition(":")
    if not port.isascii() or not port.isdecimal() or not 1 <= int(port) <= 65_535:
        raise argparse.ArgumentTypeError(f"{text!r} is not HOST:PORT with a port from 1 to 65535")
    return host or LOCAL, int(port)


def word_of(text: str) -> int:
    """A word of 32 bits, in decimal digits or in hexadecimal ones after 0x."""
    word = int(text, 0 if text[:2] in ("0x", "0X") else 10) if _WORD.fullmatch(text) else -1
    if not 0 <= word <= 0xFFFFFFFF:
        raise argparse.ArgumentTypeError(f"{text!r} is no number from 0 to 0xffffffff")
    return word


def seconds_of(text: str) -> float:
    """A time in seconds, more than 0."""
    try:
        seconds = float(text)
    except ValueError:
        seconds = 0.0
    if not 0 < seconds < float("inf"):
        raise argparse.ArgumentTypeError(f"{text!r} is no time in seconds")
    return seconds
