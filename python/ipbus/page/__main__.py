"""ipbus-page: a page in the browser with the registers of a running hub.

    ipbus-page session.toml 127.0.0.1:5000

The document is the one that the hub serves. The address that is printed has a token: who has it may use the page. The page
only reads, unless it is started with --write. Each board that is looked at takes one of the hub's connections.
"""

from __future__ import annotations

import argparse
import pathlib
import secrets
import socket
import sys

from ipbus.arguments import word_of
from ipbus.documents import MTU, Document
from ipbus.errors import IpbusError
from ipbus.page.desk import Desk
from ipbus.page.server import PageServer


def place_of(text: str) -> tuple[str, int]:
    """A host and a port."""
    host, _, port = text.rpartition(":")
    if not host or not port.isdecimal() or not 1 <= int(port) <= 65_535:
        raise argparse.ArgumentTypeError(f"{text} is no HOST:PORT, as 127.0.0.1:5000")
    return host, int(port)


def arguments(words: list[str] | None) -> argparse.Namespace:
    """The words of the command line."""
    parser = argparse.ArgumentParser("ipbus-page", description=__doc__, formatter_class=argparse.RawDescriptionHelpFormatter)
    parser.add_argument("session", type=pathlib.Path, help="the session document that the hub serves")
    parser.add_argument("hub", type=place_of, metavar="HOST:PORT", help="where `ipbus serve` listens")
    parser.add_argument("--port", type=int, default=8080, help="the port of the page, 0 for any (8080)")
    parser.add_argument("--listen", default="127.0.0.1", help="the address of this machine that it listens on (127.0.0.1)")
    parser.add_argument("--name", action="append", default=[], help="a further name by which browsers call this machine")
    parser.add_argument("--mtu", type=word_of, default=MTU, help=f"of boards on UDP ports, in bytes ({MTU})")
    parser.add_argument("--write", action="store_true", help="the page may write registers")
    return parser.parse_args(words)


def main(words: list[str] | None = None) -> int:
    """Serves the page until it is interrupted."""
    given = arguments(words)
    try:
        desk = Desk(Document.read(given.session), given.session.name, *given.hub, given.write, given.mtu)
    except IpbusError as error:
        print(f"ipbus-page: {error}", file=sys.stderr)
        return 1
    token = secrets.token_urlsafe(18)
    names = [given.listen, "127.0.0.1", "localhost", socket.gethostname(), *given.name]
    try:
        server = PageServer(given.listen, given.port, token, names, desk)
    except OSError as error:
        desk.close()
        print(f"ipbus-page: {given.listen}:{given.port}: {error.strerror}: choose another --port or --listen", file=sys.stderr)
        return 1
    shown = "127.0.0.1" if given.listen == "0.0.0.0" else given.listen
    print(f"http://{shown}:{server.server_port}/{token}/", flush=True)
    try:
        server.serve_forever()
    except KeyboardInterrupt:
        pass
    finally:
        server.server_close()
        desk.close()
    return 0


if __name__ == "__main__":
    sys.exit(main())
