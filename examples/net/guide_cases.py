"""The case of the frames in hexadecimal that docs/OPERATING.md shows. Its programs are tried in `python/tests`."""
import pathlib
import re

from net.clients import board_line, line_of, require_served
from net.peers import require

EXAMPLES = pathlib.Path(__file__).resolve().parent.parent
PAGE = EXAMPLES.parent / "docs" / "OPERATING.md"


def guide_to_frames(peers):
    """Each frame of the guide is answered as it shows."""
    shown = re.findall(r"^([<>]) ([0-9a-f ]+)$", PAGE.read_text(), re.MULTILINE)
    frames = [(sign, bytes.fromhex(text)) for sign, text in shown]
    require([sign for sign, _ in frames] == [">", "<"] * 2, f"the guide shows {shown}")
    hub = peers.serve((EXAMPLES / "start" / "first.toml").read_bytes(), 1)
    connection = peers.connect(hub)
    for sign, data in frames:
        if sign == ">":
            connection.send(data)
        else:
            given = connection.take(len(data))
            require(given == data, f"{given.hex()} in place of {data.hex()}")
    connection.close()
    require_served(hub, [line_of(1, 2, ["closed"])], [board_line("b0", 1)])
    told = f"\n```\nconnection 1 frames 2 closed\n{board_line('b0', 1)}\n```\n"
    require(told in PAGE.read_text(), f"the guide does not show {told}")


GUIDE = {"guide to frames": guide_to_frames}
