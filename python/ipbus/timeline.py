"""The command `ipbus-timeline`: draws the capture on standard input as a sequence diagram in SVG.

The hub stands on the left and the board on the right, with an arrow for each datagram: its kind, its identifier and
the verbs of its transactions. What is sent again, and what the hub has no use for, has a color of its own. Beside the
hub stands its window: the places from the lowest one without a reply to the last one sent. A page has at most 200
datagrams; of a longer capture --from and --to choose lines, by their numbers in the text of the capture."""

from __future__ import annotations

import argparse
import sys
from collections.abc import Collection, Mapping

from ipbus.capture_rows import AGAIN, Row, rows_of
from ipbus.captures import FIRST_LINE, BadCapture, Capture, read_capture
from ipbus.picture import INK, LINE, LOST, OUTSIDE, PALE, PROVED, Picture

# the most datagrams of one page
MOST = 200
HUB, BOARD, RIGHT, TOP, STEP = 300, 720, 890, 84, 26
# how far the squares of a window are apart, how wide each is, and how many are drawn
APART, SQUARE, MOST_SQUARES = 9, 7, 16


class TooMany(BadCapture):
    """More datagrams than a page has room for."""

    advice = "Choose lines by --from and --to"


def _draw_square(picture: Picture, x: float, y: float, is_open: bool) -> None:
    fill = LINE if is_open else "#ffffff"
    picture.parts.append(f'<rect x="{x}" y="{y}" width="{SQUARE}" height="{SQUARE}" fill="{fill}" stroke="{LINE}"/>')


def _draw_window(picture: Picture, y: float, window: list[tuple[int, bool]]) -> None:
    """A square for each place from the lowest open one to the last, full if it is open."""
    if not window:
        return
    shown = window[:MOST_SQUARES]
    left = HUB - 14 - APART * len(shown)
    for number, (_, is_open) in enumerate(shown):
        _draw_square(picture, left + APART * number, y - 4, is_open)
    places = str(window[0][0]) if len(window) == 1 else f"{window[0][0]} to {window[-1][0]}"
    picture.text(left - 5, y + 4, places, 11, anchor="end")


def _draw_lost(picture: Picture, y: float, begin: float) -> None:
    """An arrow that ends half way."""
    middle = (HUB + BOARD) / 2
    end = middle + (30 if begin > middle else -30)
    picture.line(begin, y, end, y, LOST, dashed=True)
    picture.text(end, y + 7, "×", 22, weight="bold", color=LOST)


def _draw_row(picture: Picture, number: int, row: Row, is_lost: bool) -> None:
    y = TOP + STEP * number
    begin, end = (HUB, BOARD) if row.is_sent else (BOARD, HUB)
    picture.text(34, y + 4, str(row.line), 10, anchor="end", color=PALE)
    if is_lost:
        _draw_lost(picture, y, begin)
    else:
        picture.arrow(begin, y, end, y, row.color)
    picture.text((HUB + BOARD) / 2, y - 5, row.text, 11, color=INK if row.color == LINE else row.color)
    _draw_window(picture, y, row.window)
    if row.told:
        picture.text(BOARD + 12, y + 4, row.told, 11, anchor="start")


def _draw_legend(picture: Picture, y: float) -> None:
    told = (
        (HUB, LINE, "sent for the first time, or taken"),
        (HUB + 230, AGAIN, "sent again, or asked for again"),
        (HUB + 440, LOST, "taken by nobody"),
    )
    for x, color, text in told:
        picture.line(x, y - 4, x + 24, y - 4, color, width=3)
        picture.text(x + 30, y, text, 11, anchor="start")
    _draw_square(picture, 46, y - 8, True)
    picture.text(60, y, "no reply yet", 11, anchor="start")
    _draw_square(picture, 146, y - 8, False)
    picture.text(160, y, "settled", 11, anchor="start")


def timeline(
    capture: Capture,
    first_line: int = FIRST_LINE,
    last_line: int | None = None,
    lost: Collection[int] = (),
    unheard: Mapping[int, str] | None = None,
) -> str:
    """The picture of the datagrams of these lines, all of them if nothing is said. There may be at most `MOST`. Who
    knows the network says which lines were `lost` on their way, and what the hub never heard, behind which line."""
    all_rows, proved = rows_of(capture)
    rows = [row for row in all_rows if first_line <= row.line <= (last_line or row.line)]
    if len(rows) > MOST:
        raise TooMany(f"these are {len(rows)} datagrams, and a page has at most {MOST}")
    sent = sum(item.is_sent for item in capture.items)
    counts = f"{len(capture.items)} datagrams: {sent} sent, {len(capture.items) - sent} received"
    title = f"{counts}; place 1 has the identifier {capture.first}; proved {proved}"
    missing = unheard or {}
    bottom = TOP + STEP * max(1, len(rows) + len(missing))
    picture = Picture(RIGHT, bottom + 40, f"A capture of {counts}")
    picture.text(RIGHT / 2, 20, title, 13)
    picture.text(34, 52, "line", 11, anchor="end")
    picture.text(HUB - 150, 52, "window: places", 11)
    picture.labelled(HUB - 60, 32, 120, 28, ["hub"], PROVED)
    picture.labelled(BOARD - 60, 32, 120, 28, ["board"], OUTSIDE)
    picture.line(HUB, 60, HUB, bottom, PALE)
    picture.line(BOARD, 60, BOARD, bottom, PALE)
    number = 0
    for row in rows:
        _draw_row(picture, number, row, row.line in lost)
        number += 1
        if row.line in missing:
            _draw_lost(picture, TOP + STEP * number, BOARD)
            picture.text((HUB + BOARD) / 2, TOP + STEP * number - 5, missing[row.line], 11, color=LOST)
            number += 1
    _draw_legend(picture, bottom + 26)
    return picture.svg()


def main(words: list[str] | None = None) -> None:
    """Runs the command."""
    parser = argparse.ArgumentParser(prog="ipbus-timeline", description=__doc__.partition("\n\n")[2])
    line = {"type": int, "metavar": "LINE"}
    parser.add_argument("--from", **line, default=FIRST_LINE, dest="first", help="the first line drawn")
    parser.add_argument("--to", **line, dest="last", help="the last line drawn")
    told = parser.parse_args(words)
    try:
        picture = timeline(read_capture(sys.stdin.buffer.read()), told.first, told.last)
    except BadCapture as why:
        sys.exit(f"ipbus-timeline: {why}")
    sys.stdout.write(picture)


if __name__ == "__main__":
    main()
