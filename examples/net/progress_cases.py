"""Cases of what standard error says while a run goes on: a line on a terminal that is rewritten, and what a silent board
costs."""
import contextlib
import os
import re
import time
import tty
from collections.abc import Callable
from dataclasses import dataclass

from net.peers import Peers, greeting, require, rest_of
from net.sessions import boards_of, on_network

# what goes to the front of the line and removes what stands there
CLEAR = b"\r\x1b[K"
ROW = re.compile(rb"\r\x1b\[Kipbus: (\d+) of (\d+) operations((?:, [^\r\n,]+)*)(?=\r|$)")
LONG_WAIT = re.compile(
    r"ipbus: client 1 waited \d+ s in its first 3 dispatches for a board that does not answer; "
    r"the (\d+) others take about (?:\d+ min )?\d+ s at this pace\n"
)
# a board answers so late, in milliseconds; a run of so many dispatches takes some seconds then
LATE, DISPATCHES = 60, 80
# a hub gives up after so many rounds of so many milliseconds
ROUNDS, WAIT = 2, 50
# nothing is rewritten before so many seconds
QUIET_SECONDS = 1.5


@dataclass
class Shown:
    """What a run came to whose standard error is a terminal, and what went there, with the seconds of each piece."""

    status: int
    text: str
    pieces: list[tuple[float, bytes]]

    @property
    def screen(self) -> bytes:
        return b"".join(piece for _, piece in self.pieces)

    @property
    def rows(self) -> list[tuple[int, int, str]]:
        """Each line that was rewritten: operations done, all operations, and what stands behind them."""
        return [(int(done), int(all_), rest.decode()) for done, all_, rest in ROW.findall(self.screen)]


def pieces_from(main: int) -> list[tuple[float, bytes]]:
    """What comes to a terminal until its last writer ends."""
    start = time.monotonic()
    pieces = []
    with contextlib.suppress(OSError):
        while piece := os.read(main, 65536):
            pieces.append((time.monotonic() - start, piece))
    return pieces


def on_terminal(peers: Peers, words: list[str], document: bytes) -> Shown:
    """A run whose standard error is a terminal."""
    main, terminal = os.openpty()
    tty.setraw(terminal)
    try:
        process = peers.start([*peers.command, *words], document, note=terminal)
        os.close(terminal)
        pieces = pieces_from(main)
        text, _ = process.communicate(timeout=process.seconds)
        return Shown(process.returncode, text.decode(), pieces)
    finally:
        os.close(main)


def reads(count: int, each: int = 1) -> list[str]:
    """Lines of one client with so many dispatches, of so many reads of a register each."""
    return [*["read b0:id"] * each, "dispatch"] * count


def tells_how_far_a_run_is(peers: Peers) -> None:
    """A slow run rewrites a line once a second, from the second second on. It is removed at the end."""
    (board,) = boards_of(1, late=LATE)
    peers.start_board(board)
    shown = on_terminal(peers, ["run"], on_network([board], [reads(DISPATCHES, each=2)], wait=1000))
    require(shown.status == 0, f"{shown}")
    operations = 2 * DISPATCHES
    early = b"".join(piece for seconds, piece in shown.pieces if seconds < QUIET_SECONDS)
    require(early == greeting(board).encode(), f"at first it says {early!r}")
    rows = shown.rows
    require(len(rows) >= 2, f"it is not rewritten: {shown.screen!r}")
    require(all(all_ == operations for _, all_, _ in rows), f"{rows}")
    counts = [done for done, _, _ in rows]
    require(counts == sorted(counts) and 0 < counts[0] < counts[-1] <= operations, f"{rows}")
    require(all(re.fullmatch(r", about \d+ s left", rest) for _, _, rest in rows), f"{rows}")
    rest = ROW.sub(b"", shown.screen)
    require(rest == greeting(board).encode() + CLEAR, f"beside the line it says {rest!r}")


def tells_of_silent_boards(peers: Peers) -> None:
    """The line says that a board does not answer, and makes way for other lines."""
    (board,) = boards_of(1, mute_after=4)
    peers.start_board(board)
    document = on_network([board], [reads(40)], wait=WAIT, rounds=ROUNDS)
    shown = on_terminal(peers, ["run"], document)
    require(shown.status == 1, f"{shown}")
    rows = shown.rows
    require(rows and all(rest.startswith(", 1 board does not answer, about ") for _, _, rest in rows), f"{shown.screen!r}")
    for line in shown.screen.split(b"\n")[:-1]:
        row, _, said = line.rpartition(CLEAR)
        require(b"\r" not in said and said.startswith(b"ipbus: "), f"{line!r} stands in {shown.screen!r}")
    require(shown.screen.endswith(CLEAR), f"it ends with {shown.screen[-80:]!r}")


def tells_nothing_without_a_terminal(peers: Peers) -> None:
    """Where standard error is a pipe nothing is rewritten."""
    (board,) = boards_of(1, late=LATE)
    peers.start_board(board)
    done = peers.run(on_network([board], [reads(DISPATCHES)], wait=1000))
    require((done.status, done.note) == (0, greeting(board)), f"{done}")


def warns_of_a_long_wait(peers: Peers) -> None:
    """Where the first three dispatches time out, it is said once what the others cost."""
    (board,) = boards_of(1, mute_after=1)
    peers.start_board(board)
    done = peers.run(on_network([board], [reads(40)] * 2, wait=WAIT, rounds=ROUNDS))
    require(done.status == 1, f"{done}")
    said = re.findall(r"client \d waited", done.note)
    require(len(said) == 1, f"it says {done.note!r}")
    note = done.note.replace("client 2 waited", "client 1 waited")
    found = LONG_WAIT.search(note)
    require(found and found[1] == "37", f"it says {done.note!r}")
    require(rest_of(LONG_WAIT.sub("", note)) == "", f"it says {done.note!r}")


def warns_of_no_short_wait(peers: Peers) -> None:
    """Where the others cost little, or the board answered once, nothing is said of them."""
    for mute, count in ((1, 8), (3, 40)):
        (board,) = boards_of(1, mute_after=mute)
        peers.start_board(board)
        done = peers.run(on_network([board], [reads(count)], wait=WAIT, rounds=ROUNDS))
        require(done.status == 1 and rest_of(done.note) == "", f"{done}")


def tells_nothing_of_simulated_boards(peers: Peers) -> None:
    """What says how far a run is goes by boards on the network; other commands say nothing of it either."""
    shown = on_terminal(peers, ["load", "20000"], b"")
    require((shown.status, shown.screen) == (0, b""), f"{shown}")


PROGRESS: dict[str, Callable[[Peers], None]] = {
    "progress of a slow run": tells_how_far_a_run_is,
    "progress of a run at a silent board": tells_of_silent_boards,
    "progress without a terminal": tells_nothing_without_a_terminal,
    "progress of a load": tells_nothing_of_simulated_boards,
    "a long wait is told once": warns_of_a_long_wait,
    "a short wait is not told": warns_of_no_short_wait,
}
