"""Cases of captures of runs on boards on UDP ports of 127.0.0.1: what went between hub and board is dumped, and the
dump made a capture, which shows what the board executed."""
import pathlib
import random
import re
import subprocess
import sys
from xml.dom import minidom

from captures.taps import ETHERNET, HOST, Sniffer, Tap
from model.captures import Places, description, read_capture
from net.packets import read_control
from net.peers import require
from net.run_cases import script_of
from net.sessions import CALM_WAIT, LATE_WAIT, boards_of, on_network, with_seeds

HERE = pathlib.Path(__file__).resolve().parent
SECONDS = 60


def run(words, data=b""):
    return subprocess.run([str(word) for word in words], input=data, capture_output=True, timeout=SECONDS)


def require_done(words, data=b"", note=b""):
    done = run(words, data)
    require((done.returncode, done.stderr) == (0, note), f"{words[1:]}: status {done.returncode}, {done.stderr!r}")
    return done.stdout


def bodies_of(capture):
    """The bodies of the packets that were sent for the first time."""
    places = Places(capture.first)
    bodies = []
    for item in capture.items:
        before = places.sent
        places.add(item)
        if places.sent > before:
            bodies.append(read_control(item.data).body)
    return bodies


def require_capture(peers, board, dump, port, places):
    """The dump is a capture of the board behind this port. The program describes it as the second program does, and
    reads its description back; all that was sent was proved to be executed, and was."""
    file = pathlib.Path(peers.folder.name) / "board.pcap"
    file.write_bytes(dump)
    text = require_done([sys.executable, HERE / "from_dump", file, f"{HOST}:{port}", "--first", board.first])
    capture = read_capture(text)
    described = require_done([*peers.command, "describe"], text)
    require(described == description(capture), "the program describes the capture otherwise than the second one")
    require(require_done([*peers.command, "undescribe"], described) == text, "the description is of another capture")
    proved = int(re.fullmatch(rb"proved (\d+)", described.splitlines()[-1])[1])
    require(proved == places, f"proved {proved} of {places} places")
    require(bodies_of(capture) == board.executed(), "the board executed other bodies than were sent")
    last = min(len(capture.items), 150) + 1
    picture = require_done([sys.executable, HERE / "timeline", "--to", last], text)
    arrows = minidom.parseString(picture).getElementsByTagName("polygon")
    require(len(arrows) == last - 1, f"{len(arrows)} arrows for {last - 1} datagrams")


def places_of(done):
    return int(re.search(r"^board b0 places (\d+) replied \1 timeout 0 lost 0$", done.text, re.MULTILINE)[1])


def capture_by_a_relay(seed=None, **dumped):
    """The hub talks to the board through a relay, which keeps what goes by. With a seed the board is behind a bad
    network."""

    def case(peers):
        [board] = boards_of(1, first=65_530)
        if seed is not None:
            with_seeds([board], seed)
        peers.start_board(board)
        tap = Tap(board.port)
        peers.open.append(tap)
        board.port = tap.port
        wait = CALM_WAIT if seed is None else LATE_WAIT
        done = peers.run(on_network([board], [script_of("b0", random.Random(1))], wait))
        tap.close()
        require_capture(peers, board, tap.dump(**dumped), tap.port, places_of(done))

    return case


def capture_by_the_machine(peers):
    """The dump is what the machine shows of its loopback interface."""
    [board] = boards_of(1)
    peers.start_board(board)
    sniffer = Sniffer(board.port)
    peers.open.append(sniffer)
    done = peers.run(on_network([board], [script_of("b0", random.Random(2))], CALM_WAIT))
    sniffer.close()
    require_capture(peers, board, sniffer.dump(), board.port, places_of(done))


CAPTURED = {
    "capture of a run by a relay": capture_by_a_relay(kind=ETHERNET),
    "capture of a run over a bad network": capture_by_a_relay(seed=12, order=">", magic=0xA1B23C4D),
    "capture of a run by the machine": capture_by_the_machine,
}
