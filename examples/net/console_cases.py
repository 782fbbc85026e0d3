"""Cases of what standard error says of boards while the hub runs, and of boards that the hub does not take: two of one
address, and one that another hub of this machine has."""
import pathlib
import re
import signal
import subprocess
import time
from collections.abc import Callable

from model.notes import NOTES
from net.clients import board_line, end, line_of, sum_body
from net.frames import TIMED_OUT, Answer, ask
from net.operator_cases import FEW_ROUNDS, FEW_WAIT, SUMS, in_the_middle, name_of, sums, sums_done
from net.packets import READ, RMW_SUM, request, transaction_header
from net.peers import Board, Ended, Peers, ended, require, rest_of
from net.sessions import COUNT, DEAF_WAIT, RANGES, boards_of, on_network, simulated

# how long a receive waits in milliseconds, where a board answers at once or never does
SHORT_WAIT = 20
# the code of a frame where the hub takes no more packets for a board, and the words that it takes with their answers
OVERFULL, MOST_WORDS = 8, 33_554_432


# ---- boards that the hub does not take


def refuses_two_boards_at_one_address(peers: Peers) -> None:
    """A board executes the packets of one hub, and has one place for both lanes: no packet is sent at all."""
    one, other = boards_of(2)
    peers.start_board(one)
    other.port = one.port
    done = peers.run(on_network([one, other], [["write b0:count 5", "write b1:count 6"]]))
    note = f"ipbus: boards b0 and b1 have one address, 127.0.0.1:{one.port}\n"
    require((done.status, done.text, rest_of(done.note)) == (7, "", note + NOTES[7].decode()), f"{done}")
    one.require_executed(0)


def boards_at_one_port_of_two_addresses(peers: Peers) -> None:
    """An address is an IPv4 address and a port: two boards may share the one or the other."""
    one, other = boards_of(2)
    peers.start_board(one)
    other.address = "127.0.0.2"
    other.more["host"] = other.address
    peers.start_board(other, port=one.port)
    done = peers.run(on_network([one, other], [["write b0:count 5", "write b1:count 6"]]))
    require((done.status, rest_of(done.note)) == (0, ""), f"{done}")
    one.require_executed(1)
    other.require_executed(1)


def in_use(board: Board, process: subprocess.Popen) -> str:
    return (
        f"ipbus: {name_of(board)} belongs to a hub that runs, process {process.pid}; "
        "with IPBUS_SHARE=1 this one goes on\n"
    )


def refuses_a_board_of_another_hub(peers: Peers) -> None:
    """Who comes second ends, and is told by whom. When the first hub has ended the board is free."""
    (board,) = boards_of(1)
    peers.start_board(board)
    first = peers.serve(on_network([board]), 1)
    connection = peers.connect(first)
    document = on_network([board], [["write b0:count 5"]])
    done = peers.run(document)
    require(done == (7, "", in_use(board, first.process) + NOTES[7].decode()), f"{done}")
    board.require_executed(0)
    end(connection)
    first.finish()
    done = peers.run(document)
    require((done.status, rest_of(done.note)) == (0, ""), f"{done}")


def refuses_a_board_of_a_hub_that_was_killed_no_more(peers: Peers) -> None:
    """The system gives a lock back, however its process ends."""
    (board,) = boards_of(1)
    peers.start_board(board)
    first = peers.serve(on_network([board]), 1)
    peers.connect(first)
    first.process.kill()
    first.process.wait()
    done = peers.run(on_network([board], [["read b0:id"]]))
    require((done.status, rest_of(done.note)) == (0, ""), f"{done}")


def run_with(peers: Peers, document: bytes, **variables: str) -> Ended:
    settings = [f"{key}={value}" for key, value in variables.items()]
    return ended(peers.start(["env", *settings, *peers.command, "run"], document))


def refuses_users_of_one_machine(peers: Peers) -> None:
    """Each user has a folder of his own, and the folder for temporary files is for all: any one of them tells."""
    (board,) = boards_of(1)
    peers.start_board(board)
    folders = [pathlib.Path(peers.folder.name) / name for name in ("mine", "yours", "ours", "theirs")]
    for folder in folders:
        folder.mkdir()
    mine, yours, ours, theirs = map(str, folders)
    document = on_network([board], [["read b0:id"]])
    words = ["env", f"XDG_RUNTIME_DIR={mine}", f"TMPDIR={ours}", *peers.command]
    first = peers.serve_by(words, on_network([board]), 1)
    connection = peers.connect(first)
    refused = (7, "", in_use(board, first.process) + NOTES[7].decode())
    for settings in ({"XDG_RUNTIME_DIR": yours, "TMPDIR": ours}, {"XDG_RUNTIME_DIR": mine, "TMPDIR": theirs}):
        done = run_with(peers, document, **settings)
        require(done == refused, f"{settings}: {done}")
    for folder in (mine, ours):
        (lock,) = pathlib.Path(folder).iterdir()
        require(lock.stat().st_mode & 0o777 == 0o666, f"{lock} is {lock.stat().st_mode:o}")
    done = run_with(peers, document, XDG_RUNTIME_DIR=yours, TMPDIR=theirs)
    require(done.status == 0, f"in folders of its own: {done}")
    end(connection)
    first.finish()


def shared_by_experts(peers: Peers) -> None:
    """With IPBUS_SHARE=1 a hub goes on where another one has the board."""
    (board,) = boards_of(1)
    peers.start_board(board)
    first = peers.serve(on_network([board]), 1)
    connection = peers.connect(first)
    done = run_with(peers, on_network([board], [["read b0:id"]]), IPBUS_SHARE="1")
    require((done.status, rest_of(done.note)) == (0, ""), f"{done}")
    end(connection)
    first.finish()


def run_where_no_lock_can_be_made(peers: Peers) -> None:
    """Where the folders are none it is said once, and the run goes on."""
    boards = boards_of(2)
    peers.start_boards(boards)
    nowhere = str(pathlib.Path(peers.folder.name) / "nowhere")
    document = on_network(boards, [["read b0:id", "read b1:id"]])
    done = run_with(peers, document, XDG_RUNTIME_DIR=nowhere, TMPDIR=nowhere)
    note = (
        "ipbus: no lock file can be made: No such file or directory (os error 2); "
        "another hub at one of the boards would not be noticed\n"
    )
    require((done.status, rest_of(done.note)) == (0, note), f"{done}")


def run_past_a_planted_link(peers: Peers) -> None:
    """Somebody put a link in the place of the lock, to a file that is none of his: it keeps its bytes."""
    (board,) = boards_of(1)
    peers.start_board(board)
    folder = pathlib.Path(peers.folder.name) / "shared"
    folder.mkdir()
    victim = folder.with_name("victim")
    victim.write_text("precious")
    lock = folder / f"ipbus-127.0.0.1:{board.port}.lock"
    document = on_network([board], [["read b0:id"]])
    for plant in (lock.symlink_to, lock.hardlink_to):
        plant(victim)
        done = run_with(peers, document, XDG_RUNTIME_DIR=str(folder), TMPDIR=str(folder))
        require(done.status == 0 and "is at its place; another hub" in done.note, f"{done}")
        require(victim.read_text() == "precious", f"the file has {victim.read_text()!r}")
        lock.unlink()
    victim.unlink()
    lock.symlink_to(victim)
    run_with(peers, document, XDG_RUNTIME_DIR=str(folder), TMPDIR=str(folder))
    require(not victim.exists(), "a file was made behind a link")


# ---- boards that were reset


def serve_tells_of_a_board_that_was_reset(peers: Peers) -> None:
    """A board is started anew behind 20 packets: its status tells so, once, and whether it answers is not said any
    more."""
    (board,) = boards_of(1)
    peers.start_board(board)
    hub = peers.serve(on_network([board], rounds=3), 1)
    connection = peers.connect(hub)
    for count in range(20):
        require(connection.ask(0, 1, sum_body()) == [transaction_header(0, 1, RMW_SUM, 0), count], "a sum")
    board.process.kill()
    board.process.wait()
    (again,) = boards_of(1)
    again.file = "again"
    peers.start_board(again, port=board.port)
    for _ in range(4):
        connection.send(ask(0, 2, sum_body()))
        require(connection.answer() == Answer(0, TIMED_OUT, b""), "the sum was answered")
    end(connection)
    done = hub.finish()
    line = "ipbus: b0 expects 1 where 21 is next: it was reset, or another hub is at it; start this hub anew\n"
    is_told = rest_of(done.note) == hub.says + line and done.note.endswith(line)
    require(is_told, f"it says {done.note!r}, wanted {line!r} as the last line")
    again.require_executed(0)


def run_tells_of_another_hub(peers: Peers) -> None:
    """Another hub has its packets executed meanwhile: the board expects what this hub has not sent."""
    (board,) = boards_of(1)
    peers.start_board(board)
    first = peers.serve(on_network([board], wait=FEW_WAIT, rounds=FEW_ROUNDS), 1)
    connection = peers.connect(first)
    done = run_with(peers, on_network([board], [sums(20)]), IPBUS_SHARE="1")
    require(done.status == 0, f"{done}")
    # the first packet is answered by the reply to the other hub's
    for _ in range(2):
        connection.send(ask(0, 2, sum_body()))
        connection.answer()
    end(connection)
    told = first.finish()
    require("ipbus: b0 expects 21 where " in told.note, f"it says {told.note!r}")


# ---- what is said of silence


def silent_boards_have_one_line(peers: Peers) -> None:
    """A board that is silent at its greeting is told so with its name, before the port is open."""
    boards = boards_of(3)
    peers.start_board(boards[1])
    for board in (boards[0], boards[2]):
        board.port, board.wait = peers.deaf_port(), DEAF_WAIT
    hub = peers.serve(on_network(boards, rounds=4), 1)
    end(peers.connect(hub))
    done = hub.finish()
    line = "ipbus: {} does not answer: it is not asked again until the next start\n"
    require(done.note == line.format(name_of(boards[0])) + line.format(name_of(boards[2])) + hub.says, f"{done}")


def a_board_that_comes_and_goes(peers: Peers) -> None:
    """A board that falls silent and answers again, time after time, has a line a second."""
    (board,) = boards_of(1)
    peers.start_board(board)
    began = time.monotonic()
    process = peers.start_run(on_network([board], [sums(SUMS)], SHORT_WAIT))
    in_the_middle(board, process)
    for _ in range(12):
        board.process.send_signal(signal.SIGSTOP)
        time.sleep(6 * SHORT_WAIT / 1000)
        board.process.send_signal(signal.SIGCONT)
        time.sleep(3 * SHORT_WAIT / 1000)
    done = ended(process)
    took = time.monotonic() - began
    require((done.status, done.text) == (0, sums_done(SUMS)), f"{done}")
    lines = [line for line in done.note.splitlines() if " answer" in line]
    require(2 <= len(lines) <= took + 3, f"{len(lines)} lines in {took:.1f} s: {lines}")
    require(any(re.search(r"; \d+ lines? (was|were) left out$", line) for line in lines), f"{lines}")
    words = [line.split(";")[0].split(") ")[1] for line in lines]
    require(words == ["does not answer", "answers again"] * (len(words) // 2), f"{lines}")
    require(rest_of(done.note) == "", f"it says {done.note!r}")


def run_tells_what_boards_told(peers: Peers) -> None:
    """What each board told at its greeting is said, since it stands in no document."""
    one = Board("b0", RANGES, mtu=1000, buffers=3, first=7)
    other = Board("b1", RANGES, mtu=576, buffers=64, first=65_535)
    peers.start_boards([one, other])
    done = peers.run(on_network([one, other], [["read b1:id"]]))
    note = "ipbus: b0: MTU 1000, 3 buffers, next 7\nipbus: b1: MTU 576, 64 buffers, next 65535\n"
    require((done.status, done.note) == (0, note), f"{done}")


# ---- what wears out of a server


def serve_tells_of_a_full_board(peers: Peers) -> None:
    """A board takes so many words with their answers. From then on its clients get a code, and it is said once."""
    boards = [Board(f"b{number}", RANGES, mtu=9000) for number in range(2)]
    hub = peers.serve(simulated(boards), 2)
    connections = [peers.connect(hub) for _ in range(2)]
    # its longest answer counts, though nothing is at that address
    body = request(0, READ, 0x9000_0000, 255) * 8
    words = 1 + len(body) + 1 + 8 * 256
    frame = ask(1, 1, body)
    left = MOST_WORDS // words + 16
    codes = set()
    while left:
        count = min(left, 64)
        connections[0].send(frame * count)
        codes |= {connections[0].answer().code for _ in range(count)}
        left -= count
    require(codes == {0, OVERFULL}, f"the codes are {codes}")
    connections[1].send(frame)
    require(connections[1].answer().code == OVERFULL, "the other connection")
    connections[1].send(ask(0, 1, sum_body()))
    require(connections[1].answer().code == 0, "the other board")
    for connection in connections:
        end(connection)
    done = hub.finish()
    line = "ipbus: board b1 takes no more packets of this hub, its clients get code 8: start the hub anew\n"
    require(done.note == hub.says + line, f"it says {done.note!r}")


CONSOLE: dict[str, Callable[[Peers], None]] = {
    "run on two boards at one address": refuses_two_boards_at_one_address,
    "run on two boards at one port": boards_at_one_port_of_two_addresses,
    "run on a board of another hub": refuses_a_board_of_another_hub,
    "run on the board of a killed hub": refuses_a_board_of_a_hub_that_was_killed_no_more,
    "run on a board of another user's hub": refuses_users_of_one_machine,
    "run on a shared board": shared_by_experts,
    "run where no lock can be made": run_where_no_lock_can_be_made,
    "run past a planted link": run_past_a_planted_link,
    "serve a board that was reset": serve_tells_of_a_board_that_was_reset,
    "serve a board of another hub": run_tells_of_another_hub,
    "serve beside silent boards": silent_boards_have_one_line,
    "run on a board that comes and goes": a_board_that_comes_and_goes,
    "run says what boards told": run_tells_what_boards_told,
    "serve a board that is full": serve_tells_of_a_full_board,
}
