"""Cases of `run` on boards on UDP ports: what befalls their datagrams does not change the text."""
import random
import re
import socket

from model.network import run_session
from model.notes import denial_notes
from model.replay import check_transcript
from model.session import Session
from model.transcript import transcript
from net.packets import transactions_of
from net.peers import ended, free_port, greeting, require, rest_of, stop_while_it_waits
from net.sessions import (
    CALM_WAIT,
    DEAF_WAIT,
    FALLING_WAIT,
    LATE_BY,
    LATE_WAIT,
    PATIENT_WAIT,
    boards_of,
    on_network,
    simulated,
    with_seeds,
)


def script_of(board, draw):
    """Lines of one client on one board: of every kind, some that fail, cut into dispatches."""
    word = f"0x{draw.getrandbits(32):x}"
    lines = [
        f"read {board}:id",
        f"write {board}:count {word}",
        f"rmwsum {board}:count {draw.randrange(1000)}",
        "dispatch",
        f"write {board}:a.low {draw.randrange(256)}",
        f"write {board}:a.top {draw.randrange(2)}",
        f"read {board}:a",
        f"rmwbits {board}:a 0xffff0000 {draw.randrange(65_536)}",
        "dispatch",
        f"writeblock {board}:mem {' '.join(str(draw.randrange(1000)) for _ in range(40))}",
        f"readblock {board}:mem 600",
        f"writeblock {board}:fifo 1 2 3",
        f"readblock {board}:fifo 4",
        "dispatch",
        f"read {board}:fixed",
        f"write {board}:fixed 9",
        f"read {board}:count",
        "dispatch",
        f"read {board}:slow",
        "dispatch",
    ]
    for _ in range(20):
        lines += [f"rmwsum {board}:count 1", "dispatch"]
    return lines


def require_same(done, text, status):
    require(rest_of(done.note) == "", f"it says {done.note!r}")
    require(done.text == text, f"text {done.text!r}, wanted {text!r}")
    require(done.status == status, f"status {done.status}, wanted {status}")


def places_told(text):
    return [int(count) for count in re.findall(r"^board \S+ places (\d+) ", text, re.MULTILINE)]


def require_owed(done, boards, scripts, **settings):
    """A run on boards that each one client uses gave the text of simulated boards, and each body was executed once."""
    session = Session(simulated(boards, scripts, **settings))
    text, status = transcript(session, run_session(session))
    require_same(done, text, status)
    for board, places in zip(boards, places_told(text)):
        board.require_executed(places)


def run_owes(peers, boards, scripts, wait, **settings):
    """`run` owes that text whatever befalls datagrams."""
    peers.start_boards(boards)
    done = peers.run(on_network(boards, scripts, wait, **settings))
    told = all(greeting(board) in done.note for board in boards)
    require(told, f"it says {done.note!r}, and not what each board told")
    require_owed(done, boards, scripts, **settings)


def run_on_two_boards(peers):
    scripts = [script_of(f"b{number}", random.Random(number)) for number in range(2)]
    run_owes(peers, boards_of(2), scripts, CALM_WAIT)


def run_on_small_packets(peers):
    scripts = [script_of(f"b{number}", random.Random(number)) for number in range(2)]
    run_owes(peers, boards_of(2, mtu=92, buffers=3, first=65_530), scripts, CALM_WAIT)


POLICY = """policy = [
  { effect = "deny", access = "rw", name = "*:mem" },
  { effect = "deny", access = "w", name = "b0:a.**" },
  { effect = "deny", access = "w", name = "*:count", client = 2 },
  { effect = "allow", access = "rw", name = "*:**" },
]
"""
# the first address and the one behind the last of what that policy keeps both boards from
DENIED = 0x100, 0x358


def run_under_a_policy(peers):
    """What is denied reaches no board: the text tells so, and the boards executed nothing at the denied block."""
    boards = boards_of(2)
    peers.start_boards(boards)
    scripts = [script_of(f"b{number}", random.Random(number)) for number in range(2)]
    done = peers.run(POLICY.encode() + on_network(boards, scripts))
    session = Session(POLICY.encode() + simulated(boards, scripts))
    text, status = transcript(session, run_session(session))
    require((done.text, done.status) == (text, status), f"{done}, wanted {text!r} and status {status}")
    denied = denial_notes(session).decode()
    require(rest_of(done.note) == denied, f"it says {done.note!r}, wanted {denied!r}")
    for board, places in zip(boards, places_told(text)):
        board.require_executed(places)
        asked = [each for body in board.executed() for each in transactions_of(body)[0]]
        reached = [each for each in asked if DENIED[0] <= each.address < DENIED[1]]
        require(not reached, f"{board.name} executed {reached}")


def run_past_forgeries(count):
    """So many false replies come from another port before each reply; 64 of them end one receive."""

    def case(peers):
        scripts = [script_of(f"b{number}", random.Random(count + number)) for number in range(2)]
        run_owes(peers, boards_of(2, forge=count), scripts, CALM_WAIT)

    return case


def run_over_a_bad_network(seed):
    def case(peers):
        scripts = [script_of(f"b{number}", random.Random(seed + number)) for number in range(2)]
        run_owes(peers, with_seeds(boards_of(2, first=65_500 + seed), seed), scripts, LATE_WAIT)

    return case


def run_of_clients_at_once(seed):
    """Four clients share two boards on a bad network: a replay in the printed order gives the printed results."""

    def case(peers):
        boards = with_seeds(boards_of(2), seed)
        scripts = []
        for number in range(4):
            lines = []
            for _ in range(15):
                lines += [f"rmwsum b0:count {number + 1}", f"rmwsum b1:count {number + 1}", "dispatch"]
            scripts.append(lines)
        peers.start_boards(boards)
        done = peers.run(on_network(boards, scripts, LATE_WAIT))
        require(rest_of(done.note) == "", f"it says {done.note!r}")
        check_transcript(Session(simulated(boards, scripts)), done.text, done.status)
        require(done.status == 0, f"status {done.status}")
        for board, places in zip(boards, places_told(done.text)):
            board.require_executed(places)

    return case


def run_beside_a_silent_board(peers):
    """One board never answers: its lines are `unsent`, and the other's are as ever."""
    live, silent = boards_of(2)
    peers.start_board(live)
    silent.port, silent.wait = peers.deaf_port(), DEAF_WAIT
    scripts = [["read b1:id", "read b0:id"]]
    done = peers.run(on_network([live, silent], scripts, PATIENT_WAIT, rounds=3))
    lines = ["client 1", "1 read b1:id unsent", "2 read b0:id = 0x0000abcd @1.1"]
    lines += ["board b0 places 1 replied 1 timeout 0 lost 0", "board b1 silent"]
    require_same(done, "".join(line + "\n" for line in lines), 1)
    live.require_executed(1)


def run_without_a_board(peers):
    """Nobody has the port: that is a board that is silent, and no fault."""
    (board,) = boards_of(1)
    board.port = free_port(socket.SOCK_DGRAM)
    done = peers.run(on_network([board], [["read b0:id"]], DEAF_WAIT, rounds=2))
    require_same(done, "client 1\n1 read b0:id unsent\nboard b0 silent\n", 1)


def run_on_a_board_that_falls_silent(peers):
    (board,) = boards_of(1, mute_after=2)
    peers.start_board(board)
    script = ["read b0:id", "dispatch", "rmwsum b0:count 1", "dispatch", "rmwsum b0:count 1"]
    done = peers.run(on_network([board], [script], FALLING_WAIT, rounds=2))
    timeout = "timeout after 2 rounds, execution unknown"
    lines = ["client 1", "1 read b0:id = 0x0000abcd @1.1", f"2 rmwsum b0:count {timeout} @2.1"]
    # a hub with a window of one packet would have no place for the third
    lines += [f"3 rmwsum b0:count {timeout} @3.1", "board b0 places 3 replied 1 timeout 2 lost 0"]
    require_same(done, "".join(line + "\n" for line in lines), 1)


def run_that_is_stopped(peers):
    """The hub is stopped and goes on while it waits for each reply. That interrupts the wait, and is no fault."""
    boards = boards_of(1, late=LATE_BY)
    peers.start_boards(boards)
    scripts = [["rmwsum b0:count 1", "dispatch"] * 3]
    process = peers.start_run(on_network(boards, scripts, PATIENT_WAIT))
    for kind, count in (("status", 1), ("executed", 1), ("executed", 2), ("executed", 3)):
        stop_while_it_waits(process, boards[0], kind, count)
    require_owed(ended(process), boards, scripts)


RUNS = {
    "run on two boards": run_on_two_boards,
    "run on boards with small packets": run_on_small_packets,
    "run under a policy": run_under_a_policy,
    "run past a forged reply": run_past_forgeries(1),
    "run past 100 forged replies": run_past_forgeries(100),
    "run beside a silent board": run_beside_a_silent_board,
    "run without a board": run_without_a_board,
    "run on a board that falls silent": run_on_a_board_that_falls_silent,
    "run that is stopped and goes on": run_that_is_stopped,
    **{f"run over the bad network {seed}": run_over_a_bad_network(seed) for seed in range(1, 7)},
    **{f"run of clients at once over the bad network {seed}": run_of_clients_at_once(seed) for seed in range(7, 10)},
}
