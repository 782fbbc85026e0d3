"""Cases of how the hub waits: no contract speaks of time or of progress, so each of these fails by a hub that is proved
and waits wrongly."""
import random
import time
from collections.abc import Callable

from net.clients import board_line, end, line_of, require_served, sum_body
from net.frames import TIMED_OUT, Answer, ask
from net.operator_cases import name_of, wait_for
from net.peers import Peers, ended, greeting, require
from net.run_cases import require_owed, script_of
from net.serve_cases import FIRST, FIRST_REPLY
from net.sessions import COUNT, FALLING_WAIT, PATIENT_WAIT, boards_of, on_network

# how long a receive waits in milliseconds, where nothing may take as long as that, and what is soon then, in seconds
LONG_WAIT, SOON = 10_000, 5


# ---- what waits for one board


def answers_before_a_wait(peers: Peers) -> None:
    """Two frames come in one piece, the second for a board that answers no more: the answer to the first is not held
    back until that board is given up."""
    live, mute = boards_of(2)
    mute.more["mute_after"] = 1
    mute.wait = 3000
    peers.start_boards([live, mute])
    hub = peers.serve(on_network([live, mute], wait=PATIENT_WAIT, rounds=1), 1)
    connection = peers.connect(hub)
    began = time.monotonic()
    connection.send(FIRST + ask(1, 1, sum_body()))
    require(connection.take(len(FIRST_REPLY)) == FIRST_REPLY, "the answer of the live board")
    took = time.monotonic() - began
    require(took < mute.wait / 2000, f"the answer of the live board came after {took:.1f} s")
    require(connection.answer() == Answer(1, TIMED_OUT, b""), "a board that answers no more")
    end(connection)
    lines = [board_line("b0", 1), "board b1 places 1 replied 0 timeout 1 lost 0"]
    require_served(hub, [line_of(1, 2, ["closed"])], lines)


def packets_within_a_wait(peers: Peers) -> None:
    """Each packet has a whole wait. A board answers three packets once it holds all: the second is sent within the wait
    of the first, and the third within the wait behind that, so the hub never takes the board for quiet."""
    wait = 2000
    (board,) = boards_of(1, together=3)
    peers.start_board(board)
    hub = peers.serve(on_network([board], wait=wait), 3)
    connections = [peers.connect(hub) for _ in range(3)]
    began = time.monotonic()
    for connection, part in zip(connections, (0, 0.6, 1.4)):
        time.sleep(max(0.0, began + part * wait / 1000 - time.monotonic()))
        connection.send(FIRST)
    for connection in connections:
        require(connection.take(len(FIRST_REPLY)) == FIRST_REPLY, "the answer is wrong")
        end(connection)
    require_served(hub, [line_of(n, 1, ["closed"]) for n in (1, 2, 3)], [board_line("b0", 3)])
    asked = board.heard("status")
    require(asked == 1, f"the hub asked for the board's status {asked} times, once at its greeting")


def clients_of_a_run_at_once(peers: Peers) -> None:
    """The clients of `run` ask at once: a board that answers only once it holds the packets of both answers soon."""
    (board,) = boards_of(1, together=2)
    peers.start_board(board)
    count = 3
    scripts = [["rmwsum b0:count 1", "dispatch"] * count] * 2
    began = time.monotonic()
    done = peers.run(on_network([board], scripts, PATIENT_WAIT))
    took = time.monotonic() - began
    require(done.status == 0 and took < SOON, f"{count} packets of each client took {took:.1f} s: {done}")
    board.require_executed(2 * count)


def a_dispatch_ends_before_the_next(peers: Peers) -> None:
    """A client asks one board, dispatches, and asks another one: that hears of nothing while the first is waited for."""
    wait = 1500
    mute, other = boards_of(2)
    mute.more["mute_after"] = 1
    peers.start_boards([mute, other])
    script = ["rmwsum b0:count 1", "dispatch", "rmwsum b1:count 1"]
    process = peers.start_run(on_network([mute, other], [script], wait, rounds=1))
    wait_for(lambda: mute.heard("executed") == 1, "the first board executed nothing")
    time.sleep(wait / 1000)
    early = other.heard("executed")
    done = ended(process)
    require(early == 0, "the second board was asked while the first was waited for")
    require(done.status == 1 and " timeout after 1 rounds" in done.text, f"{done}")
    other.require_executed(1)


# ---- nobody sleeps on

# how often some clients ask at once, each once the others are answered too, and for how many seconds at most
CLIENTS, TURNS, SECONDS = 4, 4000, 15


def clients_together(peers: Peers) -> None:
    """Some clients ask at once, again and again, and none asks again before all are answered: so nobody is there who
    wakes one that sleeps too long."""
    (board,) = boards_of(1)
    peers.start_board(board)
    hub = peers.serve(on_network([board], wait=LONG_WAIT), CLIENTS)
    connections = [peers.connect(hub) for _ in range(CLIENTS)]
    began = time.monotonic()
    turns = 0
    while turns < TURNS and time.monotonic() - began < SECONDS:
        for connection in connections:
            connection.send(FIRST)
        asked = time.monotonic()
        for connection in connections:
            require(connection.take(len(FIRST_REPLY)) == FIRST_REPLY, f"an answer of turn {turns} is wrong")
        took = time.monotonic() - asked
        require(took < SOON, f"a client was answered after {took:.1f} s in turn {turns}")
        turns += 1
    for connection in connections:
        end(connection)
    lines = [line_of(n, turns, ["closed"]) for n in range(1, CLIENTS + 1)]
    require_served(hub, lines, [board_line("b0", CLIENTS * turns)])


def link_that_fails(peers: Peers) -> None:
    """The machine refuses the address of a board while two clients wait for it: at the packet of a third one the link
    fails, and whoever sleeps is told so soon after the third, long before the wait of the others is over."""
    network = peers.network()
    (board,) = boards_of(1, host="0.0.0.0", mute_after=1)
    board.address = network.address
    peers.start_board(board, network)
    hub = peers.serve(on_network([board], wait=LONG_WAIT), 3, network)
    clients = []
    for count in (1, 2):
        clients.append(peers.start_client(hub, network, [f"rmwsum {COUNT} 1"]))
        wait_for(lambda: board.heard("executed") == count, "the board heard nothing")
    network.take_route("blackhole")
    third = ended(peers.start_client(hub, network, [f"rmwsum {COUNT} 1"]))
    require(third.text.endswith(": link lost\n"), f"the third client was told {third}")
    began = time.monotonic()
    told = ended(clients[1])
    took = time.monotonic() - began
    is_soon = took < SOON / 2
    require(told.text.endswith(": link lost\n") and is_soon, f"the second one was told {told} after {took:.1f} s")
    require(ended(clients[0]).text.endswith(": link lost\n"), "the first client")
    done = hub.finish()
    require(done.text.endswith("board b0 places 3 replied 0 timeout 0 lost 3\n"), f"{done}")


# ---- what goes over the network, and what is said of silence


def each_packet_once(peers: Peers) -> None:
    """Where all is well each datagram is sent once: the boards hear one status request, and no packet twice."""
    boards = boards_of(2)
    peers.start_boards(boards)
    scripts = [script_of(f"b{number}", random.Random(number)) for number in range(2)]
    done = peers.run(on_network(boards, scripts, PATIENT_WAIT))
    require_owed(done, boards, scripts)
    for board in boards:
        asked, again = board.heard("status"), board.heard("not")
        require((asked, again) == (1, 0), f"{board.name} heard {asked} status requests, and {again} packets twice")


def silence_is_noted_at_the_second(peers: Peers) -> None:
    """A board counts as silent at its second quiet receive: with one round a packet without an answer has two."""
    (board,) = boards_of(1, mute_after=1)
    peers.start_board(board)
    done = peers.run(on_network([board], [["read b0:id"]], FALLING_WAIT, rounds=1))
    note = f"{greeting(board)}ipbus: {name_of(board)} does not answer\n"
    require((done.status, done.note) == (1, note), f"{done}")


WAITS: dict[str, Callable[[Peers], None]] = {
    "serve an answer before the next board is waited for": answers_before_a_wait,
    "serve packets that are sent within a wait": packets_within_a_wait,
    "run of two clients at once, a board that answers two packets at once": clients_of_a_run_at_once,
    "run asks a board once the dispatch before is over at another": a_dispatch_ends_before_the_next,
    "serve clients that ask together again and again": clients_together,
    "serve a link that fails while clients wait": link_that_fails,
    "run sends each packet once": each_packet_once,
    "a board is silent at its second quiet receive": silence_is_noted_at_the_second,
}
