"""Cases of what whoever runs the hub meets: routes that go away, networks that lose much, silent boards, and what
standard error says of them; two hubs at one board, and boards that restart."""
import signal
import time
from concurrent.futures import ThreadPoolExecutor

from model.notes import NOTES
from model.replay import check_transcript
from model.session import Session
from net.clients import end, sum_body
from net.frames import TIMED_OUT, Answer, ask
from net.packets import RMW_SUM, WRITE, request, transaction_header
from net.peers import Board, Wrong, ended, greeting, require, require_silences, rest_of
from net.sessions import COUNT, DEAF_WAIT, RANGES, boards_of, on_network, simulated

# how long a route is away, in seconds, and how long a receive waits meanwhile, in milliseconds; and where a hub is to
# give up meanwhile, with so few rounds that a slow board still has the time to answer
AWAY, AWAY_WAIT = 0.6, 20
LONG_AWAY, FEW_WAIT, FEW_ROUNDS = 2.0, 200, 3
NO_ROUTE = "Network is unreachable (os error 101)"
# so many that a run is still under way when the machine that takes a route away is slow
SUMS = 3000


def name_of(board):
    return f"{board.name} ({board.address}:{board.port})"


def sums(count):
    """Lines of one client that counts at a register, each in a dispatch of its own."""
    return ["rmwsum b0:count 1", "dispatch"] * count


def sums_done(count, first=7):
    """What is printed of them where each was done once."""
    lines = [f"{n + 1} rmwsum b0:count was 0x{first + n:08x} @{n + 1}.1" for n in range(count)]
    return "\n".join(["client 1", *lines, f"board b0 places {count} replied {count} timeout 0 lost 0", ""])


def wait_for(holds, told, seconds=30):
    end_of_wait = time.monotonic() + seconds
    while not holds():
        require(time.monotonic() < end_of_wait, told)
        time.sleep(0.005)


def in_the_middle(board, process):
    """Waits until a board executed some bodies of a hub, and not yet all."""
    wait_for(lambda: board.heard("executed") >= SUMS // 10, f"the hub is not at work: {process.poll()}")


# ---- routes that go away

# ways in which the machine refuses a datagram: the words of a route, and the machine's reason
REFUSALS = {
    "away": (None, NO_ROUTE),
    "unreachable": ("unreachable", "No route to host (os error 113)"),
    "prohibited": ("prohibit", "Permission denied (os error 13)"),
}


def board_behind_a_route(peers):
    """A network of its own with a board on an address of it."""
    network = peers.network()
    (board,) = boards_of(1, host="0.0.0.0")
    board.address = network.address
    peers.start_board(board, network)
    return network, board


def without_a_route(network, route, seconds=AWAY):
    network.take_route(route)
    time.sleep(seconds)
    network.give_route(route)


def require_told_of(note, board, reason):
    """The first error of the link is said once, and that its board does not answer and answers again."""
    error = f"ipbus: {name_of(board)}: {reason}\n"
    require(note.count(error) == 1, f"it says {note!r}, wanted {error!r}")
    require_silences(note.replace(error, ""), board)


def run_while_a_route_is(way):
    """The route to a board goes away in the middle of a run and comes back: datagrams are lost, and no more."""
    route, reason = REFUSALS[way]

    def case(peers):
        network, board = board_behind_a_route(peers)
        document = on_network([board], [sums(SUMS)], AWAY_WAIT)
        process = peers.start([*network.words, *peers.command, "run"], document)
        in_the_middle(board, process)
        without_a_route(network, route)
        done = ended(process)
        require((done.status, done.text) == (0, sums_done(SUMS)), f"{done}")
        board.require_executed(SUMS)
        require(done.note.startswith(greeting(board)), f"it says {done.note!r}")
        require_told_of(done.note[len(greeting(board)) :], board, reason)

    return case


def serve_while_a_route_is(way):
    """So it is of a server: the client whose frame waits meanwhile is answered late, and later ones as ever."""
    route, reason = REFUSALS[way]

    def case(peers):
        network, board = board_behind_a_route(peers)
        hub = peers.serve(on_network([board], wait=AWAY_WAIT), 2, network)
        lines = [f"rmwsum {COUNT} 1"] * SUMS
        client = peers.start_client(hub, network, lines)
        in_the_middle(board, client)
        without_a_route(network, route)
        later = peers.start_client(hub, network, [f"read {COUNT}"])
        told = [ended(each) for each in (client, later)]
        require([each.status for each in told] == [0, 0], f"{told}")
        counted = [int(line.rsplit(" ", 1)[1], 16) for line in told[0].text.splitlines()]
        require(counted == list(range(7, 7 + SUMS)), f"the client counted {counted}")
        done = hub.finish()
        require(done.status == 0, f"{done}")
        board.require_executed(SUMS + 1)
        # the last connection may come before the hub has heard of the board again
        last = hub.says.removeprefix(hub.listens)
        require(done.note.startswith(hub.listens) and done.note.count(last) == 1, f"it says {done.note!r}")
        require_told_of(done.note.removeprefix(hub.listens).replace(last, ""), board, reason)

    return case


def serve_past_a_long_outage(peers):
    """A route that is away for longer than the rounds: the frame of that time is given up, and the next is answered."""
    network, board = board_behind_a_route(peers)
    hub = peers.serve(on_network([board], wait=FEW_WAIT, rounds=FEW_ROUNDS), 1, network)
    client = peers.start_client(hub, network, [f"rmwsum {COUNT} 1"] * SUMS)
    in_the_middle(board, client)
    without_a_route(network, None, LONG_AWAY)
    told = ended(client)
    lines = told.text.splitlines()
    given_up = sum(line.endswith("timeout, execution unknown") for line in lines)
    unsent = sum(line.endswith("unsent") for line in lines)
    lost = sum(line.endswith("link lost") for line in lines)
    require(len(lines) == SUMS and given_up >= 1 and lost == 0, f"{given_up} given up, {lost} lost in {told}")
    require(lines[-1].split()[-1].startswith("0x"), f"the last answer is {lines[-1]}")
    places = SUMS - unsent
    done = hub.finish()
    line = f"board b0 places {places} replied {places - given_up} timeout {given_up} lost 0\n"
    require(done.text == f"connection 1 frames {SUMS} closed\n{line}", f"{done}, wanted {line}")
    board.require_executed(places)


def run_at_an_address_that_is_refused(peers):
    """An address to which nothing can be sent at all: the board is down, and the machine's reason is said."""
    network, board = board_behind_a_route(peers)
    network.take_route("blackhole")
    document = on_network([board], [["read b0:id"]], DEAF_WAIT)
    done = ended(peers.start([*network.words, *peers.command, "run"], document))
    text = "client 1\n1 read b0:id link lost\nboard b0 down\n"
    note = f"ipbus: {name_of(board)}: Invalid argument (os error 22)\n"
    require(done == (1, text, note), f"{done}")
    board.require_executed(0)


# ---- networks that lose much

SESSIONS = 50


def counted_session(peers, number):
    """One session of a seeded network that loses 1 to 30 of a hundred datagrams, repeats some and delays some, so that
    later ones overtake them: the board counts each sum once."""
    board = Board("b0", RANGES, seed=number, lost=1 + number % 30, latest=5, first=65_530)
    board.file = f"b0_{number}"
    peers.start_board(board)
    count = 20
    document = on_network([board], [sums(count)], wait=8)
    done = peers.run(document)
    require((done.status, done.text) == (0, sums_done(count)), f"session {number}: {done}")
    require(rest_of(done.note) == "", f"it says {done.note!r}")
    board.require_executed(count)


def sessions_over_lossy_networks(first):
    def case(peers):
        with ThreadPoolExecutor(6) as pool:
            list(pool.map(lambda number: counted_session(peers, number), range(first, first + SESSIONS)))

    return case


def run_of_more_packets_than_identifiers(peers):
    """Identifiers come again behind 65,535 packets, over a network that loses some: each packet is executed once."""
    count = 66_000
    board = Board("b0", RANGES, seed=1, lost=1, latest=0.2)
    peers.start_board(board)
    done = peers.run(on_network([board], [sums(count)], wait=5))
    require((done.status, done.text == sums_done(count)) == (0, True), f"status {done.status}, {done.text[-200:]}")
    board.require_executed(count)


# ---- what is said of silence


def run_at_a_board_that_never_answers(peers):
    """A long silence is not mute: it is said once that the board does not answer."""
    (board,) = boards_of(1)
    board.port, board.wait = peers.deaf_port(), DEAF_WAIT
    done = peers.run(on_network([board], [["read b0:id"]], rounds=40))
    text = "client 1\n1 read b0:id unsent\nboard b0 silent\n"
    # where the greeting takes more than a second it is said before its end too
    said = f"ipbus: {name_of(board)} does not answer"
    note = f"{said}: it is not asked again until the next start\n"
    require(done in ((1, text, note), (1, text, f"{said}\n{note}")), f"{done}")


def run_while_a_board_sleeps(peers):
    """A board is stopped in the middle of a run and goes on: it is said once each, and nothing is lost."""
    (board,) = boards_of(1)
    peers.start_board(board)
    process = peers.start_run(on_network([board], [sums(SUMS)], AWAY_WAIT))
    in_the_middle(board, process)
    board.process.send_signal(signal.SIGSTOP)
    time.sleep(AWAY)
    board.process.send_signal(signal.SIGCONT)
    done = ended(process)
    require((done.status, done.text) == (0, sums_done(SUMS)), f"{done}")
    require(done.note.startswith(greeting(board)), f"it says {done.note!r}")
    require_silences(done.note.removeprefix(greeting(board)), board)
    board.require_executed(SUMS)


def run_past_a_long_sleep(peers):
    """A board is stopped for longer than the rounds. What was sent meanwhile is given up, and then executed once each
    and answered late: the text is right by replay."""
    (board,) = boards_of(1)
    peers.start_board(board)
    scripts, rounds = [sums(SUMS)], FEW_ROUNDS
    process = peers.start_run(on_network([board], scripts, FEW_WAIT, rounds=rounds))
    in_the_middle(board, process)
    board.process.send_signal(signal.SIGSTOP)
    time.sleep(LONG_AWAY)
    board.process.send_signal(signal.SIGCONT)
    done = ended(process)
    check_transcript(Session(simulated([board], scripts, rounds=rounds)), done.text, done.status)
    late = done.text.count(f" timeout after {rounds} rounds, answered late: was 0x")
    unknown = done.text.count("execution unknown")
    require(late >= 1 and unknown == 0, f"{late} answered late, {unknown} not at all")
    board.require_executed(SUMS - done.text.count(" unsent\n"))


def silent_boards_take_their_time(peers):
    """Silent boards are greeted one by one, each for all its rounds, and a server opens its port behind the last."""
    boards = boards_of(2)
    # so long that no start of a program takes as much
    rounds, wait = 10, 150
    for board in boards:
        board.port, board.wait = peers.deaf_port(), wait
    began = time.monotonic()
    hub = peers.serve(on_network(boards, rounds=rounds), 1)
    connection = peers.connect(hub)
    took = time.monotonic() - began
    least = 2 * rounds * wait / 1000
    require(took >= least, f"the port was open after {took} s, before {least}")
    end(connection)
    done = hub.finish()
    # a greeting that takes more than a second is told of before its end too
    silent = "".join(
        f"ipbus: {name_of(board)} does not answer{more}\n"
        for board in boards
        for more in ("", ": it is not asked again until the next start")
    )
    text = "connection 1 frames 0 closed\nboard b0 silent\nboard b1 silent\n"
    require(done == (0, text, silent + hub.says), f"{done}")


def a_mute_board_takes_its_time(peers):
    """A board that falls mute costs a round more than its rounds at each dispatch."""
    (board,) = boards_of(1, mute_after=1)
    peers.start_board(board)
    rounds, dispatches, wait = FEW_ROUNDS, 4, FEW_WAIT
    began = time.monotonic()
    done = peers.run(on_network([board], [sums(dispatches)], wait, rounds=rounds))
    took = time.monotonic() - began
    least = dispatches * (rounds + 1) * wait / 1000
    require(done.status == 1 and took >= least, f"{dispatches} dispatches took {took} s, less than {least}: {done}")
    last = done.note.splitlines()[-1].split(";")[0]
    is_told = last == f"ipbus: {name_of(board)} does not answer" and rest_of(done.note) == ""
    require(is_told, f"it says {done.note!r}")


# ---- what code 1 leaves behind


def a_given_up_write_is_executed_later(peers):
    """A frame is given up while the board sleeps; its body has its place still, and the board executes it before the
    frame of another client."""
    (board,) = boards_of(1)
    peers.start_board(board)
    hub = peers.serve(on_network([board], wait=FEW_WAIT, rounds=FEW_ROUNDS), 2)
    first, second = peers.connect(hub), peers.connect(hub)
    require(first.ask(0, 1, sum_body()) == [transaction_header(0, 1, RMW_SUM, 0), 0], "the first sum")
    board.process.send_signal(signal.SIGSTOP)
    first.send(ask(0, 2, sum_body()))
    require(first.answer() == Answer(0, TIMED_OUT, b""), "the sum was answered")
    end(first)
    board.process.send_signal(signal.SIGCONT)
    reply = second.ask(0, 3, sum_body())
    require(reply == [transaction_header(0, 1, RMW_SUM, 0), 2], f"the sum of the other client found {reply}")
    end(second)
    done = hub.finish()
    lines = "connection 1 frames 2 closed\nconnection 2 frames 1 closed\n"
    require(done.text == f"{lines}board b0 places 3 replied 2 timeout 1 lost 0\n", f"{done}")
    board.require_executed(3)


# ---- one hub for each board


def a_second_hub_tells_of_writes_that_no_board_executed(peers):
    """Two hubs greet one board. The second takes the reply to the first one's packet for that to its own."""
    (board,) = boards_of(1)
    peers.start_board(board)
    second = peers.serve(on_network([board], wait=AWAY_WAIT), 1)
    connection = peers.connect(second)
    words = ["env", "IPBUS_SHARE=1", *peers.command, "run"]
    done = ended(peers.start(words, on_network([board], [["write b0:count 5"]])))
    require(done.status == 0, f"{done}")
    reply = connection.ask(0, 1, request(0, WRITE, COUNT, 1, [9]))
    require(reply == [transaction_header(0, 1, WRITE, 0)], f"the second hub answered {reply}")
    end(connection)
    second.finish()
    executed = board.executed()
    require(executed == [request(0, WRITE, COUNT, 1, [5])], f"the board executed {executed}")


def a_restarted_board_executes_a_body_again(peers):
    """A board executes a body, its reply is lost, and it starts anew: then the hub has it executed once more."""
    (board,) = boards_of(1, mute_after=1)
    peers.start_board(board)
    process = peers.start_run(on_network([board], [["rmwsum b0:count 1"]], AWAY_WAIT))
    wait_for(lambda: board.heard("executed") == 1, "the board executed nothing")
    board.process.kill()
    board.process.wait()
    (again,) = boards_of(1)
    again.file = "again"
    peers.start_board(again, port=board.port)
    done = ended(process)
    require(done.status == 0 and "was 0x00000007 @1.1" in done.text, f"{done}")
    require(board.executed() == again.executed() != [], f"{board.executed()} and then {again.executed()}")


# ---- the life of a server


def a_scan_counts_as_a_connection(peers):
    """Whoever connects counts. A client past the last one is not answered, and its connection ends with the server."""
    (board,) = boards_of(1)
    peers.start_board(board)
    hub = peers.serve(on_network([board]), 2)
    peers.connect(hub).close()
    served = peers.connect(hub)
    past = peers.connect(hub)
    past.send(ask(0, 1, sum_body()))
    require(served.ask(0, 2, sum_body()) == [transaction_header(0, 1, RMW_SUM, 0), 0], "the second connection")
    end(served)
    done = hub.finish()
    lines = "connection 1 frames 0 closed\nconnection 2 frames 1 closed\n"
    told = (0, f"{lines}board b0 places 1 replied 1 timeout 0 lost 0\n", hub.says)
    require((done.status, done.text, rest_of(done.note)) == told, f"{done}, wanted {told}")
    try:
        answer = past.answer()
    except ConnectionError:
        answer = None
    require(answer is None, f"a client past the last one was answered {answer}")
    board.require_executed(1)


def run_out_of(limit):
    """The machine has no more of what a connection needs: the server ends with status 8 and says why."""

    def case(peers):
        (board,) = boards_of(1)
        peers.start_board(board)
        hub = peers.serve(on_network([board]), 60, limits=[limit])
        for _ in range(12):
            try:
                peers.connect(hub).half_close()
            except (Wrong, OSError):  # it has ended
                break
        done = hub.finish()
        note = f"{hub.listens}ipbus: accept: Too many open files (os error 24)\n{NOTES[8].decode()}"
        require(done == (8, "", note), f"{done}")

    return case


OPERATORS = {
    **{f"run while a route is {way}": run_while_a_route_is(way) for way in REFUSALS},
    **{f"serve while a route is {way}": serve_while_a_route_is(way) for way in REFUSALS},
    "serve past a long outage": serve_past_a_long_outage,
    "run at an address that the machine refuses": run_at_an_address_that_is_refused,
    **{
        f"sessions {first} to {first + SESSIONS - 1} over networks that lose much": sessions_over_lossy_networks(first)
        for first in range(0, 4 * SESSIONS, SESSIONS)
    },
    "run of more packets than identifiers": run_of_more_packets_than_identifiers,
    "run at a board that never answers": run_at_a_board_that_never_answers,
    "run while a board sleeps": run_while_a_board_sleeps,
    "run past a long sleep of a board": run_past_a_long_sleep,
    "silent boards take their time": silent_boards_take_their_time,
    "a mute board takes its time": a_mute_board_takes_its_time,
    "a given up write is executed later": a_given_up_write_is_executed_later,
    "a second hub tells of writes that no board executed": a_second_hub_tells_of_writes_that_no_board_executed,
    "a restarted board executes a body again": a_restarted_board_executes_a_body_again,
    "a scan counts as a connection": a_scan_counts_as_a_connection,
    "serve refuses connections where files run out": run_out_of("-n 24"),
}
