"""Cases of `serve` to clients of all manners, at simulated boards and at boards on UDP ports."""
import random
import socket
import threading
import time

from model.notes import NOTES
from net.clients import Asked, all_at_once, board_line, end, line_of, require_served, sum_body, work
from net.frames import (
    DONE,
    NO_BOARD,
    NO_PACKET,
    REPLY_TOO_LONG,
    TIMED_OUT,
    TOO_LONG,
    UNSENT,
    Answer,
    ask,
    code_owed,
    frame,
)
from net.packets import (
    READ,
    READ_PORT,
    RMW_BITS,
    RMW_SUM,
    WRITE,
    WRITE_PORT,
    control_packet,
    packet_header,
    request,
    resend_request,
    status_request,
    transaction_header,
)
from net.peers import ended, free_port, require, stop_while_it_waits
from net.sessions import (
    CALM_WAIT,
    COUNT,
    DEAF_WAIT,
    FALLING_WAIT,
    LATE_BY,
    LATE_WAIT,
    PATIENT_WAIT,
    boards_of,
    on_network,
    simulated,
    with_seeds,
)


class Kind:
    """Boards of one kind for a hub that serves: simulated ones, ones on ports, ones behind bad networks."""

    def __init__(self, name, wait, seed=None):
        self.name = name
        self.wait = wait
        self.seed = seed

    def start(self, peers, count, clients, **settings):
        """The boards and the hub that serves them to so many clients."""
        boards = boards_of(count, **settings)
        if self.wait is None:
            return boards, peers.serve(simulated(boards), clients)
        if self.seed is not None:
            with_seeds(boards, self.seed)
        peers.start_boards(boards)
        return boards, peers.serve(on_network(boards, wait=self.wait), clients)

    def require_executed(self, boards, asked):
        if self.wait is not None:
            asked.require_executed(boards)


KINDS = [
    Kind("simulated boards", None),
    Kind("boards on ports", CALM_WAIT),
    *(Kind(f"the bad network {seed}", LATE_WAIT, seed) for seed in (11, 12, 13)),
]


def busy(peers, kind, clients, boards=2, cut=None, rounds=12):
    """So many clients work at once, all connected before the first begins."""
    boards, hub = kind.start(peers, boards, clients)
    connections = [peers.connect(hub) for _ in range(clients)]
    asked = Asked(len(boards))
    meet = threading.Barrier(clients)

    def job(client, connection):
        def go():
            frames = work(connection, client, len(boards), asked, rounds, cut, meet)
            end(connection)
            return frames

        return go

    frames = all_at_once([job(client, connection) for client, connection in enumerate(connections)])
    lines = [line_of(number, count, ["closed"]) for number, count in enumerate(frames, 1)]
    places = [len(bodies) for bodies in asked.bodies]
    require_served(hub, lines, [board_line(board.name, many) for board, many in zip(boards, places)])
    asked.require_sums()
    kind.require_executed(boards, asked)


def serve_16_at_once(kind):
    return lambda peers: busy(peers, kind, 16)


def serve_64_at_once(kind):
    return lambda peers: busy(peers, kind, 64, boards=4, rounds=4)


def serve_cut_at_every_byte(kind):
    return lambda peers: busy(peers, kind, 4, cut=lambda length: range(1, length), rounds=5)


# the read of one word, and what a board of these cases answers to it
FIRST = ask(0, 0, request(0, READ, 0, 1))
FIRST_REPLY = bytes.fromhex("00000014 00000000 00000000 200000f0 20000100 0000abcd")


def serve_cut_in_two(kind):
    """A frame is cut behind each of its bytes in turn, and two frames come in one piece."""

    def case(peers):
        boards, hub = kind.start(peers, 1, 1)
        connection = peers.connect(hub)
        for cut in range(1, len(FIRST)):
            connection.send_cut(FIRST, [cut], 0.002)
            require(connection.take(len(FIRST_REPLY)) == FIRST_REPLY, f"cut behind byte {cut} it was answered wrongly")
        connection.send(FIRST + FIRST)
        require(connection.take(2 * len(FIRST_REPLY)) == 2 * FIRST_REPLY, "two frames in a piece")
        end(connection)
        many = len(FIRST) + 1
        require_served(hub, [line_of(1, many, ["closed"])], [board_line("b0", many)])

    return case


# pairs of frames, and how many seconds those answers take at most that nothing holds back
PAIRS, AT_ONCE = 50, 0.03


def serve_pairs(kind):
    """Two frames come in one piece, again and again. The second answer is not held back until the machine of the client
    acknowledges the first one, as it does late, by 40 milliseconds or more. Where the processors are busy some pairs
    take long all the same."""

    def case(peers):
        boards, hub = kind.start(peers, 1, 1)
        connection = peers.connect(hub)
        times = []
        for _ in range(PAIRS):
            began = time.monotonic()
            connection.send(FIRST + FIRST)
            require(connection.take(2 * len(FIRST_REPLY)) == 2 * FIRST_REPLY, "two frames in a piece")
            times.append(time.monotonic() - began)
        end(connection)
        require_served(hub, [line_of(1, 2 * PAIRS, ["closed"])], [board_line("b0", 2 * PAIRS)])
        quick = sum(seconds < AT_ONCE for seconds in times)
        told = ", ".join(f"{seconds:.3f}" for seconds in times)
        require(quick >= PAIRS // 4, f"{quick} pairs of answers in {PAIRS} came at once: {told} s")

    return case


def serve_half_closed(kind):
    """A client sends all its frames, ends its side, and then reads its answers, each in its order."""

    def case(peers):
        boards, hub = kind.start(peers, 2, 2)
        first, second = peers.connect(hub), peers.connect(hub)
        asked = Asked(2)
        for number in range(60):
            first.send(ask(number % 2, number, sum_body(number)))
        first.half_close()
        for number in range(60):
            reply = first.reply(number % 2, number)
            require(reply[:1] == [transaction_header(number, 1, RMW_SUM, 0)], f"answer {number} is {reply}")
            asked.note(number % 2, sum_body(number))
            asked.note_sum(number % 2, reply[1])
        require(first.answer() is None, "more than was asked")
        # one that says nothing at all, and ends
        end(second)
        lines = [line_of(1, 60, ["closed"]), line_of(2, 0, ["closed"])]
        require_served(hub, lines, [board_line(board.name, 30) for board in boards])
        asked.require_sums()
        kind.require_executed(boards, asked)

    return case


def serve_every_code(kind):
    """Each packet that is refused has its code, in the order of the frames, and the connection goes on."""

    def case(peers):
        boards, hub = kind.start(peers, 1, 1, mtu=92)
        connection = peers.connect(hub)
        read = control_packet(3, request(0, READ, 0, 1))
        sent = [
            (0, status_request(), NO_PACKET),
            (0, resend_request(1), NO_PACKET),
            (0, b"\x20\x00\x00\xf1", NO_PACKET),
            (0, b"\x30\x00\x00\xf0", NO_PACKET),
            (0, b"\x20\x01\x00\xf0\x00", NO_PACKET),
            (1, status_request(), NO_PACKET),
            (1, read, NO_BOARD),
            (0xFFFF_FFFF, read, NO_BOARD),
            (0, control_packet(1, request(0, WRITE, 0x100, 14, [0] * 14)), TOO_LONG),
            (0, control_packet(1, request(0, READ, 0x100, 15)), REPLY_TOO_LONG),
            (0, control_packet(1, request(0, READ, 0x100, 14)), DONE),
            (0, control_packet(1, request(0, WRITE, 0x100, 13, [0] * 13), True), DONE),
            # what a board refuses is replied to
            (0, control_packet(1, request(0, READ, 0x2000, 1)), DONE),
            (0, control_packet(1, request(0, WRITE, 0x1000, 1, [1])), DONE),
            (0, control_packet(1, [0x3000_010F, 0]), DONE),
            (0, control_packet(1, []), DONE),
            (0, control_packet(0, [], True), DONE),
            (0, read, DONE),
        ]
        for board, packet, code in sent:
            require(code == code_owed(board, packet, [92]), f"code {code} of {packet.hex()} is not owed")
            connection.send(frame(board, packet))
        answers = [connection.answer() for _ in sent]
        for (board, packet, code), answer in zip(sent, answers):
            wanted = (board, code)
            require(answer and answer[:2] == wanted, f"{answer} in place of {wanted} for {packet.hex()}")
        packets = [answer.packet for answer in answers]
        head, little = packet_header(1, 0).to_bytes(4), packet_header(1, 0).to_bytes(4, "little")
        require(packets[10] == head + bytes.fromhex("20000e00") + bytes(56), f"{packets[10].hex()}")
        require(packets[11] == little + bytes.fromhex("100d0020"), f"{packets[11].hex()}")
        require(packets[12] == head + bytes.fromhex("20000006"), f"{packets[12].hex()}")
        require(packets[13] == head + bytes.fromhex("20000015"), f"{packets[13].hex()}")
        require(packets[14] == head + bytes.fromhex("20000001"), f"{packets[14].hex()}")
        require(packets[15] == head, f"{packets[15].hex()}")
        require(packets[16] == bytes.fromhex("f0000020"), f"{packets[16].hex()}")
        require(packets[17] == bytes.fromhex("200003f0 20000100 0000abcd"), f"{packets[17].hex()}")
        end(connection)
        places = sum(code == DONE for _, _, code in sent)
        require_served(hub, [line_of(1, len(sent), ["closed"])], [board_line("b0", places)])

    return case


def serve_lengths(kind):
    """A length out of its range ends a connection without a reply to that frame; the greatest one does not."""

    def case(peers):
        boards, hub = kind.start(peers, 1, 5, mtu=9000)
        greatest = control_packet(7, sum((request(n, WRITE, 0x100, 255, [n] * 255) for n in range(8)), []))
        greatest += bytes(8972 - len(greatest))
        endings = []
        for begin in (b"\0\0\0\7" + bytes(7), b"\0\0\x23\x11", b"\xff\xff\xff\xff", b"GET / HTTP/1.1\r\n\r\n"):
            connection = peers.connect(hub)
            connection.send(FIRST + begin)
            require(connection.take(len(FIRST_REPLY)) == FIRST_REPLY, "the frame before is answered")
            require(connection.answer() is None, f"{begin} was answered")
            endings.append(line_of(len(endings) + 1, 1, ["bad frame"]))
            connection.close()
        connection = peers.connect(hub)
        connection.send(frame(0, greatest))
        answer = connection.answer()
        code = code_owed(0, greatest, [9000])
        require(answer[:2] == (0, code), f"{answer} in place of code {code}")
        end(connection)
        endings.append(line_of(5, 1, ["closed"]))
        require_served(hub, endings, [board_line("b0", 4 + (code == DONE))])

    return case


def garbage(draw):
    """Frames whose lengths are right, with anything in them."""
    kind = draw.randrange(4)
    body = draw.randbytes(4 * draw.randrange(1, 20))
    if kind == 0:
        return draw.randrange(4), draw.randbytes(draw.randrange(4, 60))
    if kind == 1:
        return draw.choice([0, 1, 2, 0x8000_0000]), packet_header(draw.randrange(65_536), 0).to_bytes(4) + body
    if kind == 2:
        return draw.randrange(2), packet_header(draw.randrange(65_536), 0).to_bytes(4, "little") + body
    bodies = request(1, draw.choice([READ, READ_PORT]), draw.getrandbits(32), draw.randrange(256))
    return 0, control_packet(1, bodies + request(2, draw.choice([WRITE_PORT, RMW_BITS]), 4, 1, [1, 2]))


def serve_garbage(kind):
    """Frames of garbage have the code that is owed to each, and harm nobody."""

    def case(peers):
        boards, hub = kind.start(peers, 2, 2)
        draw = random.Random(1)
        first, second = peers.connect(hub), peers.connect(hub)
        places = [0, 0]
        for _ in range(300):
            board, packet = garbage(draw)
            code = code_owed(board, packet, [1500, 1500])
            first.send(frame(board, packet))
            answer = first.answer()
            require(answer and answer[:2] == (board, code), f"{answer} in place of code {code} for {packet.hex()}")
            if code == DONE:
                places[board] += 1
        end(first)
        asked = Asked(2)
        frames = work(second, 1, 2, asked)
        end(second)
        lines = [line_of(1, 300, ["closed"]), line_of(2, frames, ["closed"])]
        told = [board_line(b.name, many + len(asked.bodies[n])) for n, (b, many) in enumerate(zip(boards, places))]
        require_served(hub, lines, told)

    return case


# ---- beside clients that misbehave

# a frame whose answer is long, and how many of them nobody reads: more than the buffers of two sockets hold
LONG = ask(0, 1, request(0, READ, 0x100, 255))
UNREAD = 40_000


def flood(connection, stop):
    """Sends frames whose answers nobody reads, as long as they are taken."""
    connection.socket.settimeout(0.5)
    data = LONG * 100
    try:
        for _ in range(UNREAD // 100):
            if stop.is_set():
                return
            connection.send(data)
    except OSError:
        return


def serve_beside_the_ill_mannered(kind):
    """Busy clients are served while another is silent, one stops within a frame, one never reads, one sends garbage,
    one goes away within a frame, one before its answer, and one resets the connection."""

    def case(peers):
        clients = 8
        boards, hub = kind.start(peers, 2, clients + 7)
        silent, halting, deaf, rubbish, cut, gone, resetting = (peers.connect(hub) for _ in range(7))
        connections = [peers.connect(hub) for _ in range(clients)]
        halting.send(FIRST + FIRST[:10])
        rubbish.send(random.Random(3).randbytes(4000))
        cut.send(FIRST[:11])
        cut.close()
        gone.send(FIRST * 50)
        gone.close()
        resetting.send(FIRST * 3 + FIRST[:5])
        resetting.reset()
        stop = threading.Event()
        flooding = threading.Thread(target=flood, args=[deaf, stop], daemon=True)
        flooding.start()
        asked = Asked(2)
        jobs = [
            lambda client=client, one=one: work(one, client, 2, asked) for client, one in enumerate(connections)
        ]
        frames = all_at_once(jobs)
        for connection in connections:
            end(connection)
        # all of them were served to their end while those others stood there
        stop.set()
        flooding.join()
        require(hub.process.poll() is None, "the hub ended before its clients")
        require(halting.take(len(FIRST_REPLY)) == FIRST_REPLY, "the frame before a part of one is answered")
        halting.half_close()
        require(halting.answer() is None, "a part of a frame was answered")
        end(silent)
        deaf.reset()
        faults = ["read fault", "write fault"]
        lines = [
            line_of(1, 0, ["closed"]),
            line_of(2, 1, ["cut frame"]),
            line_of(3, r"\d+", faults),
            line_of(4, 0, ["bad frame"]),
            line_of(5, 0, ["cut frame"]),
            line_of(6, r"\d+", [*faults, "closed"]),
            line_of(7, r"[0-3]", [*faults, "cut frame"]),
            *(line_of(number, count, ["closed"]) for number, count in enumerate(frames, 8)),
        ]
        told = [rf"board {board.name} places (\d+) replied \1 timeout 0 lost 0" for board in boards]
        require_served(hub, lines, told)
        asked.require_sums()
        for board in boards if kind.wait is not None else []:
            board.executed()

    return case


# ---- boards that fail


def serve_a_silent_board(peers):
    """A board that never answered: its clients are told so, and those of the other are served."""
    live, silent = boards_of(2)
    peers.start_board(live)
    silent.port, silent.wait = peers.deaf_port(), DEAF_WAIT
    hub = peers.serve(on_network([live, silent], wait=PATIENT_WAIT, rounds=2), 1)
    connection = peers.connect(hub)
    connection.send(frame(1, FIRST[8:]) + FIRST)
    require(connection.answer() == Answer(1, UNSENT, b""), "a board that was silent at its greeting")
    require(connection.take(len(FIRST_REPLY)) == FIRST_REPLY, "the other board")
    end(connection)
    require_served(hub, [line_of(1, 2, ["closed"])], [board_line("b0", 1), "board b1 silent"])


def serve_a_board_that_falls_silent(peers):
    """A board that answers no more: the time of the frame is up, and the other board is served on."""
    falling, live = boards_of(2)
    falling.more["mute_after"] = 2
    falling.wait = FALLING_WAIT
    peers.start_boards([falling, live])
    hub = peers.serve(on_network([falling, live], wait=PATIENT_WAIT, rounds=2), 2)
    first, second = peers.connect(hub), peers.connect(hub)
    require(first.ask(0, 5, sum_body()) == [transaction_header(0, 1, RMW_SUM, 0), 0], "the first sum")
    first.send(ask(0, 6, sum_body()))
    require(second.ask(1, 1, sum_body()) == [transaction_header(0, 1, RMW_SUM, 0), 0], "the other board")
    require(first.answer() == Answer(0, TIMED_OUT, b""), "no answer to a body that timed out")
    end(first)
    end(second)
    lines = [line_of(1, 2, ["closed"]), line_of(2, 1, ["closed"])]
    require_served(hub, lines, ["board b0 places 2 replied 1 timeout 1 lost 0", board_line("b1", 1)])
    falling.require_executed(2)


# how often two clients ask at once, and how many seconds an answer may take; a receive waits longer
BOTH, SOON = 20, 5
LONG_WAIT = 10_000


def serve_two_at_once(peers):
    """A board that answers only once it holds the packets of two connections: both are answered. A hub that has one
    packet under way would wait for as long as a receive does, again and again."""
    (board,) = boards_of(1, together=2)
    peers.start_board(board)
    hub = peers.serve(on_network([board], wait=LONG_WAIT), 2)
    connections = [peers.connect(hub) for _ in range(2)]
    for number in range(BOTH):
        began = time.monotonic()
        for connection in connections:
            connection.send(FIRST)
        for connection in connections:
            require(connection.take(len(FIRST_REPLY)) == FIRST_REPLY, f"answer {number} is wrong")
        took = time.monotonic() - began
        require(took < SOON, f"both were answered after {took:.1f} s")
    for connection in connections:
        end(connection)
    require_served(hub, [line_of(n, BOTH, ["closed"]) for n in (1, 2)], [board_line("b0", 2 * BOTH)])
    board.require_executed(2 * BOTH)


def serve_while_it_is_stopped(peers):
    """The hub is stopped and goes on while it waits for each reply of a board. That interrupts the wait, and no frame
    is lost by it."""
    (board,) = boards_of(1, late=LATE_BY)
    peers.start_board(board)
    hub = peers.serve(on_network([board], wait=PATIENT_WAIT), 1)
    stop_while_it_waits(hub.process, board, "status", 1)
    connection = peers.connect(hub)
    for number in range(3):
        connection.send(ask(0, number, sum_body(number)))
        stop_while_it_waits(hub.process, board, "executed", number + 1)
        reply = connection.reply(0, number)
        require(reply == [transaction_header(number, 1, RMW_SUM, 0), number], f"answer {number} is {reply}")
    end(connection)
    require_served(hub, [line_of(1, 3, ["closed"])], [board_line("b0", 3)])
    board.require_executed(3)


def serve_runs_no_script(peers):
    """The scripts of a document that is served are not run."""
    (board,) = boards_of(1)
    peers.start_board(board)
    scripts = [["write b0:count 5", "dispatch", "read b0:id"]]
    hub = peers.serve(on_network([board], scripts), 1)
    connection = peers.connect(hub)
    reply = connection.ask(0, 1, request(0, READ, COUNT, 1))
    require(reply == [transaction_header(0, 1, READ, 0), 7], f"the register has {reply}")
    end(connection)
    require_served(hub, [line_of(1, 1, ["closed"])], [board_line("b0", 1)])
    board.require_executed(1)


def serve_refuses_a_script(peers):
    """The scripts of a document that is served are looked at, before its boards are."""
    boards = boards_of(1)
    peers.start_boards(boards)
    words = [*peers.command, "serve", str(free_port()), "1"]
    done = ended(peers.start(words, on_network(boards, [["read b0:none"]])))
    note = "ipbus: client 1, line 1: the table of the board has no such register\n"
    note += 'ipbus: the word "b0:none" of the line "read b0:none"\n'
    require(done == (3, "refused: script 1 1 UnknownName\n", note), f"{done}")
    require(not boards[0].log.read_text(), "it asked the board")


def serve_on_a_port_in_use(peers):
    """The port is taken: status 8 and its note, and nothing is written. The board was greeted, and executed nothing."""
    (board,) = boards_of(1)
    peers.start_board(board)
    taken = socket.create_server(("0.0.0.0", 0))
    peers.open.append(taken)
    port = taken.getsockname()[1]
    done = ended(peers.start([*peers.command, "serve", str(port), "1"], on_network([board])))
    note = f"ipbus: port {port}: Address already in use (os error 98)\n{NOTES[8].decode()}"
    require(done == (8, "", note), f"{done}")
    board.require_executed(0)


BY_KIND = {
    "16 clients at once": serve_16_at_once,
    "frames cut at every byte": serve_cut_at_every_byte,
    "a frame cut in two": serve_cut_in_two,
    "two frames in a piece": serve_pairs,
    "half-closed connections": serve_half_closed,
    "every code": serve_every_code,
    "lengths out of range": serve_lengths,
    "garbage": serve_garbage,
    "clients beside ill-mannered ones": serve_beside_the_ill_mannered,
}


def serve_cases():
    cases = {f"serve {name}, {kind.name}": make(kind) for name, make in BY_KIND.items() for kind in KINDS[:2]}
    for kind in KINDS[2:]:
        for name in ("16 clients at once", "half-closed connections", "clients beside ill-mannered ones"):
            cases[f"serve {name}, {kind.name}"] = BY_KIND[name](kind)
    cases["serve 64 clients at once, boards on ports"] = serve_64_at_once(KINDS[1])
    cases["serve a silent board"] = serve_a_silent_board
    cases["serve a board that falls silent"] = serve_a_board_that_falls_silent
    cases["serve a board that answers two packets at once"] = serve_two_at_once
    cases["serve while it is stopped and goes on"] = serve_while_it_is_stopped
    cases["serve runs no script"] = serve_runs_no_script
    cases["serve refuses a script"] = serve_refuses_a_script
    cases["serve on a port in use"] = serve_on_a_port_in_use
    return cases


SERVES = serve_cases()
