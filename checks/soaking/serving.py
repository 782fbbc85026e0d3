"""`serve` over UDP boards behind bad networks, to clients at once: each count at a register that all share is told once,
and each board executed what was answered, none twice."""
import random
import threading
from collections import Counter
from typing import Any, NamedTuple

from net.clients import all_at_once, sum_body
from net.frames import DONE, LOST, TIMED_OUT, UNSENT, Answer, ask
from net.packets import READ, WRITE, read_control, request, transaction_header
from net.peers import Peers, require, rest_of
from net.sessions import OWN, boards_of, on_network
from soaking import forms
from soaking.among import among
from soaking.cases import Case, Tried
from soaking.program import Program
from soaking.running import SELDOM
from soaking.udp_boards import Network, UdpBoards

SETTINGS = "settings.txt"


class Settings(NamedTuple):
    """What a case is made of, each by a line of its text."""

    boards: int = 1
    clients: int = 2
    turns: int = 5
    rounds: int = 255
    window: int = 16
    wait: int = 20
    mtu: int = 1500
    buffers: int = 16
    first: int = 1
    seed: int = 0
    lost: int = 0
    latest: int = 0
    answers: int = 0
    # a client that goes away in the middle, if it is not 0, and in which way: it closes, or resets its connection
    gone: int = 0
    reset: int = 0


def drawn(number: int) -> Case:
    draw = random.Random(f"serve {number}")
    if number % SELDOM == SELDOM - 1:
        return Case(("serve", "without a route"), {SETTINGS: b""})
    told = Settings(draw.choice([1, 2, 3]), draw.choice([1, 2, 8, 16]), draw.choice([2, 6, 12]))
    told = told._replace(seed=draw.randrange(1 << 30), first=draw.choice([1, 65_530]), window=draw.choice([1, 3, 16]))
    told = told._replace(lost=draw.choice([0, 10, 30]), latest=draw.choice([0, 1, 6]), buffers=draw.choice([1, 4, 64]))
    if number % 3 == 2:
        told = told._replace(rounds=draw.choice([1, 2]), wait=draw.choice([1, 3]), lost=draw.choice([20, 40, 60]))
        told = told._replace(latest=draw.choice([1, 10]), answers=draw.choice([0, 0, 1, 3]))
    if number % 4 == 3:
        told = told._replace(gone=draw.randint(1, told.clients), reset=draw.randrange(2))
    text = "".join(f"{name} {value}\n" for name, value in told._asdict().items())
    return Case(("serve",), {SETTINGS: text.encode()})


def settings_in(text: bytes) -> Settings:
    pairs = (line.split() for line in text.decode().splitlines())
    return Settings(**{name: int(value) for name, value in pairs})


class Client:
    """A client that writes and reads a register of its own, and counts at one that all share."""

    def __init__(self, number: int, told: Settings, connection: Any, meet: threading.Barrier) -> None:
        self.number = number
        self.told = told
        self.connection = connection
        self.meet = meet
        self.is_going = number == told.gone
        # by board, the bodies that were answered, and the counts; and all codes
        self.bodies: list[list[tuple[int, ...]]] = [[] for _ in range(told.boards)]
        self.counts: list[list[int]] = [[] for _ in range(told.boards)]
        self.codes: Counter[int] = Counter()

    def go(self) -> None:
        draw = random.Random(f"{self.told.seed} {self.number}")
        self.meet.wait(60)
        for turn in range(self.told.turns):
            board = draw.randrange(self.told.boards)
            if self.is_going and turn == self.told.turns // 2:
                self.leave(board)
                return
            self.own(draw, board)
            self.count(turn, board)
        self.connection.half_close()
        require(self.connection.answer() is None, "an answer behind the end")

    def leave(self, board: int) -> None:
        self.connection.send(ask(board, 1, sum_body()) + ask(board, 2, sum_body())[:7])
        (self.connection.reset if self.told.reset else self.connection.close)()

    def answered(self, board: int, body: list[int]) -> list[int] | None:
        """The body of the reply, or None where the hub has none."""
        self.connection.send(ask(board, self.number, body))
        answer: Answer | None = self.connection.answer()
        require(answer is not None and answer.board == board, f"{answer} of board {board}")
        self.codes[answer.code] += 1
        if answer.code != DONE:
            is_patient = self.told.rounds == 255 and not self.told.answers
            require(not is_patient and answer.code in (TIMED_OUT, UNSENT), f"{answer} of board {board}")
            return None
        packet = read_control(answer.packet)
        require(packet is not None and packet.identifier == self.number, f"{answer} for {self.number}")
        self.bodies[board].append(tuple(body))
        return packet.body

    def own(self, draw: random.Random, board: int) -> None:
        """It reads what it wrote in the same packet."""
        word, address = draw.getrandbits(32), OWN + self.number
        body = request(5, WRITE, address, 1, [word]) + request(9, READ, address, 1)
        reply = self.answered(board, body)
        wanted = [transaction_header(5, 1, WRITE, 0), transaction_header(9, 1, READ, 0), word]
        require(reply in (None, wanted), f"client {self.number} was answered {reply}, wanted {wanted}")

    def count(self, turn: int, board: int) -> None:
        reply = self.answered(board, sum_body(turn))
        if reply is not None:
            require(len(reply) == 2, f"{reply} to a sum")
            self.counts[board].append(reply[1])


def tried(case: Case, program: Program) -> Tried:
    found = Tried()
    if case.words[1:] == ("without a route",):
        among(found, program, lambda peers: without_a_route(found, peers))
    else:
        told = settings_in(case.texts[SETTINGS])
        among(found, program, lambda peers: serve(found, peers, told))
    return found


def serve(found: Tried, peers: Peers, told: Settings) -> None:
    boards = boards_of(told.boards, mtu=told.mtu, buffers=told.buffers, first=told.first)
    networks = [Network(told.seed + place, told.lost, told.latest) for place in range(told.boards)]
    networks[0] = networks[0]._replace(answers=told.answers)
    with UdpBoards(boards, networks) as live:
        hub = peers.serve(on_network(boards, wait=told.wait, rounds=told.rounds, window=told.window), told.clients)
        meet = threading.Barrier(told.clients)
        clients = [Client(number, told, peers.connect(hub), meet) for number in range(1, told.clients + 1)]
        all_at_once([client.go for client in clients])
        done = hub.finish()
        bodies = live.bodies()
    found.meet([f"status serve {done.status}", *forms.of_note(done.note.encode())])
    found.meet(forms.of_transcript(done.text).elements())
    found.meet(f"code {code}" for client in clients for code in client.codes.elements())
    found.compare("note of a server", rest_of(done.note), hub.says)
    of_lines(found, told, clients, done.text.splitlines())
    of_boards(found, told, clients, bodies, done.text.splitlines()[told.clients :])


def of_lines(found: Tried, told: Settings, clients: list[Client], lines: list[str]) -> None:
    """What is told of each connection."""
    found.compare("lines of a server", len(lines), told.clients + told.boards)
    for client, line in zip(clients, lines):
        if not client.is_going:
            wanted = f"connection {client.number} frames {client.codes.total()} closed"
            found.compare("line of a connection", line, wanted)


def of_boards(found: Tried, told: Settings, clients: list[Client], bodies: list[Any], lines: list[str]) -> None:
    """What was answered was executed once. Each count was told once, and those of one client rise."""
    for place, executed in enumerate(bodies):
        counts = [count for client in clients for count in client.counts[place]]
        found.compare("counts told twice", len(set(counts)), len(counts))
        is_rising = all(client.counts[place] == sorted(client.counts[place]) for client in clients)
        found.compare("counts that rise", is_rising, True)
        answered = Counter(body for client in clients for body in client.bodies[place])
        found.compare("answered and not executed", dict(answered - Counter(map(tuple, executed))), {})
        words = lines[place].split()
        if words[2] != "places":
            continue
        sent, replied = int(words[3]), int(words[5])
        found.compare("executed and places", replied <= len(executed) <= sent, True)
        if told.rounds == 255 and not told.gone and not told.answers:
            found.compare("executed", (len(executed), answered.total()), (sent, sent))
            found.compare("counts", sorted(counts), list(range(len(counts))))


def without_a_route(found: Tried, peers: Peers) -> None:
    """A board whose address the machine refuses: its frames have the code of a link that is lost."""
    network = peers.network()
    network.take_route("blackhole")
    (board,) = boards_of(1)
    board.address, board.port = network.address, 50_001
    hub = peers.serve(on_network([board], wait=5, rounds=1), 1, network)
    client = peers.start_client(hub, network, ["read 0"])
    told, _ = client.communicate(timeout=60)
    done = hub.finish()
    found.meet([f"status serve {done.status}"])
    found.meet(forms.of_transcript(done.text).elements())
    if b"link lost" in told:
        found.meet([f"code {LOST}"])
    found.compare("without a route", done.text, "connection 1 frames 1 closed\nboard b0 down\n")


