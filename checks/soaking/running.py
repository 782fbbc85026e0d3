"""`run` over UDP boards behind bad networks. A hub that is patient prints what simulated boards give. One that gives up
prints what a replay takes, and each board executed the packets of its places, in their order, none twice."""
import random
import re
from typing import Any, NamedTuple

from hostile.cases import KEPT
from hostile.datagrams import try_datagrams
from model.audit import YES, Broken, Lines, audit, audit_input, check_places
from model.network import run_session
from model.recorded import request_words
from model.replay import Undecided, check_transcript
from model.session import Session
from model.told import Wrong
from model.transcript import transcript
from net.peers import Ended, Peers, rest_of
from net.run_cases import script_of
from net.sessions import boards_of, on_network, simulated
from soaking import forms
from soaking.among import among
from soaking.cases import Case, Tried
from soaking.program import Program
from soaking.udp_boards import Network, UdpBoards

SETTINGS, SCRIPTS = "settings.txt", "scripts.txt"
# an address without a route takes a network of its own, and a long wait some seconds
SELDOM = 60
# a board that lies at its greeting, and never expects what the hub sends
(OUT_OF_STEP,) = KEPT
LONG_WAIT = re.compile(r"ipbus: client \d+ waited .* in its first 3 dispatches for a board that does not answer; .*\n")


class Settings(NamedTuple):
    """What a session is made of, each by a line of its text."""

    boards: int = 1
    mtu: int = 1500
    buffers: int = 16
    first: int = 1
    rounds: int = 255
    window: int = 16
    wait: int = 20
    seed: int = 0
    lost: int = 0
    latest: int = 0
    # the first board falls silent with the packet of this number that it executes, if that is not 0
    answers: int = 0


def settings_text(told: Settings) -> bytes:
    return "".join(f"{name} {value}\n" for name, value in told._asdict().items()).encode()


def settings_in(text: bytes) -> Settings:
    pairs = (line.split() for line in text.decode().splitlines())
    return Settings(**{name: int(value) for name, value in pairs})


def drawn_settings(draw: random.Random, boards: int, is_hasty: bool) -> Settings:
    told = Settings(boards, draw.choice([92, 576, 1500, 9000]), draw.choice([1, 3, 16, 64]), draw.choice([1, 65_530]))
    told = told._replace(window=draw.choice([1, 2, 16]), seed=draw.randrange(1 << 30), lost=draw.choice([0, 5, 20, 40]))
    told = told._replace(latest=draw.choice([0, 1, 6]))
    if is_hasty:
        told = told._replace(rounds=draw.choice([1, 2, 3]), wait=draw.choice([1, 2, 5]), lost=draw.choice([20, 40, 60]))
        told = told._replace(latest=draw.choice([1, 10, 20]), answers=draw.choice([0, 0, 0, 1, 5]))
    return told


def drawn_scripts(draw: random.Random, boards: int, clients: int) -> list[list[str]]:
    """Lines on the board of a client, or on any where clients share them."""
    found = []
    for client in range(clients):
        lines: list[str] = []
        for _ in range(draw.choice([1, 2])):
            board = f"b{client}" if clients <= boards and client < boards else f"b{draw.randrange(boards)}"
            lines += draw.sample(script_of(board, draw), k=draw.choice([5, 20, 40]))
        found.append(lines)
    return found


def drawn(number: int) -> Case:
    draw = random.Random(f"run {number}")
    if number % SELDOM == SELDOM - 1:
        return Case(("run", "without a route"), {SETTINGS: settings_text(Settings(rounds=1, wait=5))})
    if number % SELDOM == SELDOM - 2:
        told, text = Settings(rounds=2, wait=50, answers=1), "client\n" + "read b0:count\ndispatch\n" * 40
        return Case(("run",), {SETTINGS: settings_text(told), SCRIPTS: text.encode()})
    if number % SELDOM == SELDOM - 3:
        return Case(("run", "strange datagrams", str(OUT_OF_STEP)), {})
    if number % 6 == 5:
        # of odd numbers the board lies, of even ones it sends what is strange beside its answers
        return Case(("run", "strange datagrams", str(number // 6)), {})
    is_hasty, boards = number % 3 == 2, draw.choice([1, 2, 3])
    clients = boards if number % 3 == 0 else draw.choice([1, 2, 4])
    scripts = drawn_scripts(draw, boards, clients)
    text = "".join(f"client\n{''.join(line + chr(10) for line in script)}" for script in scripts)
    told = drawn_settings(draw, boards, is_hasty)
    return Case(("run",), {SETTINGS: settings_text(told), SCRIPTS: text.encode()})


def scripts_in(text: bytes) -> list[list[str]]:
    found: list[list[str]] = []
    for line in text.decode().splitlines():
        if line == "client":
            found.append([])
        else:
            found[-1].append(line)
    return found


def tried(case: Case, program: Program) -> Tried:
    found = Tried()
    if case.words[1:2] == ("strange datagrams",):
        among(found, program, lambda peers: strange(found, peers, int(case.words[2])))
    elif case.words[1:] == ("without a route",):
        among(found, program, lambda peers: without_a_route(found, peers))
    else:
        told, scripts = settings_in(case.texts[SETTINGS]), scripts_in(case.texts[SCRIPTS])
        among(found, program, lambda peers: run(found, peers, told, scripts, program))
    return found


def run(found: Tried, peers: Peers, told: Settings, scripts: list[list[str]], program: Program) -> None:
    """One run over boards on ports."""
    boards = boards_of(told.boards, mtu=told.mtu, buffers=told.buffers, first=told.first)
    settings = {"rounds": told.rounds, "window": told.window}
    networks = [Network(told.seed + place, told.lost, told.latest) for place in range(told.boards)]
    networks[0] = networks[0]._replace(answers=told.answers)
    data = simulated(boards, scripts, **settings)
    session = Session(data)
    with UdpBoards(boards, networks) as live:
        done = peers.run(on_network(boards, scripts, told.wait, **settings))
        bodies = live.bodies()
    meet(found, "run", done)
    is_patient = told.rounds == 255 and not told.answers
    found.compare("note of a run", rest_of(done.note if is_patient else LONG_WAIT.sub("", done.note)), "")
    if is_patient and not session.shared_boards():
        text, status = transcript(session, run_session(session))
        found.compare("transcript", (done.text, done.status), (text, status))
    judged(found, program, data, session, done)
    of_boards(found, session, done.text, bodies, is_patient)


def meet(found: Tried, command: str, done: Ended) -> None:
    found.meet([f"status {command} {done.status}", *forms.of_note(done.note.encode())])
    found.meet(forms.of_transcript(done.text).elements())


def judged(found: Tried, program: Program, data: bytes, session: Session, done: Ended) -> None:
    """A replay and an audit take the transcript, by the registers of the boards as simulated ones."""
    try:
        check_transcript(session, done.text, done.status)
    except Undecided:
        found.is_judged = False
    except Wrong as wrong:
        found.differs("replay", str(wrong), found=done.text.encode())
    wanted = audit(session, done.text.encode())
    if wanted != YES and not wanted.endswith(" Partial\n"):
        found.differs("audit of a run", wanted, found=done.text.encode())
    answer = program.run(["audit"], audit_input(data, done.text.encode()))
    found.compare("audit", answer.text.decode(), wanted)


def of_boards(found: Tried, session: Session, text: str, bodies: list[list[list[int]]], is_patient: bool) -> None:
    """Each board executed at each of its places the body that the transcript shows there."""
    lines: Any = text.splitlines()[-len(bodies) :]
    try:
        orders = check_places(Lines(session, text.encode()))
    except Broken:
        # a line that shows some of its places is told by the audit
        return
    for place, (order, executed) in enumerate(zip(orders, bodies)):
        words = lines[place].split()
        if words[2] != "places":
            found.compare("executed by a silent board", executed, [])
            continue
        sent, replied = int(words[3]), int(words[5])
        found.compare("executed and places", replied <= len(executed) <= sent, True)
        if is_patient:
            found.compare("executed", len(executed), sent)
        for at, (client, number) in sorted(order.bodies.items()):
            if at <= len(executed):
                body = request_words(session.clients[client - 1].bodies[place][number])
                found.compare("body at its place", executed[at - 1], body)


def strange(found: Tried, peers: Peers, number: int) -> None:
    """A board that answers anything."""
    own = peers.run

    def noted(document: bytes) -> Ended:
        done = own(document)
        meet(found, "run", done)
        return done

    peers.run = noted
    try_datagrams(peers, number)


def without_a_route(found: Tried, peers: Peers) -> None:
    """A board whose address the machine refuses: its link is lost at the greeting."""
    network = peers.network()
    network.take_route("blackhole")
    (board,) = boards_of(1)
    board.address, board.port = network.address, 50_001
    document = on_network([board], [["read b0:id"]], 5, rounds=1)
    process = peers.start([*network.words, *peers.command, "run"], document)
    text, _ = process.communicate(timeout=60)
    found.meet([f"status run {process.returncode}"])
    found.meet(forms.of_transcript(text.decode()).elements())
    found.compare("without a route", text.decode(), "client 1\n1 read b0:id link lost\nboard b0 down\n")
