"""Frames on connections: each is answered by the code and the reply that it is owed, in its order, however the stream is
cut and whatever the simulated network does. On one connection all is what the second program's network gives; of several
at once each answer has its form, and each count is told once."""
import contextlib
import random
from typing import Any, NamedTuple

from hostile.streams import drawn_frame, drawn_stream, frames_of, touches_the_sum
from model.network import Hub, Link, SimulatedBoard, greet
from model.session import Session
from net.clients import all_at_once
from net.device import Registers
from net.frames import DONE, TIMED_OUT, UNSENT, Answer, Broken, ask, code_owed
from net.packets import READ, control_packet, read_control, request
from net.peers import Peers, require, rest_of
from net.sessions import RANGES, SHARED, TABLES
from soaking import forms
from soaking.among import among
from soaking.cases import Case, Tried
from soaking.program import Program

TEXT = "frames.txt"
MTUS = [92, 93, 576, 1500, 9000]
FATES = ["dddl", "ddl5", "dr", "ddddr259l", "1379d", "dddddl"]
# a lane is full by the words of longest replies long before it is by the number of bodies: so many of these fill one
FULL_BODIES, READS_OF_A_BODY = 16_257, 8
SELDOM = 500
GONE = ("closed", "cut frame", "read fault", "write fault")


class Settings(NamedTuple):
    """What a hub is given: rounds, window, boards by their settings, and connections: the way in which each ends, its
    bytes, and where they are cut."""

    rounds: int
    window: int
    boards: list[tuple[int, int, int, str]]
    connections: list[tuple[str, bytes, list[int]]]


# ---- a case as a text


def text_of(told: Settings) -> bytes:
    lines = [f"rounds {told.rounds}", f"window {told.window}"]
    lines += [f"board {mtu} {buffers} {first} {fates or '-'}" for mtu, buffers, first, fates in told.boards]
    for end, data, cuts in told.connections:
        lines += [f"connection {end} {','.join(map(str, cuts)) or '-'}"]
        frames, rest = whole_frames(data)
        lines += [f"bytes {part.hex()}" for part in [*frames, rest] if part]
    return "".join(line + "\n" for line in lines).encode()


def whole_frames(data: bytes) -> tuple[list[bytes], bytes]:
    """The frames in front of a stream as bytes, and what stands behind them."""
    found = []
    while len(data) >= 4 and 8 <= (length := int.from_bytes(data[:4], "big")) <= len(data) - 4:
        found.append(data[: 4 + length])
        data = data[4 + length :]
    return found, data


def settings_in(text: bytes) -> Settings:
    found = Settings(8, 16, [], [])
    for line in text.decode().splitlines():
        word, *rest = line.split()
        if word in ("rounds", "window"):
            found = found._replace(**{word: int(rest[0])})
        elif word == "board":
            mtu, buffers, first = map(int, rest[:3])
            found.boards.append((mtu, buffers, first, rest[3].strip("-")))
        elif word == "connection":
            cuts = [int(cut) for cut in rest[1].split(",") if cut != "-"]
            found.connections.append((rest[0], b"", cuts))
        elif found.connections:
            end, data, cuts = found.connections[-1]
            found.connections[-1] = end, data + bytes.fromhex(rest[0]), cuts
    return found


# ---- what is drawn


def drawn_board(draw: random.Random, is_calm: bool) -> tuple[int, int, int, str]:
    fates = "".join(draw.choices(draw.choice(FATES), k=draw.choice([5, 40, 300])))
    if not is_calm and draw.randrange(3):
        fates = "dd" + fates
    return draw.choice(MTUS), draw.choice([1, 2, 16, 64]), draw.choice([1, 65_534, 65_535]), "" if is_calm else fates


def drawn(number: int) -> Case:
    draw = random.Random(f"frames {number}")
    if number % SELDOM == 7:
        return Case(("serve", "full"), {TEXT: b""}, is_costly=True)
    if number % 2:
        connections = [drawn_stream(8 * number + place) for place in range(draw.choice([2, 4, 8]))]
        ends = draw.choices(["half", "half", "half", "reset"], k=len(connections))
        boards = [drawn_board(draw, True) for _ in range(4)]
        told = Settings(8, draw.randint(1, 16), boards, [(end, *each) for end, each in zip(ends, connections)])
        return Case(("serve",), {TEXT: text_of(told)})
    data, cuts = drawn_stream(number)
    if draw.randrange(2):
        data = b"".join(drawn_frame(draw) for _ in range(draw.choice([5, 20, 60]))) + data
    boards = [drawn_board(draw, draw.randrange(4) == 0) for _ in range(draw.choice([1, 2, 4]))]
    told = Settings(draw.choice([1, 2, 3, 8]), draw.randint(1, 16), boards, [("half", data, cuts)])
    return Case(("serve",), {TEXT: text_of(told)})


def document_of(told: Settings) -> bytes:
    text = f"rounds = {told.rounds}\nwindow = {told.window}\n{TABLES}"
    for place, (mtu, buffers, first, fates) in enumerate(told.boards):
        text += f'[[board]]\nname = "b{place}"\ntable = "main"\nmtu = {mtu}\nbuffers = {buffers}\nfirst = {first}\n'
        text += f'fates = "{fates}"\n' * bool(fates)
        for base, size, kind, words in RANGES:
            text += f'[[board.ranges]]\nbase = {base}\nsize = {size}\nkind = "{kind}"\ninit = {words}\n'
    return text.encode()


# ---- what is owed


class WordBoard(SimulatedBoard):
    """A board whose bodies are words: any that a client sends."""

    def __init__(self, board: Any) -> None:
        super().__init__(board)
        self.bus = Registers(board.ranges)


class Lane:
    """One board of a hub that serves one connection: what its frames come to, one after another."""

    def __init__(self, session: Any, place: int) -> None:
        self.board = session.boards[place]
        self.link = Link(self.board)
        self.link.board = WordBoard(self.board)
        status = greet(self.link, session.rounds)
        self.hub = Hub(status, session.rounds, session.window) if status else None
        self.count = 0

    def ask(self, body: list[int]) -> tuple[int, list[int]]:
        """The code and the body of the reply."""
        tag = self.count
        self.count += 1
        self.hub.offer(tag, body)
        while self.hub.waits():
            self.hub.pump(self.link)
        outcome = self.hub.outcomes[tag]
        if outcome.kind == "replied":
            return DONE, outcome.answers
        return (TIMED_OUT if outcome.kind == "timeout" else UNSENT), []

    def line(self) -> str:
        if self.hub is None:
            return f"board {self.board.name} silent"
        # a timeout stays one where its reply comes later
        places, late = len(self.hub.sent), len(self.timeouts)
        return f"board {self.board.name} places {places} replied {places - late} timeout {late} lost 0"

    @property
    def timeouts(self) -> list[int]:
        return [tag for tag, outcome in self.hub.outcomes.items() if outcome.kind == "timeout"] + [
            tag for tag in self.hub.timed_out.values() if tag not in self.hub.outcomes
        ]


def owed(told: Settings, data: bytes) -> tuple[list[Answer], list[str]]:
    """The answers to one connection, and the lines of the hub behind."""
    session = Session(document_of(told))
    lanes = [Lane(session, place) for place in range(len(told.boards))]
    mtus = [board[0] if lane.hub else None for board, lane in zip(told.boards, lanes)]
    frames, end = frames_of(data)
    answers = []
    for board, packet in frames:
        code, answer = code_owed(board, packet, mtus), b""
        if code == DONE:
            control = read_control(packet)
            code, body = lanes[board].ask(control.body)
            answer = control_packet(control.identifier, body, control.is_little) if code == DONE else b""
        answers.append(Answer(board, code, answer))
    return answers, [f"connection 1 frames {len(frames)} {end}", *(lane.line() for lane in lanes)]


# ---- what is done


class Talk:
    """One connection: what it sends, and what it is answered."""

    def __init__(self, connection: Any, end: str, data: bytes, cuts: list[int]) -> None:
        self.connection = connection
        self.end = end
        self.data = data
        self.cuts = [cut for cut in cuts if cut <= len(data)]
        self.answers: list[Answer] = []

    def go(self) -> None:
        """Sends all, ends its side or goes away, and reads what there is to the end."""
        frames, closing = frames_of(self.data)
        # where a hub may go away first, nothing behind that can be written
        with contextlib.suppress(*[OSError] * (closing == "bad frame" or self.end == "reset")):
            self.connection.send_cut(self.data, self.cuts, 0)
            if self.end == "reset":
                self.connection.reset()
                return
            self.connection.half_close()
        try:
            while len(self.answers) <= len(frames) and (answer := self.connection.answer()) is not None:
                self.answers.append(answer)
        except ConnectionError:
            require(closing == "bad frame", "the connection was reset")
        except (OSError, Broken) as error:
            require(False, f"{type(error).__name__} {error}")


def tried(case: Case, program: Program) -> Tried:
    found = Tried()
    if case.words[1:] == ("full",):
        among(found, program, lambda peers: full(found, peers))
        return found
    told = settings_in(case.texts[TEXT])
    among(found, program, lambda peers: served(found, peers, told))
    return found


def served(found: Tried, peers: Peers, told: Settings) -> None:
    """A hub serves these connections, which all begin before the first of them sends."""
    hub = peers.serve(document_of(told), len(told.connections))
    talks = [Talk(peers.connect(hub), *each) for each in told.connections]
    all_at_once([talk.go for talk in talks])
    done = hub.finish()
    found.meet([f"status serve {done.status}", *forms.of_note(done.note.encode())])
    found.meet(forms.of_transcript(done.text).elements())
    found.meet(f"code {answer.code}" for talk in talks for answer in talk.answers)
    found.compare("note of a server", rest_of(done.note), hub.says)
    if len(talks) == 1 and talks[0].end == "half":
        answers, lines = owed(told, talks[0].data)
        found.compare("answers", talks[0].answers, answers)
        found.compare("lines of a server", done.text.splitlines(), lines)
    else:
        of_several(found, told, talks, done)
    lines = done.text.splitlines()[: len(talks)]
    found.compare("status", done.status, 0 if all(line.endswith(" closed") for line in lines) else 1)


def of_several(found: Tried, told: Settings, talks: list[Talk], done: Any) -> None:
    """Of several connections to boards behind calm networks: the code of each frame, the headers of each reply, where no
    client writes to the sum otherwise each count once, and what is told of them."""
    mtus = [mtu for mtu, _, _, _ in told.boards]
    replied: list[list[tuple[list[int], list[int]]]] = [[] for _ in mtus]
    lines = done.text.splitlines()
    for place, talk in enumerate(talks):
        frames, end = frames_of(talk.data)
        if talk.end == "reset":
            parts = lines[place].split(" ", 4)
            found.compare("end of one that went", parts[4] in (*GONE, "bad frame"), True)
            continue
        found.compare("line of a connection", lines[place], f"connection {place + 1} frames {len(frames)} {end}")
        codes = [code_owed(board, packet, mtus) for board, packet in frames]
        found.compare("codes", [answer.code for answer in talk.answers], codes)
        for (board, packet), answer in zip(frames, talk.answers):
            if answer.code == DONE:
                replied[board].append(reply_of(found, packet, answer))
    of_boards(found, talks, replied, mtus, lines[len(talks) :])


def reply_of(found: Tried, packet: bytes, answer: Answer) -> tuple[list[int], list[int]]:
    asked, reply = read_control(packet), read_control(answer.packet)
    same = reply and (reply.identifier, reply.is_little) == (asked.identifier, asked.is_little)
    found.compare("packet of a reply", bool(same), True)
    return asked.body, reply.body if reply else []


def of_boards(found: Tried, talks: list[Talk], replied: list[Any], mtus: list[int], lines: list[str]) -> None:
    """What a hub tells of its boards, and the counts there."""
    is_whole = all(talk.end == "half" for talk in talks)
    for place, done in enumerate(replied):
        words = lines[place].split()
        found.compare("line of a board", (words[3] == words[5], words[7:]), (True, ["0", "lost", "0"]))
        asked = [body for talk in talks for body in bodies_for(talk, place, mtus)]
        if is_whole:
            found.compare("places of a board", int(words[3]), len(done))
        if any(touches_the_sum(body) for body in asked):
            continue
        sums = [reply for body, reply in done if len(body) == 3 and body[1:] == [SHARED, 1] and len(reply) == 2]
        counts = sorted(reply[1] for reply in sums)
        found.compare("counts told twice", len(set(counts)), len(counts))
        if is_whole:
            found.compare("counts", counts, list(range(len(counts))))


def bodies_for(talk: Talk, place: int, mtus: list[int]) -> list[list[int]]:
    """The bodies that a connection sent to a board."""
    frames, _ = frames_of(talk.data)
    sent = [packet for board, packet in frames if board == place and code_owed(board, packet, mtus) == DONE]
    return [read_control(packet).body for packet in sent]


def full(found: Tried, peers: Peers) -> None:
    """A lane becomes full: from then on each frame for that board has code 8."""
    hub = peers.serve(document_of(Settings(8, 16, [(9000, 16, 1, "")], [])), 1)
    connection = peers.connect(hub)
    body = [word for number in range(READS_OF_A_BODY) for word in request(number, READ, 0x8000_0000, 255)]
    data, codes = ask(0, 1, body), []
    for _ in range(0, FULL_BODIES + 50, 50):
        connection.send(data * 50)
        codes += [connection.answer().code for _ in range(50)]
    connection.half_close()
    done = hub.finish()
    first = codes.index(8) if 8 in codes else len(codes)
    found.meet([f"code {code}" for code in codes] + forms.of_note(done.note.encode()))
    found.compare("full", (set(codes[:first]), set(codes[first:])), ({0}, {8}))
    words = 2**25 // (READS_OF_A_BODY * (2 + 256))
    found.compare("bodies of a full lane", first, words)


