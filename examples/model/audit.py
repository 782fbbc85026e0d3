"""Whether a transcript can be one of its session: the answer of `ipbus audit`, from the formats.

Nothing here is taken from the program. Five rules are tried, each over the whole text, and the first that is broken is
told with the first line that breaks it. Here too a session is one that is not refused, but for boards on a network.
"""
import re
import tomllib
from collections import defaultdict

from model.network import Outcome
from model.session import Bus, Session
from model.shown import Shown, counts_of, state_of
from model.told import denied_line
from model.transcript import answer_of, result_of, timeout_text

MOST_DOCUMENT = 16_777_216
MOST_INPUT = 134_217_728
LENGTH = re.compile(rb"([0-9]{1,8})\n")
YES = "audit yes\n"


class Broken(Exception):
    """A line breaks a rule, and none before it does."""

    def __init__(self, line, rule):
        self.answer = f"audit no {line} {rule}\n"


def fit(holds, line, rule):
    if not holds:
        raise Broken(line, rule)


class Lines:
    """The lines of a text that has the form of a transcript of its session: those of operations that are not denied,
    and the counts of each live board. The rule `Form` is that it can be read so."""

    def __init__(self, session, text):
        # what stands behind the last line feed is no line
        *self.lines, self.rest = text.decode("latin-1").split("\n")
        self.session = session
        self.boards = session.boards
        operations = sum(len(client.operations) for client in session.clients)
        self.in_front = len(session.clients) + operations
        texts = self.lines[self.in_front :]
        self.states = [state_of(text, board) for text, board in zip(texts, self.boards)]
        self.states += ["live"] * (len(self.boards) - len(self.states))
        self.read = 0
        self.shown = []
        self.counts = []
        self.read_clients()
        self.read_boards()
        fit(self.read == len(self.lines) and not self.rest, self.read + 1, "Form")

    def next(self):
        """The next line, which has to be there."""
        self.read += 1
        fit(self.read <= len(self.lines), self.read, "Form")
        return self.lines[self.read - 1]

    def read_clients(self):
        for number, client in enumerate(self.session.clients, 1):
            fit(self.next() == f"client {number}", self.read, "Form")
            for operation in client.operations:
                self.read_operation(number, operation)

    def read_operation(self, client, operation):
        board = self.boards[operation.board]
        text = self.next()
        if operation.denied_by is not None:
            fit(text == denied_line(operation, board), self.read, "Form")
            return
        shown = Shown(self.read, text, client, operation, board)
        fit(shown.has_form(self.states[operation.board]), self.read, "Form")
        self.shown.append(shown)

    def read_boards(self):
        for board, state in zip(self.boards, self.states):
            text = self.next()
            counts = counts_of(text, board) if state == "live" else [0, 0, 0, 0]
            fit(counts is not None, self.read, "Form")
            self.counts.append(counts)


class Order:
    """The places of the bodies of one board, as its lines show them one after another. A body is known by its client
    and its number there."""

    def __init__(self):
        self.places = {}
        self.bodies = {}
        self.last = defaultdict(int)

    def takes(self, place, body):
        """Whether a body can stand at a place beside what was shown before. Bodies of a client come in their order."""
        if body in self.places:
            return self.places[body] == place
        client, _ = body
        if place in self.bodies or place <= self.last[client]:
            return False
        self.places[body] = self.last[client] = place
        self.bodies[place] = body
        return True


def check_partial(lines):
    for shown in lines.shown:
        fit(not shown.is_partial, shown.number, "Partial")


def check_places(lines):
    """The order of each board."""
    orders = [Order() for _ in lines.boards]
    for shown in lines.shown:
        order = orders[shown.operation.board]
        most, *_ = lines.counts[shown.operation.board]
        for (place, position), (body, index) in zip(shown.places, shown.operation.pieces):
            is_there = position == index + 1 and 1 <= place <= most
            fit(is_there and order.takes(place, (shown.client, body)), shown.number, "Place")
    return orders


def replies_of(session, place, order):
    """What a bus with a single thread answers to the bodies of a board that were shown, in their order: by clients, for
    each of their bodies."""
    bus = Bus(session.boards[place].ranges)
    replies = defaultdict(dict)
    for at, (client, number) in sorted(order.bodies.items()):
        answers = bus.execute(session.clients[client - 1].bodies[place][number])
        replies[client][number] = Outcome("replied", at, answers)
    return replies


def late_results(operation, replies, rounds):
    """The results by which a line may tell of a late answer: of the first piece, and of each one before which all were
    done."""
    for body, index in operation.pieces:
        reply = replies[body]
        yield timeout_text(operation, reply, index, rounds)
        if isinstance(answer_of(reply, index), str):
            return


def is_result(shown, replies, rounds):
    """Whether a line shows what it can, by the replies to the bodies of its client."""
    operation = shown.operation
    if shown.fate == "replied":
        result, _ = result_of(operation, replies, rounds)
        return shown.result == result
    if shown.fate == "late":
        return shown.result in late_results(operation, replies, rounds)
    if shown.fate == "timeout":
        return shown.result == timeout_text(operation, Outcome("timeout"), 0, rounds)
    return True


def check_results(lines, orders):
    session = lines.session
    replies = [replies_of(session, place, order) for place, order in enumerate(orders)]
    fates = {}
    for shown in lines.shown:
        place, pieces = shown.operation.board, shown.operation.pieces
        holds = is_result(shown, replies[place][shown.client], session.rounds)
        if len(pieces) == 1:
            body, _ = pieces[0]
            holds &= fates.setdefault((place, shown.client, body), shown.fate) == shown.fate
        fit(holds, shown.number, "Result")


def check_counts(lines, orders):
    for number, (counts, order) in enumerate(zip(lines.counts, orders), lines.in_front + 1):
        places, *others = counts
        fit(len(order.places) == places == sum(others), number, "Count")


def audit(session, text):
    """The line that tells whether the bytes of a text are a transcript that the session can have."""
    try:
        lines = Lines(session, text)
        check_partial(lines)
        orders = check_places(lines)
        check_results(lines, orders)
        check_counts(lines, orders)
    except Broken as broken:
        return broken.answer
    return YES


def audit_input(document, text):
    """The input of `audit` for a document and a transcript."""
    return b"%d\n%b%b" % (len(document), document, text)


def audit_told(data):
    """What `audit` prints of its input, and the status that goes with it."""
    found = LENGTH.match(data)
    length = int(found[1]) if found else 0
    if length > MOST_DOCUMENT or len(data) > MOST_INPUT:
        return "refused: document - TooLong\n", 3
    if not found or len(data) - found.end() < length:
        return "refused: document - NoLength\n", 3
    document, text = data[found.end() :][:length], data[found.end() + length :]
    for board in tomllib.loads(document.decode()).get("board", []):
        if board.get("link", "sim") != "sim":
            return f"refused: board {board['name']} NotSim\n", 3
    answer = audit(Session(document), text)
    return answer, int(answer != YES)
