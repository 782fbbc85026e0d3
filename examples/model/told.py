"""The lines of a printed transcript, read beside the session that they tell of."""
import itertools
import re

LIVE = re.compile(r"board (\S+) places (\d+) replied (\d+) timeout (\d+) lost (\d+)")
# no number of a transcript has more digits
NUMBER = r"(?:0|[1-9][0-9]{0,19})"
PLACES = re.compile(rf"(.*) @({NUMBER}\.{NUMBER}(?:,{NUMBER}\.{NUMBER})*)")
WORDS = re.compile(r"(=|was)((?: 0x[0-9a-f]{8})+)")
GOOD = {"read": "=", "readblock": "=", "rmwbits": "was", "rmwsum": "was", "write": "done", "writeblock": "done"}


class Wrong(Exception):
    """The transcript is not one that the session can have."""


def check(holds, told):
    if not holds:
        raise Wrong(told)


def begin_of(operation, board):
    return f"{operation.number} {operation.verb} {board.name}:{operation.name} "


def denied_line(operation, board):
    """The line of an operation that the policy denies: it tells the rule, and has no place."""
    return f"{begin_of(operation, board)}denied by rule {operation.denied_by}"


def parted(text):
    """What a line shows behind its register: the result, and the places with the positions there."""
    found = PLACES.fullmatch(text)
    result, places = found.groups() if found else (text, "")
    return result, [tuple(map(int, place.split("."))) for place in places.split(",") if place]


def check_denied(text, client, operation, board):
    wanted = denied_line(operation, board)
    check(text == wanted, f"client {client}: {text[:80]!r} in place of {wanted!r}")


class Line:
    """The line of an operation: its result, its places with the positions that it shows there, and the bodies that it
    has pieces in with their positions. Positions count from 1. Where the line tells of a body without a reply in time,
    `outcome` is what became of that body; it is `late` where its reply came late, and `late` is then what that was."""

    def __init__(self, text, client, operation, board, rounds):
        begin = begin_of(operation, board)
        check(text.startswith(begin), f"client {client}: {text!r} does not begin with {begin!r}")
        self.told = f"client {client} line {operation.number}"
        self.client = client
        self.operation = operation
        self.result, pairs = parted(text[len(begin) :])
        self.places = grouped(pairs)
        self.bodies = grouped((body, index + 1) for body, index in operation.pieces)
        begin = f"timeout after {rounds} rounds, "
        late = f"{begin}answered late: "
        self.late = self.result.removeprefix(late) if self.result.startswith(late) else None
        outcomes = {f"{begin}execution unknown": "timeout", "unsent": "unsent", "link lost": "link lost"}
        self.outcome = outcomes.get(self.result) if self.late is None else "late"
        self.words = self.words_of(self.result, operation.requests)
        self.is_good = self.words is not None

    def words_of(self, text, requests):
        """The words that a text shows, if it tells that these requests were done; none for a write."""
        sign = GOOD[self.operation.verb]
        if sign == "done":
            return [] if text == sign else None
        found = WORDS.fullmatch(text)
        words = [int(word, 16) for word in found[2].split()] if found and found[1] == sign else []
        return words if len(words) == sum(request.count for request in requests) else None

    def first_piece(self, body):
        """The request of its first piece in a body, and that request's index there."""
        pieces = zip(self.operation.pieces, self.operation.requests)
        return next((request, index) for (number, index), request in pieces if number == body)

    def late_words(self, body):
        """The words that came late, if the line tells that its first piece in this body was done."""
        request, _ = self.first_piece(body)
        return self.words_of(self.late, [request])


def grouped(pairs):
    """The second ones of neighbours with the same first one."""
    groups = itertools.groupby(pairs, lambda pair: pair[0])
    return [(first, tuple(second for _, second in each)) for first, each in groups]


class BoardTold:
    """The lines of one board: those of its operations, and its own with its counts, or `silent` or `down`."""

    def __init__(self, text, board):
        self.board = board
        self.lines = []
        self.unplaced = {f"board {board.name} silent": "unsent", f"board {board.name} down": "link lost"}.get(text)
        if self.unplaced:
            return
        found = LIVE.fullmatch(text)
        check(found and found[1] == board.name, f"{text!r} is no line of the board {board.name}")
        counts = found.groups()[1:]
        check(all(re.fullmatch(NUMBER, count) for count in counts), f"{text!r} has a number that begins with 0")
        self.sent, *self.counts = map(int, counts)
        check(self.sent == sum(self.counts), f"{text!r}: the places are not those replied, timed out and lost")


def read_lines(session, text):
    """The lines of a transcript by board, but for those of operations that the policy denies: these are read, and are
    no lines of a board."""
    check(text.endswith("\n"), "the text does not end with a line feed")
    lines = text.split("\n")[:-1]
    operations = sum(len(client.operations) for client in session.clients)
    wanted = len(session.clients) + operations + len(session.boards)
    check(len(lines) == wanted, f"{len(lines)} lines in place of {wanted}")
    boards = session.boards
    told = [BoardTold(line, board) for line, board in zip(lines[len(lines) - len(boards) :], boards)]
    rest = iter(lines)
    for number, client in enumerate(session.clients, 1):
        begin = next(rest)
        check(begin == f"client {number}", f"{begin!r} in place of 'client {number}'")
        for operation in client.operations:
            board = boards[operation.board]
            if operation.denied_by is not None:
                check_denied(next(rest), number, operation, board)
                continue
            line = Line(next(rest), number, operation, board, session.rounds)
            told[operation.board].lines.append(line)
    return told
