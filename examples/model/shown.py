"""The form of a transcript's lines: whether an operation of a session, or a board, can have a line at all.

The line of an operation is read alone, beside what is told of its board as a whole: live, silent or down. A number that
cannot be, or is not written as it would be, is not of the form; one that merely is not right here is.
"""
import re

from model.session import READ, READ_PORT, RMW_BITS, RMW_SUM
from model.told import GOOD, LIVE, NUMBER, WORDS, begin_of, parted

MOST_ROUNDS = 255
MOST_POSITION = 65_535
MOST_PLACE = (1 << 64) - 1
TIMEOUT = re.compile(rf"timeout after ({NUMBER}) rounds, (?:execution unknown|answered late: (.*))")
ERROR = re.compile(rf"error ([0-9]) after ({NUMBER})")


def can_fail(operation, code, done):
    """Whether a reply to a piece of the operation can have this code after so many words."""
    kind = operation.requests[0].kind
    if kind in (RMW_BITS, RMW_SUM):
        return code in (4, 5, 6, 7) and done == 0
    codes = (4, 6) if kind in (READ, READ_PORT) else (5, 7)
    return code in codes and done < max(request.count for request in operation.requests)


def can_show(operation, words):
    """Whether these are values that the operation can show: under a mask those of its bits, shifted down."""
    return operation.shown([word << operation.register.shift for word in words]) == words


def is_answer(operation, text, counts):
    """Whether a text can tell what was answered to an operation, or to a piece of it, that has one of these numbers of
    words."""
    if text in ("skipped", "garbled"):
        return True
    found = ERROR.fullmatch(text)
    if found:
        return can_fail(operation, *map(int, found.groups()))
    sign = GOOD[operation.verb]
    if sign == "done":
        return text == sign
    found = WORDS.fullmatch(text)
    if not found or found[1] != sign:
        return False
    words = [int(word, 16) for word in found[2].split()]
    return len(words) in counts and can_show(operation, words)


def fate_of(operation, result):
    """What a result tells of the body that decides it: `replied`, `timeout` without an answer, `late`, `unsent` or
    `link lost`. None where no line of the operation has that result."""
    if result in ("unsent", "link lost"):
        return result
    counts = [request.count for request in operation.requests]
    found = TIMEOUT.fullmatch(result)
    if not found:
        return "replied" if is_answer(operation, result, [sum(counts)]) else None
    rounds, late = found.groups()
    if int(rounds) > MOST_ROUNDS:
        return None
    if late is None:
        return "timeout"
    return "late" if is_answer(operation, late, counts) else None


class Shown:
    """What the line of this number shows of an operation that is not denied: the text of its result, its places with
    the positions there, and its fate."""

    def __init__(self, number, text, client, operation, board):
        begin = begin_of(operation, board)
        self.number = number
        self.client = client
        self.operation = operation
        self.result, self.places = parted(text[len(begin) :])
        self.fate = fate_of(operation, self.result) if text.startswith(begin) else None

    @property
    def is_partial(self):
        return 0 < len(self.places) < len(self.operation.pieces)

    def has_form(self, state):
        """Whether its operation can have this line where the board is in this state."""
        if self.fate is None or len(self.places) > len(self.operation.pieces):
            return False
        if any(place > MOST_PLACE or position > MOST_POSITION for place, position in self.places):
            return False
        if state != "live":
            return not self.places and self.fate == {"silent": "unsent", "down": "link lost"}[state]
        if not self.places:
            return self.fate in ("unsent", "link lost")
        return self.fate != "unsent" or self.is_partial


def state_of(text, board):
    """What is told of a board as a whole by its line: `silent` or `down`, and live by any other text."""
    return {f"board {board.name} silent": "silent", f"board {board.name} down": "down"}.get(text, "live")


def counts_of(text, board):
    """The numbers in the line of a live board: its places, and how many were replied to, timed out and lost. None where
    that is no such line."""
    found = LIVE.fullmatch(text)
    if not found or found[1] != board.name or not all(re.fullmatch(NUMBER, each) for each in found.groups()[1:]):
        return None
    counts = [int(each) for each in found.groups()[1:]]
    return counts if max(counts) <= MOST_PLACE else None
