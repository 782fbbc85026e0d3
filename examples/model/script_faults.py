"""The first faulty line of the scripts of a document, from `docs/FORMATS.md` alone."""
import re

from model.policy import NUMBER
from model.session import WHOLE

MOST_LINES, MOST_OPERATIONS, MOST_WORDS = 200_000, 100_000, 1_048_576
# how many numbers stand behind the register, at least and at most, and what the verb needs
VERBS = {
    "read": (0, 0, "r"),
    "write": (1, 1, "w"),
    "readblock": (1, 1, "r"),
    "writeblock": (1, None, "w"),
    "rmwbits": (2, 2, "rw"),
    "rmwsum": (1, 1, "rw"),
}


def value_of(text):
    """The number that a word of a line tells, or None."""
    if not NUMBER.fullmatch(text):
        return None
    value = int(text, 16 if text.startswith("0x") else 10)
    return value if value <= WHOLE else None


class Asked:
    """A line that is one of an operation: its verb, its register and its numbers."""

    def __init__(self, words):
        self.verb, register, *rest = words
        self.board, _, self.name = register.partition(":")
        self.numbers = [value_of(word) for word in rest]

    @property
    def is_block(self):
        return self.verb in ("readblock", "writeblock")

    @property
    def words(self):
        """How many words a block has."""
        return self.numbers[0] if self.verb == "readblock" else len(self.numbers)


def asked_by(words):
    """What the words of a line ask for, or None where they are no line of an operation."""
    if len(words) < 2 or words[0] not in VERBS or ":" not in words[1]:
        return None
    least, most, _ = VERBS[words[0]]
    asked = Asked(words)
    count = len(asked.numbers)
    if count < least or most is not None and count > most or None in asked.numbers:
        return None
    return None if asked.verb == "readblock" and asked.numbers[0] == 0 else asked


def register_fault(asked, entry):
    """The rule of the register that an operation breaks first, or None."""
    _, _, needed = VERBS[asked.verb]
    if not set(needed) <= set(entry.permission):
        return "NoPermission"
    if entry.mode == "hierarchical":
        return "WrongMode"
    is_bounded = not (entry.mode == "port" and entry.size == 1)
    if asked.is_block and is_bounded and asked.words > entry.size:
        return "PastSize"
    shift = (entry.mask & -entry.mask).bit_length() - 1
    if asked.verb == "write" and asked.numbers[0] << shift & ~entry.mask:
        return "BitsOutside"
    takes_whole = asked.is_block or asked.verb in ("rmwbits", "rmwsum")
    return "NotWhole" if takes_whole and entry.mask != WHOLE else None


class Scripts:
    """Goes through the lines of all scripts, client after client. `boards` has the registers of each by its name."""

    def __init__(self, boards):
        self.boards = boards
        self.lines = self.operations = self.words = 0

    def fault_of(self, line):
        """The first rule that a line breaks, or None."""
        self.lines += 1
        words = [word for word in re.split("[ \t]", line) if word]
        if words and not words[0].startswith("#") and words != ["dispatch"]:
            broken = self.operation_fault(words)
            if broken:
                return broken
        is_much = self.lines > MOST_LINES or self.operations > MOST_OPERATIONS or self.words > MOST_WORDS
        return "TooMany" if is_much else None

    def operation_fault(self, words):
        asked = asked_by(words)
        if asked is None:
            return "BadLine"
        if asked.board not in self.boards:
            return "UnknownBoard"
        if asked.name not in self.boards[asked.board]:
            return "UnknownName"
        self.operations += 1
        self.words += asked.words if asked.is_block else 0
        return register_fault(asked, self.boards[asked.board][asked.name])


def script_fault(scripts, boards):
    """The client, the line and the rule of the first faulty line, or None."""
    judge = Scripts(boards)
    for client, script in enumerate(scripts, 1):
        for number, line in enumerate(script, 1):
            broken = judge.fault_of(line)
            if broken:
                return client, number, broken
    return None
