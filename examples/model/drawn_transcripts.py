"""Transcripts of drawn sessions with one byte, one line, one number or the order of two bodies changed, from a number:
the same number draws the same change. Most are no transcripts of their sessions any more, and some still are."""
import functools
import random
import re

from model.drawn import drawn_session, drawn_session_of_losses, drawn_session_of_many
from model.network import run_session
from model.session import Session
from model.transcript import transcript

# so many changes are drawn of the transcript of one session
CHANGES = 20
WORD = re.compile(r"0x[0-9a-f]{8}")
NUMBER = re.compile(r"(?<![0-9a-zA-Z])[0-9]+(?![0-9a-z])")
# on both sides of what a number of a transcript can be
EDGES = [0, 1, 4, 5, 6, 7, 255, 256, 65_535, 65_536, (1 << 64) - 1, 1 << 64]
# answers that stand in place of a result
ANSWERS = ["done", "skipped", "garbled", "= 0x00000000", "was 0x00000000", "error 4 after 0", "error 5 after 1", "late"]


@functools.lru_cache(maxsize=16)
def whole(number):
    """The session that this number draws, and its transcript."""
    draw = [drawn_session, drawn_session_of_losses, drawn_session_of_many][number % 3]
    document = draw(number)
    session = Session(document)
    text, _ = transcript(session, run_session(session))
    return document, session, text


class Change:
    """A change of a transcript, drawn from a number."""

    def __init__(self, number, session, text):
        self.random = random.Random(f"transcript {number}")
        self.rounds = session.rounds
        self.lines = text.splitlines(keepends=True)
        self.at = self.place()

    def place(self):
        """A line: of those that tell something else than a value mostly, if there are any, or of a board, or any."""
        kind = self.random.randrange(6)
        if kind == 0:
            return self.random.choice([at for at, line in enumerate(self.lines) if line.startswith("board ")])
        odd = [at for at, line in enumerate(self.lines) if re.search("error|skip|timeout|unsent|,", line)]
        return self.random.choice(odd) if odd and kind < 3 else self.random.randrange(len(self.lines))

    @property
    def line(self):
        return self.lines[self.at]

    def put(self, line):
        self.lines[self.at] = line

    def change_byte(self):
        line, draw = self.line, self.random
        at = draw.randrange(len(line))
        other = draw.choice([chr(ord(line[at]) ^ 1 << draw.randrange(8)), chr(draw.randrange(256)), "", " ", "0"])
        self.put(line[:at] + other + line[at + draw.randrange(2) :])

    def change_line(self):
        """A line is left out, comes twice or elsewhere, or the text ends in front of it."""
        kind = self.random.randrange(5)
        line = self.lines.pop(self.at)
        if kind == 0:
            self.lines[self.at : self.at] = [line, line]
        elif kind == 1:
            self.lines.insert(self.random.randrange(len(self.lines) + 1), line)
        elif kind == 2:
            del self.lines[self.at :]
        elif kind == 3:
            self.lines.insert(self.at, self.random.choice([line[:-1], line[:-1] + "\r\n", line + "\n", "\n"]))

    def change_number(self):
        """Another decimal number, mostly one behind the register."""
        draw = self.random
        begin, _, _ = self.parts(self.line)
        behind = 0 if draw.randrange(8) == 0 else len(begin)
        parts = list(NUMBER.finditer(self.line, behind))
        if not parts:
            return self.change_byte()
        part = draw.choice(parts)
        value = int(part[0])
        near = [value + 1, max(0, value - 1), value + draw.randrange(20)]
        other = draw.choice([*near, *near, *near, draw.choice(EDGES), f"0{value}", f"+{value}", f"{value}.1"])
        self.put(self.line[: part.start()] + str(other) + self.line[part.end() :])

    def change_word(self):
        self.at = self.random.choice([at for at, line in enumerate(self.lines) if WORD.search(line)] or [self.at])
        parts = list(WORD.finditer(self.line))
        if not parts:
            return self.change_number()
        part = self.random.choice(parts)
        word = int(part[0], 16)
        other = self.random.choice([word ^ 1 << self.random.randrange(32), word ^ 1, 0, word + 1 & 0xFFFFFFFF])
        text = self.random.choice([f"0x{other:08x}"] * 6 + [f"0x{word:08X}", f"0x{word:x}", "", f"{part[0]} {part[0]}"])
        self.put(self.line[: part.start()] + text + self.line[part.end() :])

    def change_result(self):
        """Another result, its own of a late answer, or that of another line; mostly with the places of the line."""
        draw = self.random
        begin, result, places = self.parts(self.line)
        own = "done" if result.startswith(("timeout", "denied", "link")) else result
        timeout = f"timeout after {self.rounds} rounds,"
        late = f"{timeout} answered late:"
        verb = begin.split()[1]
        _, other, other_places = self.parts(draw.choice([line for line in self.lines if line.split()[1] == verb]))
        others = [f"{timeout} execution unknown", "unsent", "link lost", "denied by rule 0", other, other]
        answers = [f"{late} {own}", f"{late} {draw.choice(ANSWERS)}", draw.choice(ANSWERS)]
        result = draw.choice([*answers, *others])
        places = draw.choice([places, places, places, other_places, ""])
        self.put(f"{begin} {result}{places}\n")

    def change_places(self):
        """Those of a line lose one, are turned round, or are those of another line."""
        draw = self.random
        begin, result, places = self.parts(self.line)
        each = places[2:].split(",")
        del each[draw.randrange(len(each))]
        _, _, other = self.parts(draw.choice(self.lines))
        fewer = f" @{','.join(each)}" if each else ""
        turned = f" @{','.join(places[2:].split(',')[::-1])}" if places else " @1.1"
        self.put(f"{begin} {result}{draw.choice([fewer, fewer, turned, other, ''])}\n")

    def change_board(self):
        """What a line of a board tells of it as a whole."""
        self.at = len(self.lines) - 1
        words = self.line.split()
        told = ["silent", "down", "places 0 replied 0 timeout 0 lost 0"]
        if words[2] == "places":
            places, replied, timeout, lost = map(int, words[3::2])
            other = max(0, replied - 1)
            told += [f"places {places} replied {other} timeout {timeout} lost {lost + replied - other}"]
            told += [f"places {places + 1} replied {replied + 1} timeout {timeout} lost {lost}"]
        self.put(f"board {words[1]} {self.random.choice(told)}\n")

    def change_order(self):
        """Two places of a board are each put for the other, in all lines."""
        draw = self.random
        board = draw.choice([line for line in self.lines if line.startswith("board ")]).split()
        places = int(board[3]) if board[2] == "places" else 0
        one = str(draw.randint(1, max(1, places - 1)))
        other = str(draw.choice([int(one) + 1] * 4 + [draw.randint(1, places + 1)]))
        turned = {one: other, other: one}
        for at, line in enumerate(self.lines):
            begin, at_sign, shown = line.partition(" @")
            if f" {board[1]}:" in begin:
                pairs = [place.split(".") for place in shown.split(",") if place]
                shown = ",".join(f"{turned.get(place, place)}.{position}" for place, position in pairs)
                self.lines[at] = begin + at_sign + shown

    def parts(self, line):
        """The begin of a line, up to its register, the result and the places with what stands before them."""
        words = line.removesuffix("\n").split(" ", 3)
        begin, rest = " ".join(words[:3]), " ".join(words[3:])
        result, at, places = rest.partition(" @")
        return begin, result, at + places

    def change(self):
        kinds = [self.change_byte, self.change_line, self.change_number, self.change_word, self.change_result]
        kinds += [self.change_number, self.change_word, self.change_result, self.change_places, self.change_order]
        kinds += [self.change_number, self.change_word, self.change_order, self.change_board]
        self.random.choice(kinds)()

    def changed(self):
        text = "".join(self.lines)
        while text == "".join(self.lines):
            self.change()
        return "".join(self.lines).encode("latin-1")


def drawn_transcript(number):
    """The document, its session, and the changed transcript that this number draws."""
    document, session, text = whole(number // CHANGES)
    return document, session, Change(number, session, text).changed()
