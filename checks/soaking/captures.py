"""Captures and descriptions: each is read or refused as the second program says, and what is described is read back."""
import random

from model.captures import MOST_BYTES, Refused, describe, undescribe
from model.drawn_captures import drawn_capture, drawn_description, long_capture
from model.notes import NOTES, is_note_of
from soaking import forms, scripts, sessions
from soaking.cases import Case, Tried
from soaking.program import Program

TEXT, DOCUMENT = "capture.txt", "document.toml"
SECOND = {"describe": describe, "undescribe": undescribe}
# a text of more bytes than are read is drawn once in so many cases
SELDOM = 3000


def one_board(number: int) -> bytes:
    """A session of one board, over a network of any fates."""
    sessions_drawn = map(scripts.other_session, range(number, number + 100))
    return next(data for data in sessions_drawn if data.count(b"[[board]]") == 1)


def drawn(number: int) -> Case:
    kind = number % 8
    if number % SELDOM in (1, 2):
        words = ("describe", "undescribe")[number % SELDOM - 1]
        return Case((words,), {TEXT: drawn_capture(number).ljust(MOST_BYTES + 1, b"\n")}, is_costly=True)
    if kind == 6:
        return Case(("record",), {DOCUMENT: one_board(number)})
    if kind == 7 and random.Random(number).randrange(4) == 0:
        return Case(("describe",), {TEXT: long_capture(number)})
    command = ("describe", "undescribe")[kind % 2]
    return Case((command,), {TEXT: (drawn_capture if command == "describe" else drawn_description)(number)})


def tried(case: Case, program: Program) -> Tried:
    found = Tried()
    if case.words == ("record",):
        sessions.record(found, program, case.texts[DOCUMENT])
    else:
        read(found, program, case.words[0], case.texts[TEXT])
    return found


def wanted_of(command: str, data: bytes) -> tuple[bytes, int]:
    try:
        return SECOND[command](data), 0
    except Refused as refused:
        return str(refused).encode(), 3


def read(found: Tried, program: Program, command: str, data: bytes) -> None:
    """A text is read as the second program reads it, and its other form gives it again."""
    done = program.run([command], data)
    text, status = wanted_of(command, data)
    found.meet([f"status {command} {done.status}"])
    found.compare("capture", (done.text, done.status), (text, status))
    if status == 3:
        found.meet([f"rule {command} {forms.refused(text.decode())}"])
        if not is_note_of(text, done.note):
            found.differs("note of a capture", repr(done.note[:400]), found=done.note)
        return
    found.compare("note of a capture", done.note, NOTES[0])
    found.meet(forms.of_description((text if command == "describe" else data).decode()))
    back = program.run(["undescribe" if command == "describe" else "describe"], done.text)
    found.compare("read back", (back.text, back.status), (data, 0))
