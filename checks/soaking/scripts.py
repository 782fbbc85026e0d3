"""Scripts over simulated networks of any fates: what `run` prints is what the second program's network gives."""
import random

from model.drawn import drawn_session, drawn_session_of_losses, drawn_session_of_many
from soaking import sessions
from soaking.cases import Case, Tried
from soaking.drawn_documents import DrawDocument
from soaking.program import Program
from soaking.toml_text import toml_of

DOCUMENT = "document.toml"


def other_session(number: int) -> bytes:
    """A session of small tables of any form, without a policy."""
    draw = random.Random(f"scripts {number}")
    document = DrawDocument(draw, "run").document()
    document.pop("policy", None)
    for board in document["board"]:
        if draw.randrange(2):
            board.pop("noise", None)
            letters = draw.choice(["d", "dl", "dddddlr123456789", "ddl5", "l", "r", "d9", "dddr1"])
            board["fates"] = "".join(draw.choices(letters, k=draw.choice([3, 20, 200, 1000])))
    return toml_of(document)


KINDS = [drawn_session, drawn_session_of_losses, other_session, drawn_session_of_many, other_session]


def drawn(number: int) -> Case:
    return Case(("run",), {DOCUMENT: KINDS[number % len(KINDS)](number)})


def tried(case: Case, program: Program) -> Tried:
    found = Tried()
    sessions.run(found, program, case.texts[DOCUMENT])
    return found
