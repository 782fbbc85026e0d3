"""Policies: what a policy denies is sent nowhere and told by its rule, and all else is as without it."""
import random

from model.drawn_policy import drawn_policy
from soaking import sessions
from soaking.cases import Case, Tried
from soaking.drawn_documents import DrawDocument
from soaking.program import Program
from soaking.toml_text import toml_of

DOCUMENT = "document.toml"
FRONT = b"[[client]]"


def of_one_client(data: bytes) -> bytes:
    """The document with its first client alone: then its text has one order."""
    front, first, *_ = data.split(FRONT)
    return front + FRONT + first


def other_policy(number: int) -> bytes:
    """A session of small tables with some rules, for any command that runs scripts."""
    draw = random.Random(f"other policy {number}")
    maker = DrawDocument(draw, "run")
    document = maker.document()
    document["policy"] = [maker.rule() for _ in range(draw.choice([0, 1, 2, 5, 12]))]
    return toml_of(document)


def drawn(number: int) -> Case:
    if number % 4 == 3:
        data = drawn_policy(number)
        return Case(("run",), {DOCUMENT: data if number % 8 == 7 else of_one_client(data)}, is_costly=True)
    return Case(("run",), {DOCUMENT: other_policy(number)})


def tried(case: Case, program: Program) -> Tried:
    found = Tried()
    sessions.run(found, program, case.texts[DOCUMENT])
    return found
