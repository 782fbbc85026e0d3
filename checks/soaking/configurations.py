"""Configurations: what is saved and applied, and the refusals of a state, one rule or two at once."""
import random

from model.drawn_configuration import drawn_boards, drawn_configuration
from soaking import documents
from soaking.cases import Case, Tried
from soaking.drawn_documents import DrawDocument
from soaking.program import Program
from soaking.toml_text import toml_of

DOCUMENT = documents.DOCUMENT
RULES = [f"state {rule}" for rule in ("Shape", "Overlap", "UnknownBoard", "UnknownName", "NotKept", "BitsOutside")]


def other_state(number: int) -> bytes:
    """A session of small tables with values for some registers, which may break some rules."""
    draw = random.Random(f"state {number}")
    document = DrawDocument(draw, "apply").document()
    for rule in draw.choices(RULES, k=draw.choice([0, 0, 0, 1, 2, 2, 3])):
        documents.broken(draw, document, rule)
    return toml_of(document)


def denied_writes(number: int) -> bytes:
    """A session whose policy denies each write of the value that the register has: the status alone tells of it."""
    draw = random.Random(f"denied {number}")
    document = DrawDocument(draw, "apply").document()
    for board in document["board"]:
        board["ranges"] = [{"base": 0, "size": 0x10000}]
        document["state"][board["name"]] = dict.fromkeys(document["state"].get(board["name"], []), 0)
    rules = [("deny", "w"), ("allow", "r")]
    document["policy"] = [{"effect": effect, "access": access, "name": "*:**"} for effect, access in rules]
    return toml_of(document)


def drawn(number: int) -> Case:
    if number % 24 == 5:
        return Case(("apply",), {DOCUMENT: denied_writes(number)})
    kind = number % 6
    if kind == 0:
        return Case(("save",), {DOCUMENT: drawn_boards(number)})
    if kind == 1:
        draw = random.Random(f"saved {number}")
        return Case(("save",), {DOCUMENT: toml_of(DrawDocument(draw, "save").document())})
    return Case(("apply",), {DOCUMENT: drawn_configuration(number) if kind == 2 else other_state(number)})


def tried(case: Case, program: Program) -> Tried:
    return documents.tried(case, program)
