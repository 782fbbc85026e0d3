"""Documents and refusals: each rule of each command, alone, two or three at once, and none. The lowest is told."""
import random
import socket
from collections.abc import Iterator
from contextlib import contextmanager

from model.audit import audit_input
from model.notes import is_note_of
from model.refusals import MOST_BYTES, refusal
from soaking import broken_lines, forms, sessions
from soaking.broken_documents import BREAKS
from soaking.cases import Case, Tried
from soaking.drawn_documents import DrawDocument, Table
from soaking.program import Program
from soaking.toml_text import toml_of

assert broken_lines  # it adds to the ways to break rules
# the commands with their rules, so that a number has one of these pairs
PAIRS = [(command, rule) for command in forms.COMMANDS for rule in forms.rules_of(command)]
# what takes a second or more: each is drawn once where the others are drawn so often
COSTLY = ("document TooLong", "compile TooMany", "state TooMany", "script TooMany")
SELDOM = 20
# it has most rules to meet
SHARE = 3.0
DOCUMENT, TRANSCRIPT, INPUT = "document.toml", "transcript.txt", "input.txt"
NO_TOML = [b"= 1\n", b"a b\n", b"[\n", b"x = \n", b'x = "\n', b"\xff\xfe\n", b"x = 1\nx = 2\n", b"x = 'a\n", b"[x]]\n"]
NO_TOML += [b"x = {\n", b"x = [1 2]\n", b"\0", b"x = \x80\n", b"[[tables.main]\n", b"x = 1 y = 2\n", b"x = 0xg\n"]
NO_TOML += [b"x = 01\n", b"x = 9_\n"]
LENGTHS = [b"", b"x\n", b"123456789\n", b"-1\n", b" 1\n", b"1 \n", b"99999999\n", b"5", b"0x1\n", b"1\r\n"]


def is_costly(rule: str) -> bool:
    return rule in COSTLY


def broken(draw: random.Random, document: Table, rule: str) -> None:
    """Breaks a rule by a way that is drawn, if there is one: of a rule on bytes there is none."""
    if rule in BREAKS:
        draw.choice(BREAKS[rule])(draw, document)


def rules_for(draw: random.Random, number: int) -> tuple[str, list[str]]:
    """The command of a case and the rules that it breaks."""
    turn, place = divmod(number - 1, len(PAIRS))
    command, rule = PAIRS[place]
    if is_costly(rule) and turn % SELDOM != 0:
        rule = "document Shape"
    # what is costly is broken alone at first
    if is_costly(rule) and turn % (2 * SELDOM) == 0:
        return command, [rule]
    others = [each for each in forms.rules_of(command) if not is_costly(each)]
    kind = draw.randrange(10)
    # no other part has documents that are listed
    if kind == 0 or command == "check" and kind < 4:
        return command, []
    count = 0 if kind < 5 else 1 if kind < 9 else 2
    return command, [rule, *(draw.choice(others) for _ in range(count))]


def shuffled(draw: random.Random, value: object) -> object:
    """A value whose tables have their keys in another order."""
    if isinstance(value, dict):
        keys = draw.sample(list(value), len(value))
        return {key: shuffled(draw, value[key]) for key in keys}
    return [shuffled(draw, each) for each in value] if isinstance(value, list) else value


def drawn(number: int) -> Case:
    """A document for a command, which breaks the rules that are drawn."""
    draw = random.Random(f"document {number}")
    command, rules = rules_for(draw, number)
    document = DrawDocument(draw, command).document()
    for rule in rules:
        broken(draw, document, rule)
    if draw.randrange(2) and not any(map(is_costly, rules)):
        document = shuffled(draw, document)
    data = toml_of(document)
    if "document NotToml" in rules:
        lines = data.splitlines(keepends=True)
        lines.insert(draw.randint(0, len(lines)), draw.choice(NO_TOML))
        data = b"".join(lines)
    if "document TooLong" in rules:
        more = draw.choice([1, 2] if len(rules) == 1 else [0, 1, 2])
        data += b"#" * (MOST_BYTES + more - len(data))
    return case_of(draw, command, data, rules)._replace(is_costly=any(map(is_costly, rules)))


def case_of(draw: random.Random, command: str, data: bytes, rules: list[str]) -> Case:
    if command == "check":
        roots = ["main"] * (9 if any(rule.startswith("compile") for rule in rules) else 3)
        root = draw.choice([*roots, "group", "spare", "none"])
        return Case(("check", root), {DOCUMENT: data})
    if command != "audit":
        return Case((command,), {DOCUMENT: data})
    if "document NoLength" in rules:
        front = draw.choice(LENGTHS)
        return Case(("audit",), {INPUT: front if draw.randrange(2) else front + data})
    return Case(("audit",), {DOCUMENT: data, TRANSCRIPT: draw.choice([b"", b"client 1\n", b"x"])})


def input_of(case: Case) -> bytes:
    """What the program reads."""
    if INPUT in case.texts:
        return case.texts[INPUT]
    if TRANSCRIPT in case.texts:
        return audit_input(case.texts[DOCUMENT], case.texts[TRANSCRIPT])
    return case.texts[DOCUMENT]


@contextmanager
def words_of(case: Case) -> Iterator[tuple[str, ...]]:
    """The words of the command. `serve` is given a port that is in use: where it does not refuse its document it ends."""
    if case.words != ("serve",):
        yield case.words
        return
    with socket.socket() as taken:
        taken.bind(("", 0))
        taken.listen()
        yield "serve", str(taken.getsockname()[1]), "1"


def wanted_refusal(case: Case) -> str | None:
    """The line by which the input is refused, or None."""
    command, *rest = case.words
    if INPUT not in case.texts:
        return refusal(command, case.texts[DOCUMENT], rest[0] if command == "check" else None)
    front, feed, behind = case.texts[INPUT].partition(b"\n")
    is_length = feed and 1 <= len(front) <= 8 and front.isdigit()
    if is_length and int(front) > MOST_BYTES:
        return "refused: document - TooLong"
    if not is_length or int(front) > len(behind):
        return "refused: document - NoLength"
    return refusal(command, behind[: int(front)])


def tried(case: Case, program: Program) -> Tried:
    """The program refuses a document by the line of the second program, or does with it what that does."""
    found = Tried()
    line = wanted_refusal(case)
    command = case.words[0]
    if line is None:
        taken(found, case, program)
        return found
    with words_of(case) as words:
        done = program.run(words, input_of(case))
    found.meet([f"status {command} {done.status}"])
    told = done.text.decode(errors="replace"), done.status
    found.compare(f"refusal by {forms.refused(line)}", told, (line + "\n", 3))
    if not found.way:
        found.meet([f"rule {command} {forms.refused(line)}"])
        if not is_note_of(done.text, done.note):
            found.differs("note of a refusal", f"{done.note[:400]!r} beside {line}", found=done.note)
    return found


def has_boards_elsewhere(data: bytes) -> bool:
    return b'"udp"' in data


def taken(found: Tried, case: Case, program: Program) -> None:
    """What is done with a document that is not refused."""
    command, data = case.words[0], case.texts.get(DOCUMENT, b"")
    if command == "check":
        sessions.check(found, program, data, case.words[1])
    elif has_boards_elsewhere(data) or command in ("serve", "audit") or not data:
        # boards behind ports, connections and transcripts have parts of their own
        found.is_judged = False
    elif command == "record":
        sessions.record(found, program, data)
    elif command == "run":
        sessions.run(found, program, data)
    else:
        sessions.configure(found, program, command, data)
