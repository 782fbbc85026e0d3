"""Words, inputs and outputs: what is no command, an input that cannot be read, an output that cannot be written, too little
memory, a port in use, two boards at one address, and a load."""
import os
import random
import socket
import tempfile

from model.notes import NOTES, UNWRITTEN, memory_note, usage_line
from net.peers import free_port
from soaking import forms
from soaking.cases import Case, Tried
from soaking.drawn_documents import DrawDocument
from soaking.program import Done, Program
from soaking.toml_text import toml_of

DOCUMENT = "document.toml"
READERS = ("run", "check", "save", "apply", "audit", "describe", "undescribe", "record", "serve")
CAPTURES = ("describe", "undescribe")
# those that make links to boards behind ports
LINKING = ("run", "serve", "save", "apply")
WORDS = """run check serve load audit record describe undescribe save apply main 1 0 64 Run RUN --help -h --version -x -- x
""".split()
PORTS = "0 1 65535 65536 0000000001 00000000001 x".split()
COUNTS = "0 1 64 65 0064 4294967297 -1".split()
NUMBERS = "0 1 2 63 64 65 65535 65536 100000 100001 0001 0000000001 00000000001 4294967297 0x1 +1 -1 1.0 x".split()
# what each command reads with an output that cannot be written
USAGE = usage_line().decode()
CAPTURE = b"first 1\n> 200001f02000010f00000004\n"
DESCRIPTION = b"first 1\n> control 1 big\n  0 read 0x00000004 1\nproved 0\n"
# with so many bytes of memory the proved program cannot read a document of the most bytes
LITTLE = 24 << 20
KINDS = ["words", "words", "unread", "unwritten", "unwritten", "load", "rack", "door", "memory"]


def document_of(draw: random.Random, command: str) -> bytes:
    return toml_of(DrawDocument(draw, command).document())


def drawn(number: int) -> Case:
    """The kind of the case stands in front of the words."""
    draw = random.Random(f"command {number}")
    kind = KINDS[number % len(KINDS)]
    if kind == "words":
        return Case((kind, *drawn_words(draw)), {})
    if kind == "load":
        return Case((kind, "load", str(draw.choice([1, 2, 5, 64, 300, 1000]))), {})
    if kind in ("rack", "door"):
        command = draw.choice(LINKING) if kind == "rack" else "serve"
        return Case((kind, command), {DOCUMENT: b"state = {}\n" * (command == "apply") + of_two_boards(draw)})
    if kind == "memory":
        command = draw.choice([*READERS, "load"])
        data = b"" if command in (*CAPTURES, "load") else document_of(draw, command)
        return Case((kind, *words_of(command)), {DOCUMENT: data})
    return at_an_end(draw, kind)


def drawn_words(draw: random.Random) -> list[str]:
    """Any words, or a command of numbers that may be out of range."""
    command, count = draw.choice([("", 0), ("serve", 2), ("serve", 2), ("load", 1)])
    if command == "serve":
        return [command, draw.choice(PORTS), draw.choice(COUNTS)]
    if command:
        return [command, *draw.choices(NUMBERS, k=count)]
    return draw.choices(WORDS, k=draw.choice([0, 1, 1, 2, 2, 3, 4]))


def at_an_end(draw: random.Random, kind: str) -> Case:
    """An input that cannot be read, or an output that cannot be written."""
    commands = READERS if kind == "unread" else (*READERS, "load", "words", "refused")
    command = draw.choice(commands)
    if command in CAPTURES:
        return Case((kind, command), {DOCUMENT: CAPTURE if command == "describe" else DESCRIPTION})
    if command in ("load", "words"):
        return Case((kind, *(("load", "5") if command == "load" else ("no", "command"))), {DOCUMENT: b""})
    if command == "refused":
        return Case((kind, draw.choice(["run", "save", "apply", "record", *CAPTURES])), {DOCUMENT: b"board = 1\n"})
    data = document_of(draw, command)
    if command == "audit":
        return Case((kind, command), {DOCUMENT: b"%d\n%b" % (len(data), data)})
    return Case((kind, *words_of(command)), {DOCUMENT: b"board = 1\n" if command == "serve" else data})


def words_of(command: str) -> tuple[str, ...]:
    many = {"check": ("check", "main"), "serve": ("serve", "1", "1"), "load": ("load", "100000")}
    return many.get(command, (command,))


def of_two_boards(draw: random.Random) -> bytes:
    """Two boards on a network, at one address."""
    place = f'link = "udp"\naddress = "127.0.0.{draw.randint(2, 250)}:{draw.randint(1, 65_535)}"\nwait = 1\n'
    boards = "".join(f'[[board]]\nname = "{name}"\ntable = "main"\n{place}' for name in ("a", "b"))
    return f'rounds = 1\ntables.main = [ {{ id = "x" }} ]\n{boards}[[client]]\nscript = ["read a:x"]\n'.encode()


def tried(case: Case, program: Program) -> Tried:
    found = Tried()
    kind, *words = case.words
    data = case.texts.get(DOCUMENT, b"")
    if kind == "words":
        other_words(found, program, words)
    elif kind == "unread":
        unread(found, program, words)
    elif kind == "unwritten":
        unwritten(found, program, words, data)
    elif kind == "load":
        load(found, program, int(words[1]))
    elif kind == "rack":
        done = program.run(["serve", str(free_port()), "1"] if words == ["serve"] else words, data)
        found.meet([f"status {words[0]} {done.status}", *forms.of_note(done.note)])
        found.compare("rack", (done.text, done.status, b"have one address" in done.note), (b"", 7, True))
    elif kind == "door":
        port_in_use(found, program, data)
    elif not program.is_unproved:
        little_memory(found, program, words, data)
    return found


def is_number(word: str, most: int) -> bool:
    return word.isascii() and word.isdigit() and len(word) <= 10 and 1 <= int(word) <= most


def is_command(words: list[str]) -> bool:
    """Whether the words are a command."""
    if any(word.startswith("-") for word in words):
        return False
    if len(words) == 1:
        return words[0] in ("run", "audit", "record", "describe", "undescribe", "save", "apply")
    if len(words) == 2 and words[0] == "load":
        return is_number(words[1], 100_000)
    if len(words) == 3 and words[0] == "serve":
        return is_number(words[1], 65_535) and is_number(words[2], 64)
    return len(words) == 2 and words[0] == "check"


def other_words(found: Tried, program: Program, words: list[str]) -> None:
    """Words that are no command are answered by the usage line; a command has nothing to read here."""
    if is_command(words) and words[0] == "load":
        return
    done = program.run(words, b"")
    if not is_command(words):
        found.meet([f"status words {done.status}"])
        found.compare("usage", (done.text.decode(), done.status), (USAGE, 2))
        found.compare("note of usage", done.note.startswith(b"ipbus: "), True)
        return
    wanted = {"audit": "document - NoLength", "describe": "capture 1 First"}
    wanted["undescribe"] = "description - NotDescription"
    line = f"refused: {wanted.get(words[0], 'document - NoBoards')}\n"
    found.compare("empty input", (done.text.decode(), done.status), (line, 3))


def unread(found: Tried, program: Program, words: list[str]) -> None:
    """A folder as the input."""
    folder = os.open("/", os.O_RDONLY)
    try:
        done = program.run_on(words, folder)
    finally:
        os.close(folder)
    found.meet([f"status {words[0]} {done.status}"])
    found.compare("unread", done, Done(4, b"", NOTES[4]))


def unwritten(found: Tried, program: Program, words: list[str], data: bytes) -> None:
    """An output that is full."""
    out = os.open("/dev/full", os.O_WRONLY)
    try:
        with tempfile.TemporaryFile() as given:
            given.write(data)
            given.seek(0)
            done = program.run_on(words, given.fileno(), out=out)
    finally:
        os.close(out)
    command = words[0] if words[0] in forms.ENDS else "words"
    found.meet([f"status {command} {done.status}"])
    # what was to be written may be a refusal, or nothing at all
    listed = program.run(words, data)
    wanted = 5 if listed.text else listed.status
    found.compare("unwritten", done.status, wanted)
    refused = {"describe": "refused capture", "undescribe": "refused description"}.get(command, "refusal")
    what = {2: "usage", 3: refused}.get(listed.status, command)
    if wanted == 5 and what in UNWRITTEN:
        # what is said of a refusal stands behind it
        note = UNWRITTEN[what].encode() + (listed.note if what == refused else b"")
        found.compare("note of unwritten", done.note.endswith(note), True)


def load(found: Tried, program: Program, count: int) -> None:
    done = program.run(["load", str(count)], b"")
    text = f"load {count}\ndone {count}\nwas total {count * (count - 1) // 2}\nplaces {count}\n"
    found.meet([f"status load {done.status}"])
    found.compare("load", (done.text.decode(), done.status, done.note), (text, 0, b""))


def port_in_use(found: Tried, program: Program, data: bytes) -> None:
    """A port that another program has. The first board alone is in the document."""
    first, board, rest = data.decode().partition('[[board]]\nname = "b"')
    single = first + "[[client]]" + (board + rest).partition("[[client]]")[2]
    with socket.socket() as taken:
        taken.bind(("", 0))
        taken.listen()
        words = ["serve", str(taken.getsockname()[1]), "1"]
        done = program.run(words, single.encode())
    found.meet([f"status serve {done.status}", *forms.of_note(done.note)])
    found.compare("door", (done.text, done.status, done.note.endswith(NOTES[8])), (b"", 8, True))


def little_memory(found: Tried, program: Program, words: list[str], data: bytes) -> None:
    """An input of many bytes, or a long load, where there is memory for a part of it: no text."""
    with tempfile.TemporaryFile() as file:
        file.write(much(words[0], data))
        file.seek(0)
        done = program.run_on(words, file.fileno(), memory=LITTLE)
    found.meet([f"status {words[0]} {done.status}"])
    found.compare("little memory", done, Done(6, b"", memory_note(words[0])))


def much(command: str, data: bytes) -> bytes:
    """A document of the most bytes, or a text of captures of twice the memory that there is."""
    if command == "load":
        return b""
    if command in CAPTURES:
        return b"first 1\n" + b"> raw ffff\n" * (2 * LITTLE // 11)
    full = data + b"#" * (16_777_216 - len(data))
    return b"%d\n%b" % (len(full), full) if command == "audit" else full
