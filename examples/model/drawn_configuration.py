"""Values for the registers of drawn sessions, from a number: the same number draws the same document."""
import random

from model.configuration import Configuration
from model.drawn import drawn_session

# what a state has that is not right: some documents have none of it, some one and some two
FAULTS = [
    '[state.b9]\n"low.count" = 1\n',
    '[state.b9]\n',
    '"low.none" = 1\n',
    '"low.ctrl" = 1\n',
    '"low.id" = 1\n',
    '"high.ctrl.gain" = 16\n',
    '"high.ctrl.on" = true\n',
    '"high.ctrl.on" = "1 "\n',
    "high.ctrl.on = 1\n",
]


def value_text(draw, register):
    """A value that the register takes, in one of the forms of numbers."""
    bits = (register.mask >> register.shift).bit_length()
    value = draw.getrandbits(draw.choice([1, bits, bits])) & register.mask >> register.shift
    return draw.choice([f"{value}", f"{value:#x}", f'"{value}"', f'"0x{value:X}"'])


def drawn_boards(number):
    """The session that this number draws; every other one has no clients, and no register that never answers."""
    document = drawn_session(number)
    if number % 2:
        return document
    document = document.partition(b"[[client]]")[0]
    for register in (b'  { id = "slow", address = 0x8000 },\n', b'  { id = "absent", address = 0x9000 },\n'):
        document = document.replace(register, b"")
    return document


def can_follow(text, fault):
    """Whether a text of values stays TOML with this fault behind it."""
    if fault.startswith("["):
        return fault.split("\n")[0] not in text
    return "[" in text and not any(line.split(" = ")[0] == fault.split(" = ")[0] for line in text.splitlines())


def drawn_configuration(number):
    """The same with values for some of its kept registers under the key `state`."""
    draw = random.Random(f"configuration {number}")
    document = drawn_boards(number)
    session = Configuration(document, "save")
    text = ""
    boards = [board for board in session.boards if draw.random() < 0.8]
    for board in draw.sample(boards, len(boards)):
        names = session.kept[board.name]
        chosen = draw.sample(names, draw.randint(0, len(names)))
        text += f"[state.{board.name}]\n"
        text += "".join(f'"{name}" = {value_text(draw, board.registers[name])}\n' for name in chosen)
    # a table of its own stands behind the values of the last board
    for fault in sorted(draw.sample(FAULTS, draw.choice([0, 1, 2])), key=lambda fault: fault.startswith("[")):
        if can_follow(text, fault):
            text += fault
    return document + (text or "[state]\n").encode()
