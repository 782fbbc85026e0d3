"""Boards of the cases, and session documents of them."""
from net.peers import Board

# milliseconds that one receive waits: of a board that answers at once, and of one whose datagrams are late by up to 30;
# and where there are few rounds: of a board that answers, of one that does so at first, and of one that never does
CALM_WAIT, LATE_WAIT = 200, 40
PATIENT_WAIT, FALLING_WAIT, DEAF_WAIT = 2000, 400, 20
# milliseconds by which the answers of a board are late that a hub has to wait for
LATE_BY = 600

RANGES = [
    (0, 16, "rw", [0xABCD, 7]),
    (0x100, 600, "rw", []),
    (0x1000, 4, "ro", [1, 2, 3, 4]),
    (0x2000, 1, "slow", []),
    (0x3000, 128, "rw", []),
]
TABLES = """
[[tables.main]]
id = "id"
permission = "r"
[[tables.main]]
id = "count"
address = 1
[[tables.main]]
id = "a"
address = 8
[[tables.main.nodes]]
id = "top"
mask = 0x80000000
[[tables.main.nodes]]
id = "low"
mask = 0xff
[[tables.main]]
id = "fifo"
address = 9
mode = "port"
[[tables.main]]
id = "mem"
address = 0x100
mode = "block"
size = 600
[[tables.main]]
id = "fixed"
address = 0x1000
[[tables.main]]
id = "slow"
address = 0x2000
"""
COUNT, SHARED = 1, 0x3000
OWN = 0x3001


def boards_of(count, **settings):
    return [Board(f"b{number}", RANGES, **settings) for number in range(count)]


def with_seeds(boards, seed):
    """The boards behind bad networks, each of its own."""
    for number, board in enumerate(boards):
        board.more["seed"] = 10 * seed + number
    return boards


def document(tables, scripts=(), rounds=255, window=16):
    """A session document of boards that are given by their tables."""
    text = f"rounds = {rounds}\nwindow = {window}\n{TABLES}{''.join(tables)}"
    for script in scripts:
        text += "[[client]]\nscript = [\n" + "".join(f'  "{line}",\n' for line in script) + "]\n"
    return text.encode()


def simulated(boards, scripts=(), **settings):
    return document([board.simulated() for board in boards], scripts, **settings)


def on_network(boards, scripts=(), wait=CALM_WAIT, **settings):
    return document([board.on_network(wait) for board in boards], scripts, **settings)
