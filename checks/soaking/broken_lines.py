"""Documents that break a rule of policies, of states or of scripts, or one that a command alone has."""
import copy
import random
from typing import Any

from model.compiled import Entry, Refused, compiled
from soaking.broken_documents import (
    BREAKS,
    STRANGE,
    Table,
    as_list,
    board_of,
    boards_of,
    breaks,
    clients_of,
    main_of,
    put_node,
)

WHOLE = 0xFFFFFFFF
PATTERNS = ["", "*", "b0", ":**", "b0:", "b0:**.a", "b0:a..b", "b0:a[", "b0:a[01]", "b0:a[65536]", "b0:a]", "b 0:a"]
PATTERNS += ["*:a:b"]


def entries_of(document: Table) -> dict[str, Entry]:
    """The registers of the main table, where it has a right form."""
    try:
        return compiled(document["tables"], "main")
    except (Refused, AttributeError, KeyError, TypeError, ValueError, OverflowError, RecursionError):
        return {}


# ---- policies


@breaks("policy Shape")
def another_policy(draw: random.Random, document: Table) -> None:
    document["policy"] = copy.deepcopy(draw.choice([1, "x", {}, [1], [[]], [{}], {"effect": "allow"}]))


@breaks("policy Shape")
def a_rule_at_fault(draw: random.Random, document: Table) -> None:
    rule: Table = {"effect": "allow", "access": "rw", "name": "*:**"}
    kind = draw.randrange(6)
    if kind == 0:
        del rule[draw.choice(list(rule))]
    elif kind == 1:
        rule[draw.choice(["x", "Effect", "accesses", "clients"])] = 1
    elif kind == 2:
        rule["name"] = draw.choice(PATTERNS)
    elif kind == 3:
        rule["client"] = draw.choice([0, 65, "0", *STRANGE])
    else:
        rule[draw.choice(list(rule))] = copy.deepcopy(draw.choice([*STRANGE, "wr", "Allow"]))
    rules = [each for each in as_list(document.get("policy"))]
    rules.insert(draw.randint(0, len(rules)), rule)
    document["policy"] = rules


@breaks("policy Shape")
def many_rules(draw: random.Random, document: Table) -> None:
    document["policy"] = [{"effect": "allow", "access": "rw", "name": "*:**"}] * draw.choice([1024, 1025])


@breaks("policy NoServe")
def a_policy(draw: random.Random, document: Table) -> None:
    document["policy"] = draw.choice([[], [{"effect": "deny", "access": "r", "name": "*:**"}]])


# ---- what `record` and `audit` do not take


@breaks("document OneBoard")
def one_board_more(draw: random.Random, document: Table) -> None:
    as_list(document.get("board")).append({"name": "other", "table": draw.choice(["main", "none"])})


@breaks("board NotSim")
def on_a_network(draw: random.Random, document: Table) -> None:
    board = board_of(draw, document)
    for key in ("mtu", "buffers", "first", "fates", "noise", "ranges"):
        board.pop(key, None)
    board |= {"link": "udp", "address": f"127.0.0.{draw.randint(1, 9)}:9"}


# ---- states


def state_of(document: Table) -> Table:
    if not isinstance(document.get("state"), dict):
        document["state"] = {}
    return document["state"]


def of_a_board(draw: random.Random, document: Table) -> Table:
    """The values of a board."""
    name = board_of(draw, document).get("name")
    name = name if isinstance(name, str) else "b0"
    state = state_of(document)
    if not isinstance(state.get(name), dict):
        state[name] = {}
    return state[name]


@breaks("state Shape")
def another_state(draw: random.Random, document: Table) -> None:
    document["state"] = copy.deepcopy(draw.choice([1, "x", [], [{}], {"b0": 1}, {"b0": []}, {"none": "x"}]))
    if draw.randrange(4) == 0:
        del document["state"]


@breaks("state Shape")
def another_number(draw: random.Random, document: Table) -> None:
    names = [*entries_of(document), "none", "n0.none"]
    of_a_board(draw, document)[draw.choice(names)] = copy.deepcopy(draw.choice(STRANGE))


@breaks("state Overlap")
def kept_registers_that_overlap(draw: random.Random, document: Table) -> None:
    address = draw.choice([0, 0x100, 0x9000])
    put_node(draw, document, {"id": "o0", "address": address, "mask": 0xFF})
    id, mask = draw.choice(["o1", "A", "z"]), draw.choice([1, 0x80, 0x100])
    put_node(draw, document, {"id": id, "address": address, "mask": mask})


@breaks("state TooMany")
def many_kept(draw: random.Random, document: Table) -> None:
    document["format"] = 2
    put_node(draw, document, {"id": "many", "address": 0x100000, "count": draw.choice([50_001, 50_001, 49_000])})


@breaks("state UnknownBoard")
def unknown_board(draw: random.Random, document: Table) -> None:
    state_of(document)[draw.choice(["none", "A", "b9"])] = draw.choice([{"n0": 1}, {"none": 1}, {}, {"a": 1, "b": 2}])


@breaks("state UnknownName")
def unknown_name(draw: random.Random, document: Table) -> None:
    of_a_board(draw, document)[draw.choice(["none", "n0.none", "A", "n0[9]", ""])] = 1


@breaks("state NotKept")
def not_kept(draw: random.Random, document: Table) -> None:
    entries = entries_of(document)
    names = [name for name, entry in entries.items() if entry.mode != "single" or entry.permission != "rw"]
    names += [name.rpartition(".")[0] for name in entries if "." in name]
    if not names:
        put_node(draw, document, {"id": "z", "address": 0xF000, "permission": "r"})
    of_a_board(draw, document)[draw.choice(names or ["z"])] = draw.choice([0, WHOLE])


@breaks("state BitsOutside")
def a_value_too_wide(draw: random.Random, document: Table) -> None:
    names = [name for name, entry in entries_of(document).items() if entry.mask != WHOLE]
    if not names:
        put_node(draw, document, {"id": "z", "address": 0xF000, "mask": 0xF0})
    of_a_board(draw, document)[draw.choice(names or ["z"])] = draw.choice([WHOLE, 0x10000, 0x80000000])


# ---- scripts


def put_line(draw: random.Random, document: Table, line: str) -> None:
    """A line more in some script."""
    if not clients_of(document):
        document["client"] = [{"script": []}]
    script = draw.choice(clients_of(document)).get("script")
    if isinstance(script, list):
        script.insert(draw.randint(0, len(script)), line)


def register_of(draw: random.Random, document: Table, fits: Any) -> str | None:
    """The name of a register that fits, with a board."""
    names = [name for name, entry in entries_of(document).items() if fits(entry)]
    boards = [board["name"] for board in boards_of(document) if isinstance(board.get("name"), str)]
    return f"{draw.choice(boards)}:{draw.choice(names)}" if names and boards else None


BAD_LINES = """read|read b0|read b0:n0 1|write b0:n0|write b0:n0 x|write b0:n0 0x100000000|readblock b0:n0 0|readblock b0:n0
|writeblock b0:n0|writeblock b0:n0 1 x|rmwbits b0:n0 1|rmwbits b0:n0 1 2 3|rmwsum b0:n0|dispatch 1|Dispatch|b0:n0 read|-
|write b0:n0 -1|write b0:n0 4294967296|write b0:n0 00000000001|readblock b0:n0 1 2|write b0:n0 0x000000001|read :|read b0 :n0
|write b0:n0 0X1|read\u00a0b0:n0""".replace("\n", "").split("|")


@breaks("script BadLine")
def no_line(draw: random.Random, document: Table) -> None:
    put_line(draw, document, draw.choice(BAD_LINES))


@breaks("script UnknownBoard")
def line_of_no_board(draw: random.Random, document: Table) -> None:
    lines = ["read none:n0", "read :n0", "write B0:none 1", "rmwsum b00:n0 1", "read none:"]
    put_line(draw, document, draw.choice(lines))


@breaks("script UnknownName")
def line_of_no_register(draw: random.Random, document: Table) -> None:
    names = ["none", "", "n0.", ".n0", "n0:x", "n0[0][0]", "N0", "n0[00]"]
    verb = draw.choice(["rmwsum", "write", "readblock"])
    put_line(draw, document, f"{verb} b0:{draw.choice(names)} 1")


def line_for(rule: str, fits: Any, lines: list[str], made: Table) -> None:
    """A line on a register that fits. Where none does, a node is made."""

    def way(draw: random.Random, document: Table) -> None:
        register = register_of(draw, document, fits)
        if register is None:
            put_node(draw, document, {"id": draw.choice(["A", "z"]), "address": 0xF000, **made})
            register = register_of(draw, document, fits)
        if register:
            put_line(draw, document, draw.choice(lines).format(register))

    BREAKS.setdefault(f"script {rule}", []).append(way)


READS = ["read {}", "readblock {} 1", "readblock {} 99999", "rmwsum {} 1", "rmwbits {} 1 1"]
WRITES = ["write {} 4294967295", "write {} 0", "writeblock {} 1", "writeblock {} 1 2 3", "rmwsum {} 1"]
line_for("NoPermission", lambda entry: entry.permission == "w", READS, {"permission": "w"})
line_for("NoPermission", lambda entry: entry.permission == "r", WRITES, {"permission": "r"})
line_for("WrongMode", lambda entry: entry.mode == "hierarchical", [*READS, *WRITES], {"mode": "hierarchical"})
line_for("PastSize", lambda entry: entry.size < 99_999, ["readblock {} 99999"], {})
line_for("PastSize", lambda entry: entry.size < 99_999, ["writeblock {}" + " 1" * 16, "writeblock {} 1 2"], {})
TWO_WORDS = ["readblock {} 2", "writeblock {} 1 2"]
line_for("PastSize", lambda entry: entry.mask != WHOLE, TWO_WORDS, {"mask": 1})
OF_A_PORT = ["readblock {} 4294967295", "readblock {} 3"]
line_for("PastSize", lambda entry: entry.mode == "port" and entry.size > 1, OF_A_PORT, {"mode": "port", "size": 2})
TOO_WIDE = ["write {} 4294967295", "write {} 0x10000", "write {} 16"]
line_for("BitsOutside", lambda entry: entry.mask != WHOLE, TOO_WIDE, {"mask": 0xF0})
MASKED = ["readblock {} 1", "writeblock {} 7", "rmwbits {} 1 2", "rmwsum {} 1"]
line_for("NotWhole", lambda entry: entry.mask != WHOLE, MASKED, {"mask": 0xF0})


@breaks("script TooMany")
def many_words(draw: random.Random, document: Table) -> None:
    """A port of one word takes any number of words, and all scripts together a million."""
    id = draw.choice(["many", "A"])
    main_of(document).append({"id": id, "address": 0x100, "mode": "port"})
    board = board_of(draw, document).get("name", "b0")
    for count in draw.choice([(1_048_577,), (1_048_576, 1), (WHOLE,), (500_000, 548_577)]):
        put_line(draw, document, f"readblock {board}:{id} {count}")


@breaks("script TooMany")
def many_lines(draw: random.Random, document: Table) -> None:
    put_node(draw, document, {"id": "lines", "address": 0x100})
    lines = draw.choice([["#"] * 200_001, ["read b0:lines"] * 100_001, ["dispatch"] * 200_001])
    document["client"] = [{"script": []}, {"script": lines}]
