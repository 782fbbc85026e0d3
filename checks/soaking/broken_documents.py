"""Documents that break a rule: for each rule ways to break it, each a change of a document that is a value. Some break
an earlier rule, too, or one that is not asked of the command: the second program says which one is told."""
import copy
import random
from collections.abc import Callable
from typing import Any

from soaking.toml_text import Raw

Table = dict[str, Any]
Break = Callable[[random.Random, Table], None]
BREAKS: dict[str, list[Break]] = {}

# what no key takes, and what some take
STRANGE = [Raw("1.0"), Raw("true"), Raw("-1"), Raw("4294967296"), Raw("1979-05-27"), Raw("inf"), "", "x", "00000000001"]
STRANGE += ["0x", "0x100000000", "4294967296", "+1", " 1", "1 ", "0X1", "0b1", [], {}, [1], {"a": 1}, "\u00e9", "a\nb"]
BAD_NUMBERS = [0, 1, 2, 16, 17, 64, 65, 91, 256, 9001, 10_001, 65_536, 4_194_305, "0", "0x0", "17", "65536"]
BAD_IDS = ["", "a.b", "a b", "x" * 65, "\u00e9", "a[0]", "a:b", "a\nb"]
KEYS = """format rounds window tables board client policy state name table link mtu buffers first fates noise ranges
address wait base size kind init script id mask nodes x Zz _""".split()
ADDRESSES = ["127.0.0.1:9", "127.0.0.1", "256.0.0.1:9", "1.2.3.4:0", "01.2.3.4:5", "1.2.3.4:65536"]


def breaks(rule: str) -> Callable[[Break], Break]:
    def kept(way: Break) -> Break:
        BREAKS.setdefault(rule, []).append(way)
        return way

    return kept


def boards_of(document: Table) -> list[Table]:
    boards = document.get("board")
    return [each for each in boards if isinstance(each, dict)] if isinstance(boards, list) else []


def board_of(draw: random.Random, document: Table) -> Table:
    return draw.choice(boards_of(document) or [{}])


def nodes_of(document: Table) -> list[Table]:
    """All nodes of all tables, in preorder."""
    found: list[Table] = []

    def visit(nodes: Any) -> None:
        for node in nodes if isinstance(nodes, list) else []:
            if isinstance(node, dict):
                found.append(node)
                visit(node.get("nodes"))

    tables = document.get("tables")
    for table in tables.values() if isinstance(tables, dict) else []:
        visit(table)
    return found


def node_of(draw: random.Random, document: Table) -> Table:
    return draw.choice(nodes_of(document) or [{}])


def main_of(document: Table) -> list[Any]:
    """The nodes of the table that boards have; a list of no table where that is none."""
    tables = document.get("tables")
    main = tables.get("main") if isinstance(tables, dict) else None
    return main if isinstance(main, list) else []


# ---- the document


@breaks("document Shape")
def another_value(draw: random.Random, document: Table) -> None:
    """The value of some key is another one."""
    place = draw.choice([document, document, *boards_of(document) * 3, *ranges_of(document), *clients_of(document)])
    keys = [key for key in place if key not in ("tables", "policy", "state")]
    if keys:
        place[draw.choice(keys)] = copy.deepcopy(draw.choice([*STRANGE, *BAD_NUMBERS]))


@breaks("document Shape")
def another_key(draw: random.Random, document: Table) -> None:
    place = draw.choice([document, document, *boards_of(document) * 3, *ranges_of(document), *clients_of(document)])
    place[draw.choice(KEYS)] = copy.deepcopy(draw.choice([*STRANGE, *BAD_NUMBERS, "sim", "rw"]))


@breaks("document Shape")
def a_key_less(draw: random.Random, document: Table) -> None:
    place = draw.choice([*boards_of(document), *ranges_of(document), *clients_of(document), {}])
    needed = [key for key in ("name", "table", "base", "size", "script", "address") if key in place]
    if needed:
        del place[draw.choice(needed)]


@breaks("document Shape")
def an_item(draw: random.Random, document: Table) -> None:
    """An item of an array is of another kind."""
    places = [document, *boards_of(document), *ranges_of(document), *clients_of(document)]
    keys = ("board", "client", "ranges", "init", "script")
    arrays = [each[key] for each in places for key in keys if isinstance(each.get(key), list)]
    if arrays:
        array = draw.choice(arrays)
        array.insert(draw.randint(0, len(array)), copy.deepcopy(draw.choice(STRANGE)))


@breaks("document Shape")
def of_the_other_link(draw: random.Random, document: Table) -> None:
    board = board_of(draw, document)
    board["link"] = draw.choice(["udp", "udp", "sim", "tcp", 1])
    if draw.randrange(2):
        board["address"] = draw.choice(ADDRESSES)


@breaks("document Shape")
def noise_beside_fates(draw: random.Random, document: Table) -> None:
    board = board_of(draw, document)
    board["noise"], board["fates"] = 7, draw.choice(["", "d", "dl", "x"])


@breaks("document Shape")
def name_of_a_table(draw: random.Random, document: Table) -> None:
    if isinstance(document.get("tables"), dict):
        document["tables"][draw.choice(BAD_IDS)] = []


def ranges_of(document: Table) -> list[Table]:
    found = [each for board in boards_of(document) for each in as_list(board.get("ranges"))]
    return [each for each in found if isinstance(each, dict)]


def clients_of(document: Table) -> list[Table]:
    return [each for each in as_list(document.get("client")) if isinstance(each, dict)]


def as_list(value: Any) -> list[Any]:
    return value if isinstance(value, list) else []


@breaks("document NoBoards")
def no_boards(draw: random.Random, document: Table) -> None:
    document["board"] = []
    if draw.randrange(2):
        del document["board"]


@breaks("document ManyBoards")
def many_boards(draw: random.Random, document: Table) -> None:
    first = (boards_of(document) or [{"name": "b0", "table": "main"}])[0]
    document["board"] = [{**first, "name": f"b{place}"} for place in range(draw.choice([16, 17, 17, 20]))]


@breaks("document ManyClients")
def many_clients(draw: random.Random, document: Table) -> None:
    document["client"] = [{"script": []} for _ in range(draw.choice([64, 65, 65, 70]))]


@breaks("document DuplicateBoard")
def two_boards_of_a_name(draw: random.Random, document: Table) -> None:
    boards = boards_of(document)
    for board in draw.sample(boards, min(len(boards), draw.randint(1, 2))):
        as_list(document["board"]).append(dict(board))


# ---- tables


def at_a_node(rule: str, key: str, values: list[Any]) -> None:
    """A node has one of these values under a key."""

    def way(draw: random.Random, document: Table) -> None:
        node_of(draw, document)[key] = copy.deepcopy(draw.choice(values))

    BREAKS.setdefault(f"table {rule}", []).append(way)


for _key in ("id", "permission", "mode", "module", "tags", "description"):
    at_a_node("Shape", _key, [1, Raw("1.0"), [], {}, Raw("true")])
at_a_node("Shape", "nodes", [1, "x", {}, {"id": "a"}])
at_a_node("Shape", "nodes", [[1], ["x"], [[]]])
for _key in ("x", "Id", "count", "stride", "address ", "policy"):
    at_a_node("UnknownKey", _key, [1, "x"])
at_a_node("BadId", "id", BAD_IDS)
for _key in ("address", "mask", "size", "count", "stride"):
    at_a_node("BadNumber", _key, [*STRANGE, Raw("0x100000000")])
at_a_node("BadMask", "mask", [0, "0", "0x0", "0000000000"])
at_a_node("BadPermission", "permission", ["", "x", "RW", "r w", "rwr", "writ"])
at_a_node("BadMode", "mode", ["", "x", "Block", "non", "non_inc", "blocks"])
at_a_node("BadSize", "size", [0, 4_194_305, "0", WHOLE := 0xFFFFFFFF, 2])
at_a_node("BadCount", "count", [0, 65_537, WHOLE, "0"])
at_a_node("BadCount", "stride", [0, 1, "0"])


@breaks("table Shape")
def module_and_nodes(draw: random.Random, document: Table) -> None:
    node_of(draw, document).update(module="group", nodes=[])


@breaks("table Shape")
def a_table_of_another_kind(draw: random.Random, document: Table) -> None:
    if isinstance(document.get("tables"), dict):
        name = draw.choice(["main", "other", "A"])
        document["tables"][name] = copy.deepcopy(draw.choice([1, "x", {}, {"id": "a"}, [1]]))


@breaks("table MissingId")
def no_id(draw: random.Random, document: Table) -> None:
    node_of(draw, document).pop("id", None)


@breaks("table BadMode")
def a_block_under_a_mask(draw: random.Random, document: Table) -> None:
    node, mode = node_of(draw, document), draw.choice(["block", "port", "inc", "non-inc"])
    node.update(mode=mode, mask=draw.choice([1, "0xfffffffe"]))


# ---- compiling


@breaks("compile UnknownModule")
def unknown_module(draw: random.Random, document: Table) -> None:
    node = node_of(draw, document)
    node.pop("nodes", None)
    node["module"] = draw.choice(["none", "", "Main", "board"])


@breaks("compile UnknownModule")
def unknown_root(draw: random.Random, document: Table) -> None:
    board_of(draw, document)["table"] = draw.choice(["none", "", "Main", "a b"])


@breaks("compile ModuleCycle")
def module_cycle(draw: random.Random, document: Table) -> None:
    node = node_of(draw, document)
    node.pop("nodes", None)
    node["module"] = draw.choice(["main", "group", "spare"])


@breaks("compile ModuleCycle")
def cycle_of_two(draw: random.Random, document: Table) -> None:
    tables = document.get("tables")
    if isinstance(tables, dict):
        one, other = draw.choice([("left", "right"), ("z0", "z1"), ("A", "B")])
        tables[one] = [{"id": "a", "module": other}]
        tables[other] = [{"id": "a", "nodes": [{"id": "b", "module": one}]}]


@breaks("compile TooDeep")
def too_deep(draw: random.Random, document: Table) -> None:
    node: Table = {"id": "bottom"}
    for depth in range(draw.choice([15, 16, 16, 20])):
        node = {"id": f"d{depth}", "nodes": [node]}
    put_node(draw, document, node)


def put_node(draw: random.Random, document: Table, node: Table) -> None:
    """A node more in the main table."""
    main = main_of(document)
    main.insert(draw.randint(0, len(main)), node)


@breaks("compile Duplicate")
def two_of_an_id(draw: random.Random, document: Table) -> None:
    lists = [main_of(document)] + [node["nodes"] for node in nodes_of(document) if isinstance(node.get("nodes"), list)]
    nodes = draw.choice([each for each in lists if each] or [[{}]])
    node = dict(draw.choice([each for each in nodes if isinstance(each, dict)] or [{}]))
    nodes.insert(draw.randint(0, len(nodes)), node)


@breaks("compile AddressPastEnd")
def past_the_end(draw: random.Random, document: Table) -> None:
    node_of(draw, document)["address"] = draw.choice([0xFFFFFFFF, "0xfffffff8", 0xFFFFFF00])


@breaks("compile AddressPastEnd")
def a_block_past_the_end(draw: random.Random, document: Table) -> None:
    size = draw.choice([1, 2, 2, 16])
    put_node(draw, document, {"id": "end", "address": 0xFFFFFFFF, "mode": draw.choice(["block", "port"]), "size": size})


@breaks("compile AddressPastEnd")
def one_word_past_the_end(draw: random.Random, document: Table) -> None:
    """A block, a node below another one or the second of an array has the address 0x100000000."""
    more = draw.choice([{"mode": "block", "size": 2}, {"nodes": [{"id": "a", "address": 1}]}, {"count": 2}])
    if "count" in more:
        document["format"] = 2
    put_node(draw, document, {"id": "end", "address": 0xFFFFFFFF, **more})


@breaks("compile TooMany")
def too_many_names(draw: random.Random, document: Table) -> None:
    document["format"] = 2
    nodes = [{"id": "c"}] if draw.randrange(2) else []
    put_node(draw, document, {"id": "many", "count": 65_536 >> len(nodes), "nodes": nodes})


# ---- ranges


def at_a_range(rule: str, ranges: list[Table]) -> None:
    """A board has these ranges beside its own, or in their place."""

    def way(draw: random.Random, document: Table) -> None:
        board = board_of(draw, document)
        own = as_list(board.get("ranges")) if draw.randrange(2) else []
        board["ranges"] = [*own, *copy.deepcopy(ranges)]
        draw.shuffle(board["ranges"])

    BREAKS.setdefault(f"board {rule}", []).append(way)


at_a_range("Empty", [{"base": 0x8000, "size": 0}])
at_a_range("Empty", [{"base": 0, "size": 0, "init": [1]}])
at_a_range("PastEnd", [{"base": 0xFFFFFFFF, "size": 2}])
at_a_range("PastEnd", [{"base": "0xfffffff0", "size": "0x11", "init": [1, 2]}])
at_a_range("PastEnd", [{"base": 1, "size": 0xFFFFFFFF, "kind": "ro"}, {"base": 0, "size": 1}])
at_a_range("Overlap", [{"base": 0x9000, "size": 4}, {"base": 0x9003, "size": 1}])
at_a_range("Overlap", [{"base": 0, "size": 1}])
at_a_range("Overlap", [{"base": 0x9000, "size": 40}, {"base": 0x9003, "size": 1}, {"base": 0x9010, "size": 1}])
at_a_range("TooLarge", [{"base": 0x100000, "size": 4_194_305}])
at_a_range("TooLarge", [{"base": 0x100000, "size": 4_194_304}, {"base": 0xFFFFFFFF, "size": 1}])
at_a_range("InitLong", [{"base": 0xA000, "size": 2, "init": [1, 2, 3]}])
at_a_range("InitLong", [{"base": 0xA000, "size": 1, "init": [0, "0"]}, {"base": 0xA001, "size": 1, "init": [1]}])
