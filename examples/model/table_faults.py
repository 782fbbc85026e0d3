"""The first fault of a register table, from `docs/FORMATS.md` alone. A table is the value that TOML makes of it."""
import re

from model.configuration import is_number
from model.policy import ID
from model.session import WHOLE, number

TEXTS = ("id", "permission", "mode", "module", "tags", "description")
NUMBERS = ("address", "mask", "size")
OF_ARRAYS = ("count", "stride")
PERMISSIONS = {"r": "r", "read": "r", "w": "w", "write": "w"}
PERMISSIONS |= dict.fromkeys(("rw", "wr", "readwrite", "writeread"), "rw")
MODES = {"single": "single", "hierarchical": "hierarchical"}
MODES |= dict.fromkeys(("block", "incremental", "inc"), "block")
MODES |= dict.fromkeys(("port", "non-incremental", "non-inc"), "port")
MOST_SIZE, MOST_COUNT = 4_194_304, 65_536


def has_shape(node):
    if not isinstance(node, dict):
        return False
    are_texts = all(isinstance(node.get(key, ""), str) for key in TEXTS)
    return are_texts and isinstance(node.get("nodes", []), list) and not ("module" in node and "nodes" in node)


def is_mode(node):
    mode = MODES.get(node.get("mode", "single"))
    return mode is not None and (mode in ("single", "hierarchical") or number(node.get("mask", WHOLE)) == WHOLE)


def is_size(node):
    size, is_word = number(node.get("size", 1)), MODES[node.get("mode", "single")] in ("single", "hierarchical")
    return size == 1 if is_word else 1 <= size <= MOST_SIZE


def is_count(node):
    if "count" not in node:
        return "stride" not in node
    return 1 <= number(node["count"]) <= MOST_COUNT and number(node.get("stride", 1)) >= 1


def rules(format):
    """The rules of a node in their order, each with a test whether a node keeps it that keeps those before."""
    of_arrays = OF_ARRAYS if format == 2 else ()
    keys = {*TEXTS, *NUMBERS, *of_arrays, "nodes"}
    return {
        "Shape": has_shape,
        "UnknownKey": lambda node: keys.issuperset(node),
        "MissingId": lambda node: "id" in node,
        "BadId": lambda node: re.fullmatch(ID, node["id"]),
        "BadNumber": lambda node: all(is_number(node.get(key, 0)) for key in (*NUMBERS, *of_arrays)),
        "BadMask": lambda node: number(node.get("mask", WHOLE)),
        "BadPermission": lambda node: node.get("permission", "rw") in PERMISSIONS,
        "BadMode": is_mode,
        "BadSize": is_size,
        "BadCount": is_count,
    }


def nodes_fault(nodes, judged, front=()):
    """The path and the rule of the first fault of nodes in preorder, or None."""
    for place, node in enumerate(nodes):
        path = (*front, str(place))
        broken = next((name for name, keeps in judged.items() if not keeps(node)), None)
        found = (path, broken) if broken else nodes_fault(node.get("nodes", []), judged, path)
        if found is not None:
            return found
    return None


def table_fault(table, format):
    """The path and the rule of the first fault of a table, as a refusal prints them, or None."""
    if not isinstance(table, list):
        return "-", "Shape"
    found = nodes_fault(table, rules(format))
    return None if found is None else (".".join(found[0]), found[1])
