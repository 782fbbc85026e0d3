"""The first fault of a session document's own form, from `docs/FORMATS.md` alone: what no register table, no policy, no
range, no state and no script has to do with. A document is the value that TOML makes of it.

A judge takes a value and gives None where it is right, and else the path of its first fault below it: a tuple of keys
and positions, empty for the value itself.
"""
import re

from model.configuration import byte_order, is_number
from model.policy import ID
from model.session import WHOLE, number

MOST_BOARDS, MOST_CLIENTS = 16, 64
BYTE = r"(?:0|[1-9][0-9]?|1[0-9][0-9]|2[0-4][0-9]|25[0-5])"
ADDRESS = re.compile(rf"{BYTE}(?:\.{BYTE}){{3}}:([1-9][0-9]{{0,4}})")


def only(test):
    """The judge of a value without parts."""
    return lambda value: None if test(value) else ()


def numbers(low, high):
    return only(lambda value: is_number(value) and low <= number(value) <= high)


def one_of(*texts):
    return only(lambda value: isinstance(value, str) and value in texts)


def is_text(value):
    return isinstance(value, str)


def is_address(value):
    found = ADDRESS.fullmatch(value) if isinstance(value, str) else None
    return bool(found) and int(found[1]) <= 65_535


def array_of(judge):
    def judged(value):
        if not isinstance(value, list):
            return ()
        faults = ((place, judge(each)) for place, each in enumerate(value))
        return next(((str(place), *fault) for place, fault in faults if fault is not None), None)

    return judged


def table_of(keys, needed=()):
    """The judge of a table: the keys that are there in byte order, and then those that are missing."""

    def judged(value):
        if not isinstance(value, dict):
            return ()
        for key in byte_order(value):
            fault = keys[key](value[key]) if key in keys else ()
            if fault is not None:
                return (key, *fault)
        return next(((key,) for key in byte_order(needed) if key not in value), None)

    return judged


def tables_fault(value):
    """The names of tables have to be ids. What they name is judged later."""
    if not isinstance(value, dict):
        return ()
    return next(((name,) for name in byte_order(value) if not re.fullmatch(ID, name)), None)


WORD = numbers(0, WHOLE)
RANGE = table_of(
    {"base": WORD, "size": WORD, "kind": one_of("rw", "ro", "wo", "slow"), "init": array_of(WORD)}, ("base", "size")
)
OF_BOARDS = {
    "name": only(lambda value: isinstance(value, str) and re.fullmatch(ID, value)),
    "table": only(is_text),
    "link": one_of("sim", "udp"),
}
OF_SIMULATED = {
    "mtu": numbers(92, 9000),
    "buffers": numbers(1, 64),
    "first": numbers(1, 65_535),
    "fates": only(lambda value: isinstance(value, str) and re.fullmatch("[dlr1-9]*", value)),
    "noise": WORD,
    "ranges": array_of(RANGE),
}
OF_UDP = {"address": only(is_address), "wait": numbers(1, 10_000)}


def board_fault(value):
    """The keys of a board are those of its link; where that is not right, those of a simulated one."""
    if not isinstance(value, dict):
        return ()
    if value.get("link") == "udp":
        return table_of({**OF_BOARDS, **OF_UDP}, ("name", "table", "address"))(value)
    keys = {**OF_BOARDS, **OF_SIMULATED}
    if "fates" in value:
        keys["noise"] = only(lambda _: False)
    return table_of(keys, ("name", "table"))(value)


CLIENT = table_of({"script": array_of(only(is_text))}, ("script",))
LATER = only(lambda _: True)
DOCUMENT = {
    "format": numbers(1, 2),
    "rounds": numbers(1, 255),
    "window": numbers(1, 16),
    "tables": tables_fault,
    "board": array_of(board_fault),
    "client": array_of(CLIENT),
    "policy": LATER,
}


def shape_fault(document, has_state):
    """The path of the first place without a right value, or None."""
    keys = {**DOCUMENT, "state": LATER} if has_state else DOCUMENT
    path = table_of(keys)(document)
    return None if path is None else ".".join(path)


def document_fault(document, has_state=False):
    """The path and the rule of the first fault, or None. A state is a part of documents for `apply` alone."""
    path = shape_fault(document, has_state)
    if path is not None:
        return path, "Shape"
    boards, clients = document.get("board", []), document.get("client", [])
    if not boards:
        return "-", "NoBoards"
    if len(boards) > MOST_BOARDS:
        return "-", "ManyBoards"
    if len(clients) > MOST_CLIENTS:
        return "-", "ManyClients"
    names = [board["name"] for board in boards]
    later = next((place for place, name in enumerate(names) if name in names[:place]), None)
    return None if later is None else (f"board.{later}.name", "DuplicateBoard")
