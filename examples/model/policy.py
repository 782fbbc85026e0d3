"""The access policy of a session document: which of its rules decides what a client may do with a register.

Nothing here is taken from the program. `fault_of` tells where a policy breaks a rule of the formats, and `is_told`
whether that was refused; all else takes a policy that breaks none.
"""
import re

MOST_RULES = 1024
MOST_CLIENTS = 64
MOST_INDEX = 65_535
ID = r"[A-Za-z0-9_-]{1,64}"
INDEX = r"0|[1-9][0-9]{0,4}"
# an id of a name or of a pattern, and what stands in its brackets
ITEM = re.compile(rf"({ID})(?:\[({INDEX}|\*)\])?")
NUMBER = re.compile(r"[0-9]{1,10}|0x[0-9A-Fa-f]{1,8}")
NEEDED = ("access", "effect", "name")
# what an operation needs, in the order in which it is asked for
NEEDS = {"read": "r", "write": "w", "readblock": "r", "writeblock": "w", "rmwbits": "rw", "rmwsum": "rw"}


def is_item(text):
    found = ITEM.fullmatch(text)
    return bool(found) and (found[2] in (None, "*") or int(found[2]) <= MOST_INDEX)


def is_pattern(text):
    """A board's name or `*`, a colon, and items with dots between them, of which the last may be `**`."""
    board, colon, name = text.partition(":")
    *items, last = name.split(".")
    is_board = board == "*" or re.fullmatch(ID, board)
    are_items = all(item == "*" or is_item(item) for item in items)
    return bool(colon and is_board and are_items and (last in ("*", "**") or is_item(last)))


def is_client(value):
    if isinstance(value, str) and NUMBER.fullmatch(value):
        value = int(value, 16 if value.startswith("0x") else 10)
    return type(value) is int and 1 <= value <= MOST_CLIENTS


# the keys of a rule, and whether a value is right for them
KEYS = {
    "access": lambda value: value in ("r", "w", "rw"),
    "client": is_client,
    "effect": lambda value: value in ("allow", "deny"),
    "name": lambda value: isinstance(value, str) and is_pattern(value),
}


def fault_of_rule(rule):
    """The key of the first fault of a rule, in byte order those that are there and then those that are missing; an
    empty text where it is no table, and None where it has no fault."""
    if not isinstance(rule, dict):
        return ""
    for key in sorted(rule, key=str.encode):
        if key not in KEYS or not KEYS[key](rule[key]):
            return key
    return next((key for key in NEEDED if key not in rule), None)


def fault_of(policy):
    """The path of the first fault of a policy as a refusal prints it, or None."""
    if not isinstance(policy, list) or len(policy) > MOST_RULES:
        return "-"
    for place, rule in enumerate(policy):
        key = fault_of_rule(rule)
        if key is not None:
            return f"{place}.{key}" if key else f"{place}"
    return None


def is_told(document, text):
    """Whether what a command printed goes with the policy of a document: it refuses the first fault of that, unless a
    rule that comes before was broken, and no policy without a fault for its shape."""
    if text.startswith((b"refused: document ", b"refused: table ")):
        return True
    fault = fault_of(document["policy"]) if "policy" in document else None
    if fault is None:
        return not re.match(rb"refused: policy .* Shape\n", text)
    return text == f"refused: policy {fault} Shape\n".encode()


def item_matches(item, part):
    """Whether an item of a pattern, which is not `**`, matches one id of a name with the index that it may have."""
    if item == "*":
        return True
    wanted, wanted_index = ITEM.fullmatch(item).groups()
    given, index = ITEM.fullmatch(part).groups()
    if wanted_index == "*":
        return wanted == given and index is not None
    return (wanted, wanted_index) == (given, index)


class Rule:
    """A rule by its number from 1."""

    def __init__(self, number, table):
        self.number = number
        self.allows = table["effect"] == "allow"
        self.access = table["access"]
        self.pattern = table["name"]
        client = table.get("client")
        self.client = int(client, 0 if "x" in client else 10) if isinstance(client, str) else client
        self.board, _, name = self.pattern.partition(":")
        self.items = name.split(".")

    @property
    def text(self):
        """The rule in one line."""
        behind = "" if self.client is None else f" client {self.client}"
        return f"{'allow' if self.allows else 'deny'} {self.access} {self.pattern}{behind}"

    def matches(self, board, name):
        """Whether its pattern matches a register of a board."""
        if self.board not in ("*", board):
            return False
        parts = name.split(".")
        items = self.items
        if items[-1] == "**":
            items = items[:-1]
            if len(parts) <= len(items):
                return False
        elif len(parts) != len(items):
            return False
        return all(item_matches(item, part) for item, part in zip(items, parts))

    def decides(self, client, board, name, access):
        is_client = self.client in (None, client)
        return is_client and access in self.access and self.matches(board, name)


class Policy:
    def __init__(self, rules):
        self.rules = [Rule(number, table) for number, table in enumerate(rules, 1)]
        self.known = {}

    def denial_of(self, *asked):
        """The number of the rule that denies a client one access to a register of a board, 0 where no rule decides, or
        None where it is allowed."""
        if asked not in self.known:
            first = next((rule for rule in self.rules if rule.decides(*asked)), None)
            denied = first.number if first else 0
            self.known[asked] = None if first and first.allows else denied
        return self.known[asked]

    def denial(self, client, board, name, verb):
        """The same of an operation: each access that it needs has to be allowed, and reading is asked for first."""
        denials = [self.denial_of(client, board, name, access) for access in NEEDS[verb]]
        return next((denial for denial in denials if denial is not None), None)
