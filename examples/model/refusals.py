"""The line by which a command refuses its session document, or that it takes it, from `docs/FORMATS.md` alone.

Nothing here is taken from the program. The rules stand in the order in which they are tried: the first that is broken is
told, whatever else is broken behind it.
"""
import re
import tomllib

from model.compiled import Refused, compiled
from model.configuration import Configuration, byte_order
from model.document_faults import document_fault
from model.policy import fault_of
from model.script_faults import script_fault
from model.session import number
from model.table_faults import table_fault

MOST_BYTES = 16_777_216
MOST_RANGE_WORDS = 4_194_304
END = 1 << 32
# arrays and inline tables in one another, and the parts of a key
MOST_LEVELS = MOST_PARTS = 80
TEXT = re.compile(r'''"""(?:\\.|[^\\])*?"""|'{3}.*?'{3}|"(?:\\.|[^"\\\n])*"|'[^'\n]*'|#[^\n]*''', re.DOTALL)
LONG_KEY = re.compile(rf"(?<![\w-])(?:[\w-]+\s*\.\s*){{{MOST_PARTS}}}[\w-]")


def is_too_deep(text):
    """Whether a text of TOML has more levels, or a key of more parts, than are read."""
    plain = TEXT.sub("x", text)
    depth = 0
    for sign in re.findall(r"[\[\]{}]", plain):
        depth += 1 if sign in "[{" else -1
        if depth > MOST_LEVELS:
            return True
    return bool(LONG_KEY.search(plain))


def ranges_fault(board):
    """The rule that the ranges of a board break, or None."""
    ranges = [(number(each["base"]), number(each["size"]), len(each.get("init", []))) for each in board.get("ranges", [])]
    in_order = sorted((base, base + size) for base, size, _ in ranges)
    broken = {
        "Empty": any(size == 0 for _, size, _ in ranges),
        "PastEnd": any(base + size > END for base, size, _ in ranges),
        "Overlap": any(one[1] > other[0] for one, other in zip(in_order, in_order[1:])),
        "TooLarge": sum(size for _, size, _ in ranges) > MOST_RANGE_WORDS,
        "InitLong": any(words > size for _, size, words in ranges),
    }
    return next((rule for rule, is_broken in broken.items() if is_broken), None)


class Document:
    """A document and the command that reads it, with the table that `check` lists."""

    def __init__(self, command, data, root=None):
        self.command = command
        self.data = data
        self.root = root
        self.value = None
        self.indexes = {}

    def refusal(self):
        """The line, or None."""
        steps = (self.form, self.tables, self.policy, self.kind, self.compile, self.ranges, self.state, self.scripts)
        return next((line for line in (step() for step in steps) if line), None)

    def form(self):
        if len(self.data) > MOST_BYTES:
            return "refused: document - TooLong"
        try:
            text = self.data.decode()
            self.value = tomllib.loads(text)
        except (ValueError, RecursionError):
            return "refused: document - NotToml"
        if is_too_deep(text):
            return "refused: document - NotToml"
        fault = document_fault(self.value, self.command == "apply")
        return fault and f"refused: document {fault[0]} {fault[1]}"

    def tables(self):
        tables = self.value.get("tables", {})
        for name in byte_order(tables):
            fault = table_fault(tables[name], number(self.value.get("format", 1)))
            if fault:
                return f"refused: table {name} {fault[0]} {fault[1]}"
        return None

    def policy(self):
        if "policy" not in self.value:
            return None
        fault = fault_of(self.value["policy"])
        return fault and f"refused: policy {fault} Shape"

    def kind(self):
        """What `serve` and `record` do not take."""
        if self.command == "serve" and "policy" in self.value:
            return "refused: policy - NoServe"
        if self.command != "record":
            return None
        first, *others = self.value["board"]
        if others:
            return "refused: document - OneBoard"
        return f"refused: board {first['name']} NotSim" if first.get("link") == "udp" else None

    def compile(self):
        roots = [self.root] if self.command == "check" else [board["table"] for board in self.value["board"]]
        for root in dict.fromkeys(roots):
            try:
                self.indexes[root] = compiled(self.value.get("tables", {}), root)
            except Refused as refused:
                return "refused: compile {} {} {}".format(*refused.told)
        return None

    def ranges(self):
        if self.command == "check":
            return None
        for board in self.value["board"]:
            fault = ranges_fault(board)
            if not fault and self.command == "audit" and board.get("link") == "udp":
                fault = "NotSim"
            if fault:
                return f"refused: board {board['name']} {fault}"
        return None

    def state(self):
        if self.command not in ("save", "apply"):
            return None
        line = Configuration(self.data, self.command).refusal()
        return line and line.removesuffix("\n")

    def scripts(self):
        if self.command == "check":
            return None
        boards = {board["name"]: self.indexes[board["table"]] for board in self.value["board"]}
        fault = script_fault([client["script"] for client in self.value.get("client", [])], boards)
        return fault and "refused: script {} {} {}".format(*fault)


def refusal(command, data, root=None):
    """The line by which a command refuses a document, or None."""
    return Document(command, data, root).refusal()
