"""The configuration of a session's boards: which registers are kept, what one client runs to save or apply it, and the
text of what that showed; and why a state is refused.

Nothing here is taken from the program. The session is one that is not refused before its configuration is judged.
"""
import tomllib

from model.policy import NUMBER
from model.session import WHOLE, Session, number
from model.transcript import result_of

MOST_KEPT = 50_000

# the rules on values, in the order in which they are judged
VALUE_RULES = ["UnknownBoard", "UnknownName", "NotKept", "BitsOutside"]


def byte_order(names):
    return sorted(names, key=str.encode)


def kept_of(board):
    """The names of a board's kept registers: those that are one word, are read and written, and have no other name below
    theirs."""
    above = set()
    for name in board.registers:
        parts = name.split(".")
        above.update(".".join(parts[:count]) for count in range(1, len(parts)))
    return byte_order(name for name, register in board.registers.items() if register.is_rw_word and name not in above)


def overlapping(board, kept):
    """The first kept register that shares a bit of a word with one before it, or None."""
    taken = {}
    for name in kept:
        register = board.registers[name]
        if taken.get(register.address, 0) & register.mask:
            return name
        taken[register.address] = taken.get(register.address, 0) | register.mask
    return None


def is_number(value):
    if isinstance(value, str) and NUMBER.fullmatch(value):
        value = int(value, 16 if value.startswith("0x") else 10)
    return type(value) is int and 0 <= value <= WHOLE


def shape_fault(state):
    """The board and the register of the first value that is none, empty where no one is meant, or None."""
    if not isinstance(state, dict):
        return "", ""
    for board in byte_order(state):
        if not isinstance(state[board], dict):
            return board, ""
        for name in byte_order(state[board]):
            if not is_number(state[board][name]):
                return board, name
    return None


def entries_of(state):
    """The values of a state, in byte order of the boards and then of the registers."""
    return [(board, name, number(state[board][name])) for board in byte_order(state) for name in byte_order(state[board])]


class Configuration(Session):
    """A session and what is done with its configuration: `save`, or `apply` of its state."""

    def __init__(self, data, command):
        super().__init__(data)
        self.applies = command == "apply"
        self.state = tomllib.loads(data.decode()).get("state") if self.applies else {}
        self.kept = {board.name: kept_of(board) for board in self.boards}

    def plan(self):
        """The session's own scripts are not run."""

    def entries(self):
        """The values that are written, in their order, as boards, names and values."""
        return entries_of(self.state)

    def entries_applied(self):
        """The same, or None where nothing is to be applied."""
        return self.entries() if self.applies else None

    def why(self, board_name, name, value):
        """The rule that a value breaks first, or None."""
        board = next((board for board in self.boards if board.name == board_name), None)
        if board is None:
            return "UnknownBoard"
        if name not in board.registers:
            return "UnknownName"
        if name not in self.kept[board_name]:
            return "NotKept"
        register = board.registers[name]
        return "BitsOutside" if (value << register.shift) & ~register.mask else None

    def fault(self):
        """The board, the register and the rule of the first fault of the configuration, or None."""
        shape = shape_fault(self.state)
        if shape is not None:
            return *shape, "Shape"
        for board in self.boards:
            name = overlapping(board, self.kept[board.name])
            if name is not None:
                return board.name, name, "Overlap"
        if sum(map(len, self.kept.values())) > MOST_KEPT:
            return "", "", "TooMany"
        return self.value_fault()

    def value_fault(self):
        """The board, the register and the rule of the first value that breaks the lowest rule that any breaks, or None."""
        faults = [(board, name, self.why(board, name, value)) for board, name, value in self.entries()]
        broken = [fault for fault in faults if fault[2] is not None]
        return min(broken, key=lambda fault: VALUE_RULES.index(fault[2]), default=None)

    def refusal(self):
        """The line of the refusal, or None."""
        fault = self.fault()
        return None if fault is None else f"refused: state {fault[0] or '-'} {fault[1] or '-'} {fault[2]}\n"

    def run(self):
        """Puts the script of the one client in place of the session's own."""
        reads = [f"read {board.name}:{name}" for board in self.boards for name in self.kept[board.name]]
        writes = [f"write {board}:{name} {value}" for board, name, value in self.entries()]
        self.scripts = [[*writes, "dispatch", *reads] if self.applies else reads]
        super().plan()


def configuration_text(session, runs):
    """The text and the status of a configuration, from what became of the bodies on each of its boards."""
    lines = {place: [] for place in range(len(session.boards))}
    status = 0
    for operation in session.clients[0].operations:
        result, is_good = result_of(operation, runs[operation.board].outcomes[0], session.rounds)
        status |= not is_good
        if operation.verb == "read":
            shown = f'"{operation.name}" {result}' if is_good else f'# "{operation.name}" {result}'
            lines[operation.board].append(shown)
    text = ""
    for place, board in enumerate(session.boards):
        text += "".join(line + "\n" for line in [f"[state.{board.name}]", *lines[place]])
    return text, int(status)


def told(data, command, run_session):
    """What `save` or `apply` prints of a document, and the status that goes with it."""
    session = Configuration(data, command)
    refusal = session.refusal()
    if refusal is not None:
        return refusal, 3
    session.run()
    return configuration_text(session, run_session(session))
