"""A session document that is not refused, as the formats say: its boards, and what each client asks of each of them.

Nothing here is taken from the program. A document that `ipbus` refuses may be read here or end in any exception.
"""
import bisect
import re
import tomllib

from model.policy import Policy

READ, WRITE, READ_PORT, WRITE_PORT, RMW_BITS, RMW_SUM = range(6)
WHOLE = 0xFFFFFFFF
GREATEST_PIECE = 255
# names of a register table; a document with more is refused, and is not read here
MOST_NAMES = 65_536


def number(value):
    """A TOML integer, or a text in decimal digits or in hexadecimal ones behind 0x."""
    if isinstance(value, int):
        return value
    return int(value[2:], 16) if value[:2] == "0x" else int(value)


class Register:
    def __init__(self, node, address):
        self.address = address
        self.mask = number(node.get("mask", WHOLE))
        self.is_port = node.get("mode") in ("port", "non-incremental", "non-inc")
        is_word = node.get("mode", "single") == "single"
        # one word that is read and written
        self.is_rw_word = is_word and node.get("permission", "rw") in ("rw", "wr", "readwrite", "writeread")

    @property
    def shift(self):
        """The number of zeros below the lowest bit of the mask."""
        return (self.mask & -self.mask).bit_length() - 1


def places_of(node):
    """The id of a node at each of its indexes, and how many words that stands from the node's address."""
    if "count" not in node:
        return [(node["id"], 0)]
    stride = number(node.get("stride", 1))
    return ((f"{node['id']}[{i}]", i * stride) for i in range(number(node["count"])))


def registers_of(tables, nodes, prefix="", base=0):
    """All registers below these nodes by their dotted names."""
    found = {}
    for node in nodes:
        below = tables[node["module"]] if "module" in node else node.get("nodes", [])
        for id_at, offset in places_of(node):
            address = base + number(node.get("address", 0)) + offset
            found[prefix + id_at] = Register(node, address)
            found.update(registers_of(tables, below, prefix + id_at + ".", address))
            if len(found) > MOST_NAMES:
                raise ValueError(f"a table has more than {MOST_NAMES} names")
    return found


class Board:
    def __init__(self, table, tables):
        self.name = table["name"]
        self.registers = registers_of(tables, tables[table["table"]])
        self.mtu = number(table.get("mtu", 1500))
        self.buffers = number(table.get("buffers", 16))
        self.first = number(table.get("first", 1))
        self.ranges = [
            (number(r["base"]), number(r["size"]), r.get("kind", "rw"), [number(word) for word in r.get("init", [])])
            for r in table.get("ranges", [])
        ]
        self.fates = table.get("fates", "")
        self.noise = number(table["noise"]) if "noise" in table else None
        self.is_on_network = table.get("link") == "udp"

    @property
    def payload(self):
        """The words of a packet, its header included."""
        return (self.mtu - 28) // 4


class Request:
    """One transaction: its kind, its address, how many words, and the words that go with it."""

    def __init__(self, kind, address, count, words=()):
        self.kind = kind
        self.address = address
        self.count = count
        self.words = words

    @property
    def length(self):
        return 2 + len(self.words)

    @property
    def reply_length(self):
        return 1 if self.kind in (WRITE, WRITE_PORT) else 1 + self.count


class Operation:
    """What one line of a script asks of a board. `pieces` are the body and the position there, from 0, of each of
    its requests; bodies are those of its client on its board, counted from 0 through all dispatches. `denied_by` is the
    number of the rule that denies it, 0 where no rule allows it, and None where it is allowed: what is denied is in no
    body."""

    def __init__(self, number, verb, board, name, register, requests, denied_by):
        self.number = number
        self.denied_by = denied_by
        self.verb = verb
        self.board = board
        self.name = name
        self.register = register
        self.requests = requests
        self.pieces = []

    def shown(self, words):
        """What a line shows of the words that were read: a field of a register is shifted down."""
        if self.verb == "read":
            return [(word & self.register.mask) >> self.register.shift for word in words]
        return words


def block_requests(register, payload, count, words):
    """The pieces of a block: of as many words as fit a transaction and a packet, the last one shorter."""
    greatest = min(GREATEST_PIECE, payload - (2 if words is None else 3))
    requests = []
    for start in range(0, count, greatest):
        size = min(greatest, count - start)
        address = register.address if register.is_port else register.address + start
        if words is None:
            requests.append(Request(READ_PORT if register.is_port else READ, address, size))
        else:
            kind = WRITE_PORT if register.is_port else WRITE
            requests.append(Request(kind, address, size, words[start : start + size]))
    return requests


def requests_of(verb, register, numbers, payload):
    """The transactions of an operation with these numbers behind its register."""
    address = register.address
    if verb == "read":
        return [Request(READ, address, 1)]
    if verb == "write" and register.mask == WHOLE:
        return [Request(WRITE, address, 1, numbers)]
    if verb == "write":
        terms = [WHOLE & ~register.mask, numbers[0] << register.shift]
        return [Request(RMW_BITS, address, 1, terms)]
    if verb == "readblock":
        return block_requests(register, payload, numbers[0], None)
    if verb == "writeblock":
        return block_requests(register, payload, len(numbers), numbers)
    kinds = {"rmwbits": RMW_BITS, "rmwsum": RMW_SUM}
    return [Request(kinds[verb], address, 1, numbers)]


def pack(operations, payload, bodies):
    """Puts the requests of one dispatch on one board into new bodies behind these: each request goes into the last
    one where that and the longest reply to it stay within a packet, and else begins the next one."""
    room = payload - 1
    length = reply_length = room + 1
    for operation in operations:
        for request in operation.requests:
            length += request.length
            reply_length += request.reply_length
            if length > room or reply_length > room:
                bodies.append([])
                length, reply_length = request.length, request.reply_length
            operation.pieces.append((len(bodies) - 1, len(bodies[-1])))
            bodies[-1].append(request)


class Client:
    """The operations of one script in its order, under the policy of the session, if it has one. `bodies` and
    `dispatches` have an item for each board: the bodies that are asked of it, and for each dispatch the numbers of its
    bodies there."""

    def __init__(self, script, boards, number, policy):
        self.number = number
        self.policy = policy
        self.operations = []
        self.bodies = [[] for _ in boards]
        self.dispatches = [[] for _ in boards]
        begin = 0
        for line in [*script, "dispatch"]:
            words = re.split("[ \t]+", line.strip(" \t"))
            if words == ["dispatch"]:
                self.dispatch(boards, self.operations[begin:])
                begin = len(self.operations)
            elif words != [""] and not words[0].startswith("#"):
                self.ask(boards, *words)

    def ask(self, boards, verb, register, *numbers):
        board_name, name = register.split(":", 1)
        place = [board.name for board in boards].index(board_name)
        board = boards[place]
        found = board.registers[name]
        requests = requests_of(verb, found, [number(text) for text in numbers], board.payload)
        denied_by = self.policy.denial(self.number, board_name, name, verb) if self.policy else None
        self.operations.append(Operation(len(self.operations) + 1, verb, place, name, found, requests, denied_by))

    def dispatch(self, boards, operations):
        for place, board in enumerate(boards):
            before = len(self.bodies[place])
            asked = [each for each in operations if each.board == place and each.denied_by is None]
            pack(asked, board.payload, self.bodies[place])
            self.dispatches[place].append(range(before, len(self.bodies[place])))


class Session:
    def __init__(self, data):
        document = tomllib.loads(data.decode())
        self.rounds = number(document.get("rounds", 8))
        self.window = number(document.get("window", 16))
        tables = document.get("tables", {})
        self.boards = [Board(table, tables) for table in document.get("board", [])]
        self.policy = Policy(document["policy"]) if "policy" in document else None
        self.scripts = [client["script"] for client in document.get("client", [])]
        self.plan()

    def plan(self):
        """Packs what the scripts ask into bodies, by the MTU that each board has now."""
        scripts = enumerate(self.scripts, 1)
        self.clients = [Client(script, self.boards, number, self.policy) for number, script in scripts]

    def shared_boards(self):
        """The names of boards that several clients use: the order of their packets there is that of the threads."""
        users = [sum(bool(client.bodies[place]) for client in self.clients) for place in range(len(self.boards))]
        return {board.name for board, count in zip(self.boards, users) if count > 1}


class Bus:
    """The words of a board's ranges. A body is answered by one answer for each request that was executed, the words
    that were read or None and, where it failed, the info code and how many words were done before."""

    def __init__(self, ranges):
        self.ranges = sorted(ranges)
        self.bases = [each[0] for each in self.ranges]
        self.written = {}

    def kind_at(self, address):
        place = bisect.bisect_right(self.bases, address) - 1
        if place < 0 or address >= self.bases[place] + self.ranges[place][1]:
            return "absent", None
        return self.ranges[place][2], place

    def read(self, address):
        """The word and 0, or None and the code of the fault."""
        kind, place = self.kind_at(address)
        if kind in ("absent", "wo"):
            return None, 4
        if kind == "slow":
            return None, 6
        if address in self.written:
            return self.written[address], 0
        base, _, _, init = self.ranges[place]
        return (init[address - base] if address - base < len(init) else 0), 0

    def write(self, address, word):
        """0, or the code of the fault."""
        kind, _ = self.kind_at(address)
        if kind in ("absent", "ro"):
            return 5
        if kind == "slow":
            return 7
        self.written[address] = word
        return 0

    def change(self, request):
        """A read-modify-write: the word before and the code."""
        word, code = self.read(request.address)
        if code:
            return None, code
        if request.kind == RMW_BITS:
            changed = word & request.words[0] | request.words[1]
        else:
            changed = (word + request.words[0]) & WHOLE
        return word, self.write(request.address, changed)

    def access(self, request, done):
        """The access of a request after as many were done."""
        if request.kind in (RMW_BITS, RMW_SUM):
            return self.change(request)
        is_port = request.kind in (READ_PORT, WRITE_PORT)
        address = request.address if is_port else request.address + done
        if request.kind in (READ, READ_PORT):
            return self.read(address)
        return None, self.write(address, request.words[done])

    def execute(self, body):
        answers = []
        for request in body:
            words = []
            code = 0
            while code == 0 and len(words) < request.count:
                word, code = self.access(request, len(words))
                if code == 0:
                    words.append(word)
            answers.append((words, code))
            if code:
                break
        return answers
