"""Sessions drawn at random, from a number: the same number draws the same session."""
import random

REGISTERS = """
tables.group = [
  { id = "ctrl", nodes = [ { id = "on", mask = 1 }, { id = "gain", mask = 0xf0 }, { id = "top", mask = 0x80000000 } ] },
  { id = "count", address = 1 },
  { id = "id", address = 2, permission = "r" },
  { id = "key", address = 3, permission = "w" },
  { id = "fifo", address = 4, mode = "port" },
  { id = "memory", address = 0x10, mode = "block", size = 700 },
]
tables.main = [
  { id = "low", module = "group", mode = "hierarchical" },
  { id = "high", module = "group", address = 0x1000, mode = "hierarchical" },
  { id = "unit", module = "group", address = 0x2000, mode = "hierarchical", count = 3, stride = 0x400 },
  { id = "slow", address = 0x8000 },
  { id = "absent", address = 0x9000 },
]
"""

# lines for the register groups; a line of a name behind them may fail on the bus
GROUPS = ["low", "high", "unit[0]", "unit[2]"]
LINES = [
  "read {group}.ctrl",
  "read {group}.ctrl.gain",
  "read {group}.ctrl.top",
  "read {group}.count",
  "read {group}.id",
  "read {group}.memory",
  "write {group}.ctrl.on {bit}",
  "write {group}.ctrl.gain {digit}",
  "write {group}.count {word}",
  "write {group}.key {word}",
  "rmwsum {group}.count {word}",
  "rmwbits {group}.ctrl {word} {word}",
  "readblock {group}.memory {few}",
  "readblock {group}.fifo {few}",
  "writeblock {group}.fifo {words}",
  "writeblock {group}.memory {words}",
  "dispatch",
]
RARE_LINES = [
  "readblock {group}.memory {many}",
  "writeblock {group}.memory {many_words}",
  "read slow",
  "write slow {word}",
  "read absent",
  "write absent {word}",
  "rmwsum absent 1",
]


# patterns of the rules of a policy, behind a board and a colon; and the rules that stand last in one
PATTERNS = """** {group}.** {group}.* {group}.ctrl {group}.ctrl.* {group}.ctrl.gain {group}.count {group}.memory *.count
*.ctrl.** *.ctrl.* *.*.on *.memory unit[*].** unit[*].fifo unit[0].* unit[1].** unit.** unit[2].count slow absent
none""".split()
LAST_RULES = [("allow", "rw"), ("allow", "rw"), ("allow", "rw"), ("allow", "r"), None]


# what befalls the datagrams of boards behind the first one; those of the first one always meet noise
NETWORKS = ["noise", "fates", "fates", ""]
# the fates of datagrams where much is lost or late, behind those of a greeting
LOSSES = ["dddl", "ddl5", "dl", "ddddr259l", "dl1379"]


class Draw:
    def __init__(self, name):
        self.random = random.Random(name)
        # that a session has a policy changes nothing else of it
        self.of_policy = random.Random(f"policy of {name}")

    def word(self):
        return f"0x{self.random.getrandbits(self.random.choice([1, 8, 32])):08x}"

    def words(self, count):
        return " ".join(self.word() for _ in range(count))

    def line(self, boards):
        """A line of a script, for one of these boards."""
        rare = self.random.random() < 0.02
        line = self.random.choice(RARE_LINES if rare else LINES)
        verb, _, rest = line.partition(" ")
        register, _, numbers = rest.partition(" ")
        many = self.random.randint(20, 700)
        numbers = numbers.replace("{word}", "{0}", 1).format(
            self.word(),
            word=self.word(),
            bit=self.random.randint(0, 1),
            digit=self.random.randint(0, 15),
            few=self.random.randint(1, 16),
            words=self.words(self.random.randint(1, 12)),
            many=many,
            many_words=self.words(many) if "{many_words}" in numbers else "",
        )
        register = register.format(group=self.random.choice(GROUPS))
        return f"{verb} {self.random.choice(boards)}:{register} {numbers}".rstrip() if rest else verb

    def network(self, kind):
        """What befalls a board's datagrams, by noise or by fates, or nothing."""
        if kind == "noise":
            return f"noise = {self.random.getrandbits(32)}\n"
        if kind == "losses":
            letters = self.random.choice(LOSSES)
            return f'fates = "dd{"".join(self.random.choices(letters, k=2000))}"\n'
        if kind == "fates":
            letters = self.random.choice(["ddddl", "dl", "ddddlr123456789", "dddr9", "l"])
            count = self.random.choice([1, 4, 10, 60, 200])
            return f'fates = "{"".join(self.random.choices(letters, k=count))}"\n'
        return ""

    def board(self, name, kinds):
        """A board whose network is of one of these kinds."""
        mtu = self.random.choice([92, 93, 120, 300, 576, 1500, 9000])
        first = self.random.choice([1, 2, 65530, 65535, self.random.randint(1, 65535)])
        size = self.random.choice([8, 716, 716, 716])
        return (
            f'[[board]]\nname = "{name}"\ntable = "main"\nmtu = {mtu}\nfirst = {first}\n'
            f"buffers = {self.random.choice([1, 2, 4, 16, 64])}\n{self.network(self.random.choice(kinds))}ranges = [\n"
            f"  {{ base = 0, size = {size}, init = [{self.word()}, 5, {self.word()}] }},\n"
            f'  {{ base = 0x1000, size = 2 }}, {{ base = 0x1002, size = 1, kind = "ro", init = [7] }},\n'
            f'  {{ base = 0x1003, size = 1, kind = "wo" }}, {{ base = 0x1004, size = 712 }},\n'
            f'  {{ base = 0x2000, size = 2764 }}, {{ base = 0x8000, size = 1, kind = "slow" }},\n]\n'
        )

    def rule(self, boards, clients):
        """A rule for some registers, in some rules for one client alone."""
        draw = self.of_policy
        board = draw.choice(["*", *boards])
        pattern = draw.choice(PATTERNS).format(group=draw.choice(GROUPS))
        effect = draw.choice(["allow", "deny", "deny"])
        client = f", client = {draw.randint(1, clients + 1)}" if draw.random() < 0.3 else ""
        access = draw.choice(["r", "w", "rw"])
        return f'{{ effect = "{effect}", access = "{access}", name = "{board}:{pattern}"{client} }}'

    def policy(self, boards, clients):
        """A policy for a third of the sessions, whose last rule mostly allows what no other one decides."""
        draw = self.of_policy
        if draw.random() >= 1 / 3:
            return ""
        rules = [self.rule(boards, clients) for _ in range(draw.choice([0, 1, 2, 4, 10]))]
        last = draw.choice(LAST_RULES)
        if last:
            rules.append(f'{{ effect = "{last[0]}", access = "{last[1]}", name = "*:**" }}')
        return "policy = [\n" + "".join(f"  {rule},\n" for rule in rules) + "]\n"

    def session(self, clients, rounds=(1, 2, 3, 8, 255), first="noise", others=NETWORKS):
        """A session with one of these numbers of clients and of rounds. The network of its first board is of one kind,
        and those of the others are of one of several."""
        boards = [f"b{place}" for place in range(self.random.choice([1, 1, 2, 3]))]
        head = f"format = 2\nrounds = {self.random.choice(rounds)}\nwindow = {self.random.randint(1, 16)}\n"
        text = "".join(self.board(board, [first] if board == boards[0] else others) for board in boards)
        count = self.random.choice(clients)
        for _ in range(count):
            script = [self.line(boards) for _ in range(self.random.choice([2, 10, 30, 60]))]
            text += "[[client]]\nscript = [\n" + "".join(f'  "{line}",\n' for line in script) + "]\n"
        return f"{head}{self.policy(boards, count)}{REGISTERS}{text}".encode()


def drawn_session(number):
    """The document that this number draws."""
    return Draw(f"session {number}").session([1, 1, 2, 3, 5])


def drawn_session_of_losses(number):
    """The document whose hub gives up after one round, on boards that lose much, that this number draws."""
    return Draw(f"losses {number}").session([1, 1, 2, 3], [1], "losses", ["losses", "noise"])


def drawn_session_of_many(number):
    """The document with 2 to 16 clients that this number draws."""
    return Draw(f"clients {number}").session(range(2, 17))
