"""Sessions under policies of many rules, drawn from a number: names and patterns that nearly match one another."""
import random

# ids, and boards, of which each begins as the one before it
IDS = ["a", "ab", "ab_"]
BOARDS = ["b", "b0", "b00"]
COUNT = 12
TABLES = f"""
tables.leaf = [
  {{ id = "a" }}, {{ id = "ab", address = 1 }}, {{ id = "ab_", address = 0x10, count = {COUNT} }},
]
tables.branch = [
  {{ id = "a", address = 0x10, module = "leaf", count = {COUNT}, stride = 0x40 }},
  {{ id = "ab", address = 0x400, module = "leaf" }},
  {{ id = "ab_", address = 0x800 }},
]
tables.main = [
  {{ id = "a", address = 0x10, module = "branch" }},
  {{ id = "ab", address = 0x1000, module = "branch", count = {COUNT}, stride = 0x1000 }},
  {{ id = "ab_", address = 0x800, module = "leaf" }},
]
"""
# whether an id has a count at each level
HAS_COUNT = [{"ab"}, {"a"}, {"ab_"}]
LINES = ["read {}", "write {} 3", "rmwsum {} 1", "rmwbits {} 0xff 1", "readblock {} 1", "writeblock {} 7", "dispatch"]


class DrawPolicy:
    def __init__(self, number):
        self.random = random.Random(f"policy {number}")

    def part(self, level):
        """An id that the names have at this level, with an index where it has one."""
        id = self.random.choice(IDS)
        return f"{id}[{self.random.randrange(COUNT)}]" if id in HAS_COUNT[level] else id

    def name(self):
        """A register's name as a list of ids with their indexes."""
        depth = self.random.choice([1, 2, 3, 3, 3])
        top, branch, leaf = (self.part(level) for level in range(3))
        if depth == 1:
            return [top]
        if top == "ab_":
            return [top, leaf]
        return [top, branch] if depth == 2 or branch == "ab_" else [top, branch, leaf]

    def item(self, part):
        """An item that matches this part of a name, or one much like it."""
        draw = self.random
        id, bracket, _ = part.partition("[")
        kind = draw.randrange(12)
        if kind < 4:
            return part
        if kind < 7:
            return "*"
        if kind < 9:
            return f"{id}[*]" if bracket or kind == 8 else id
        if kind == 9:
            return id
        index = draw.choice([0, 1, 2, 10, 11, 12, 65_535])
        return f"{id}[{index}]" if kind == 10 else draw.choice(IDS) + bracket + (f"{index}]" if bracket else "")

    def pattern(self):
        draw = self.random
        items = [self.item(part) for part in self.name()]
        kind = draw.randrange(8)
        if kind < 3:
            items = [*items[: draw.randrange(len(items) + 1)], "**"]
        elif kind == 3:
            items = [*items, "*"]
        return f"{draw.choice(['*', *BOARDS])}:{'.'.join(items)}"

    def rule(self):
        draw = self.random
        effect, access = draw.choice(["allow", "deny"]), draw.choice(["r", "w", "rw"])
        client = f", client = {draw.randint(1, 4)}" if draw.random() < 0.3 else ""
        return f'  {{ effect = "{effect}", access = "{access}", name = "{self.pattern()}"{client} }},\n'

    def line(self):
        register = f"{self.random.choice(BOARDS)}:{'.'.join(self.name())}"
        return self.random.choice(LINES).format(register)

    def session(self):
        draw = self.random
        rules = "".join(self.rule() for _ in range(draw.choice([3, 10, 40, 200])))
        last = draw.choice(["", '  { effect = "allow", access = "rw", name = "*:**" },\n'])
        text = f"format = 2\npolicy = [\n{rules}{last}]\n{TABLES}"
        for board in BOARDS:
            text += f'[[board]]\nname = "{board}"\ntable = "main"\nranges = [ {{ base = 0, size = 0xe000 }} ]\n'
        for _ in range(3):
            lines = "".join(f'  "{self.line()}",\n' for _ in range(60))
            text += f"[[client]]\nscript = [\n{lines}]\n"
        return text.encode()


def drawn_policy(number):
    """The document under a policy that this number draws."""
    return DrawPolicy(number).session()
