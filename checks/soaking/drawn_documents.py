"""Session documents that are right, drawn from a number as values: each kind of node, of range, of link and of line."""
import random
from typing import Any

from model.compiled import Entry, compiled
from soaking.toml_text import Raw

Table = dict[str, Any]
PERMISSIONS = ("r", "read", "w", "write", "rw", "wr", "readwrite", "writeread")
WHOLE = 0xFFFFFFFF
# so many words stand between the nodes of a table, and between those of a group
ROOM, INNER = 0x100, 0x10
RULES = ["*:**", "*:*", "b0:**", "b1:*", "*:n0.**", "*:n1", "*:n2.*", "*:*.x1", "b0:n3[*]", "b0:n3[0].**", "*:none"]


class DrawDocument:
    """Draws one document, for a command."""

    def __init__(self, draw: random.Random, command: str) -> None:
        self.draw = draw
        self.command = command
        self.format = draw.choice([1, 2, 2])

    def number(self, value: int) -> Any:
        """A number in one of its forms."""
        kind = self.draw.randrange(6)
        forms = {0: f"{value}", 1: f"0x{value:x}", 2: f"0x{value:X}", 3: Raw(f"0x{value:x}")}
        return forms.get(kind, value)

    def maybe(self, chance: float) -> bool:
        return self.draw.random() < chance

    # ---- tables

    def word(self, id: str, address: int) -> Table:
        """A node of one word."""
        node: Table = {"id": id}
        if address or self.maybe(0.3):
            node["address"] = self.number(address)
        if self.maybe(0.4):
            node["permission"] = self.draw.choice(PERMISSIONS)
        if self.maybe(0.2):
            node["mask"] = self.number(self.draw.choice([1, 0xF0, 0x80000000, WHOLE, 0x0FF0]))
        if self.maybe(0.1):
            node["size"] = self.number(1)
        if self.maybe(0.1):
            node["tags"], node["description"] = "a b", "what it is"
        return node

    def fields(self, id: str, address: int) -> Table:
        """A word with fields, some of which have fields of their own."""
        node: Table = {"id": id, "address": self.number(address), "nodes": []}
        for place, mask in enumerate([0x1, 0xF0, 0xFF00, 0x80000000][: self.draw.randint(1, 4)]):
            node["nodes"].append({"id": f"x{place}", "mask": self.number(mask)})
            if self.maybe(0.2):
                node["nodes"][-1]["permission"] = self.draw.choice(PERMISSIONS)
        return node

    def block(self, id: str, address: int) -> Table:
        mode = self.draw.choice(["block", "incremental", "inc", "port", "non-incremental", "non-inc"])
        node: Table = {"id": id, "address": self.number(address), "mode": mode}
        if self.maybe(0.8):
            node["size"] = self.number(self.draw.choice([1, 2, 8, 15]))
        if self.maybe(0.2):
            node["permission"] = self.draw.choice(PERMISSIONS)
        return node

    def group(self, id: str, address: int, depth: int) -> Table:
        """Nodes below a name: own ones, or those of a module."""
        node: Table = {"id": id, "address": self.number(address), "mode": "hierarchical"}
        if self.maybe(0.2):
            del node["mode"]
        if self.maybe(0.3):
            node["permission"] = self.draw.choice(PERMISSIONS)
        if depth == 0 and self.maybe(0.5):
            node["module"] = "group"
        else:
            count = self.draw.randint(0, 3)
            node["nodes"] = [self.node(f"y{place}", INNER * place, depth + 1) for place in range(count)]
        return node

    def node(self, id: str, address: int, depth: int = 0) -> Table:
        kind = self.draw.randrange(8)
        if kind < 3:
            node = self.word(id, address)
        elif kind < 5:
            node = self.fields(id, address)
        elif kind < 6 or depth > 2:
            node = self.block(id, address)
        else:
            node = self.group(id, address, depth)
        if self.format == 2 and depth == 0 and self.maybe(0.3):
            node["count"] = self.number(self.draw.randint(1, 3))
            if self.maybe(0.7):
                node["stride"] = self.number(self.draw.choice([1, INNER, 0x40]))
        return node

    def tables(self) -> Table:
        main = [self.node(f"n{place}", ROOM * place) for place in range(self.draw.randint(1, 5))]
        # registers that overlap are told beside a listing
        if self.command == "check" and self.maybe(0.3):
            main.append(self.word("over", ROOM * self.draw.randrange(len(main))))
        found = {"main": main, "group": [self.node(f"g{place}", INNER * place, 1) for place in range(2)]}
        if self.maybe(0.2):
            found["spare"] = [self.word("s", 0)] if self.maybe(0.5) else []
        return found

    # ---- boards

    def ranges(self) -> list[Table]:
        """Ranges one after another, with gaps between some of them."""
        found, base = [], 0
        for _ in range(self.draw.randint(1, 4)):
            size = self.draw.choice([1, 4, 0x80, 0x100, 0x400])
            each: Table = {"base": self.number(base), "size": self.number(size)}
            if self.maybe(0.3):
                each["kind"] = self.draw.choice(["rw", "ro", "wo", "slow"])
            if self.maybe(0.5):
                count = self.draw.randint(0, min(size, 3))
                each["init"] = [self.number(self.draw.getrandbits(32)) for _ in range(count)]
            found.append(each)
            base += size + self.draw.choice([0, 0, 0, 5])
        return found

    def board(self, place: int) -> Table:
        board: Table = {"name": f"b{place}", "table": "main"}
        # what scripts ask of a board on a network is said beside a listing
        if self.command == "check" and self.maybe(0.4):
            board |= {"link": "udp", "address": f"127.0.0.1:{place + 1}"}
            return board | ({"wait": self.number(self.draw.choice([1, 10_000]))} if self.maybe(0.5) else {})
        settings = {
            "link": "sim",
            "mtu": self.number(self.draw.choice([92, 93, 120, 576, 1500, 9000])),
            "buffers": self.number(self.draw.choice([1, 2, 16, 64])),
            "first": self.number(self.draw.choice([1, 2, 65_534, 65_535])),
        }
        board |= {key: value for key, value in settings.items() if self.maybe(0.4)}
        network = self.draw.randrange(4)
        if network == 0:
            board["noise"] = self.number(self.draw.getrandbits(32))
        elif network == 1:
            letters = self.draw.choice(["dddl", "ddl5", "dr", "ddddr259l", "123456789", "l", "d"])
            board["fates"] = "".join(self.draw.choices(letters, k=self.draw.choice([1, 4, 30, 200])))
        if self.maybe(0.9):
            board["ranges"] = self.ranges()
        return board

    # ---- scripts, policies and states

    def line(self, board: str, name: str, entry: Entry) -> str:
        """A right line on a register, or a comment where it can have none."""
        draw, register = self.draw, f"{board}:{name}"
        lines, is_whole = [], entry.mask == WHOLE
        most = 20 if entry.mode == "port" and entry.size == 1 else entry.size
        shift = (entry.mask & -entry.mask).bit_length() - 1
        words = [f"0x{draw.getrandbits(draw.choice([1, 8, 32])):x}" for _ in range(draw.randint(1, min(most, 20)))]
        if "r" in entry.permission:
            lines += [f"read {register}"] + [f"readblock {register} {draw.randint(1, most)}"] * is_whole
        if "w" in entry.permission:
            lines += [f"write {register} {draw.getrandbits(32) & entry.mask >> shift}"]
            lines += [f"writeblock {register} {' '.join(words)}"] * is_whole
        if entry.permission == "rw" and is_whole:
            lines += [f"rmwbits {register} {words[0]} 0xF", f"rmwsum {register} {draw.randrange(1000)}"]
        if entry.mode == "hierarchical" or not lines:
            return f"# {register}"
        return draw.choice(lines)

    def script(self, boards: list[str], entries: dict[str, Entry]) -> list[str]:
        lines = []
        for _ in range(self.draw.choice([0, 1, 3, 8, 20])):
            if self.maybe(0.15) or not entries:
                lines.append(self.draw.choice(["dispatch", "", "  ", "# no line", "\tdispatch "]))
            else:
                name = self.draw.choice(list(entries))
                lines.append(self.line(self.draw.choice(boards), name, entries[name]))
        return lines

    def rule(self) -> Table:
        rule: Table = {
            "effect": self.draw.choice(["allow", "allow", "deny"]),
            "access": self.draw.choice(["r", "w", "rw"]),
            "name": self.draw.choice(RULES),
        }
        if self.maybe(0.3):
            rule["client"] = self.number(self.draw.randint(1, 4))
        return rule

    def state(self, boards: list[str], entries: dict[str, Entry]) -> Table:
        """Values for some of the registers that are kept."""
        kept = [
            (name, entry)
            for name, entry in entries.items()
            if entry.mode == "single" and entry.permission == "rw" and not any(n.startswith(name + ".") for n in entries)
        ]
        found: Table = {}
        for board in self.draw.sample(boards, self.draw.randint(0, len(boards))):
            chosen = self.draw.sample(kept, self.draw.randint(0, min(len(kept), 6)))
            found[board] = {}
            for name, entry in chosen:
                shift = (entry.mask & -entry.mask).bit_length() - 1
                found[board][name] = self.number(self.draw.getrandbits(32) & entry.mask >> shift)
        return found

    def document(self) -> Table:
        found: Table = {}
        if self.format == 2 or self.maybe(0.3):
            found["format"] = self.number(self.format)
        if self.maybe(0.5):
            found["rounds"] = self.number(self.draw.choice([1, 2, 8, 255]))
        if self.maybe(0.5):
            found["window"] = self.number(self.draw.randint(1, 16))
        found["tables"] = self.tables()
        entries = compiled(found["tables"], "main")
        count = 1 if self.command == "record" else self.draw.choice([1, 1, 2, 3])
        found["board"] = [self.board(place) for place in range(count)]
        boards = [board["name"] for board in found["board"]]
        if self.maybe(0.8):
            clients = self.draw.choice([0, 1, 1, 2, 3])
            found["client"] = [{"script": self.script(boards, entries)} for _ in range(clients)]
        if self.command != "serve" and self.maybe(0.25):
            found["policy"] = [self.rule() for _ in range(self.draw.choice([0, 1, 3, 8]))]
        if self.command == "apply":
            found["state"] = self.state(boards, entries)
        return found
