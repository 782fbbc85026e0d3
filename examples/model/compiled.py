"""The registers that a table stands for, or why it is refused, and its listing, from `docs/FORMATS.md` alone. The tables
are values of TOML of which none has a fault of its own."""
from collections import namedtuple

from model.configuration import byte_order
from model.session import WHOLE, number
from model.table_faults import MODES, PERMISSIONS

MOST_NAMES, MOST_IDS = 65_536, 16

Entry = namedtuple("Entry", "address mask permission mode size")


class Refused(Exception):
    """A table is refused; `told` is the table, the path and the rule."""

    def __init__(self, *told):
        super().__init__(told)
        self.told = told


def modules_of(nodes):
    """The tables that nodes and those below them name."""
    for node in nodes:
        if "module" in node:
            yield node["module"]
        yield from modules_of(node.get("nodes", []))


def reached_from(name, used):
    """The tables to which modules lead from one."""
    found, rest = set(), [name]
    while rest:
        more = used[rest.pop()] - found
        found |= more
        rest += more
    return found


def check_modules(tables, root):
    used = {name: set(modules_of(tables[name])) for name in byte_order(tables)}
    for name, modules in used.items():
        if not modules <= tables.keys():
            raise Refused(name, "-", "UnknownModule")
    if root not in tables:
        raise Refused(root, "-", "UnknownModule")
    for name in used:
        if name in reached_from(name, used):
            raise Refused(name, "-", "ModuleCycle")


def indexes_of(node):
    """Each id that a node stands for, with how many words from its address that stands."""
    if "count" not in node:
        yield node["id"], 0
        return
    stride = number(node.get("stride", 1))
    for index in range(number(node["count"])):
        yield f"{node['id']}[{index}]", index * stride


class Walk:
    """Goes through the names of a table in preorder, up to the first that is refused."""

    def __init__(self, tables, root):
        self.tables = tables
        self.root = root
        self.entries = {}
        self.count = 0
        self.visit(tables[root], "", 0, 1)

    def visit(self, nodes, front, base, depth):
        seen = set()
        for node in nodes:
            below = self.tables[node["module"]] if "module" in node else node.get("nodes", [])
            is_double = node["id"] in seen
            seen.add(node["id"])
            for id_at, offset in indexes_of(node):
                address = base + number(node.get("address", 0)) + offset
                self.add(front + id_at, address, node, depth, is_double)
                self.visit(below, f"{front}{id_at}.", address, depth + 1)

    def add(self, name, address, node, depth, is_double):
        mode, size = MODES[node.get("mode", "single")], number(node.get("size", 1))
        last = address + size - 1 if mode == "block" else address
        self.count += 1
        broken = {
            "TooMany": self.count > MOST_NAMES,
            "TooDeep": depth > MOST_IDS,
            "Duplicate": is_double,
            "AddressPastEnd": last > WHOLE,
        }
        for rule, is_broken in broken.items():
            if is_broken:
                raise Refused(self.root, name, rule)
        mask, permission = number(node.get("mask", WHOLE)), PERMISSIONS[node.get("permission", "rw")]
        self.entries[name] = Entry(address, mask, permission, mode, size)


def compiled(tables, root):
    """The registers of a table by their names. `Refused` where it is."""
    check_modules(tables, root)
    return Walk(tables, root).entries


def compile_fault(tables, root):
    """The table, the path and the rule of the first fault, or None."""
    try:
        compiled(tables, root)
        return None
    except Refused as refused:
        return refused.told


# ---- the listing


def overlap(one, other):
    """Whether two registers, each a name and an entry, share a bit of a word."""
    (name, entry), (other_name, other_entry) = one, other
    if "hierarchical" in (entry.mode, other_entry.mode) or not entry.mask & other_entry.mask:
        return False
    if name.startswith(other_name + ".") or other_name.startswith(name + "."):
        return False
    first, others = (each.size if each.mode == "block" else 1 for each in (entry, other_entry))
    return entry.address < other_entry.address + others and other_entry.address < entry.address + first


def listing(entries):
    """What `check` prints of registers, and its status. It compares each two of them."""
    names = byte_order(entries)
    lines = []
    for name in names:
        entry = entries[name]
        lines.append(f"{name} 0x{entry.address:08x} 0x{entry.mask:08x} {entry.permission} {entry.mode} {entry.size}")
    status = 0
    for place, name in enumerate(names):
        before = ((other, entries[other]) for other in names[:place])
        first = next((other for other, entry in before if overlap((other, entry), (name, entries[name]))), None)
        if first is not None:
            lines.append(f"overlap {first} {name}")
            status = 1
    return "".join(line + "\n" for line in lines), status
