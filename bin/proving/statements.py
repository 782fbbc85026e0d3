"""Whether two libraries of a crate state the same: they differ in nothing but the proofs, which no crate above can see.

A library that `rattle build --statements` writes holds the text of the proofs, and in `toolchain/checked.a` for each
module of the crate what other crates can cite of it, without the proof. Each item there stands with a fingerprint, which
depends on its proof too. `rattle` takes a library only over the very ones that it was built over. So where a new proof
leaves all but these fingerprints as it was, the older library stays, and what was built over it with it.

What is not read here for certain counts as stated.
"""
import json
import pathlib
import re

from proving import sources

# the text of proofs, and of definitions, whose meaning stands in the modules; sums; and where each module begins
NOT_STATED = re.compile(r"format|lang/antt/(proofs|specs)(/.*)?\.antt|toolchain/checked\.(a|json)")
SUMS = ("checked ", "sum ")
FORM = b"--@ antt-checked 81\n"
BODY = re.compile(rb"\n--@ digest xxh64:[0-9a-f]{16}\n--@ body ([0-9]+)\n")
HASH = 32


class Unread(Exception):
    """A module is not of the form that is known."""


class Bytes:
    """Bytes that are read from the front. What is read is kept, fingerprints blanked."""

    def __init__(self, data: bytes):
        self.data, self.at, self.stated = data, 0, bytearray()

    def take(self, count: int) -> bytes:
        taken = self.data[self.at : self.at + count]
        if len(taken) < count:
            raise Unread
        self.at += count
        self.stated += taken
        return taken

    def number(self) -> int:
        value, shift = 0, 0
        while True:
            byte = self.take(1)[0]
            value |= (byte & 127) << shift
            if byte < 128:
                return value
            shift += 7

    def text(self) -> bytes:
        return self.take(self.number())

    def fingerprint(self) -> None:
        self.take(HASH)
        self.stated[-HASH:] = bytes(HASH)

    def flag(self) -> bool:
        value = self.take(1)[0]
        if value > 1:
            raise Unread
        return value == 1


def read_item(data: Bytes) -> None:
    """An item: its name, those that it needs, what it exports, what it cites, its type, and its place in a scope."""
    data.text()
    for _ in range(data.number()):
        data.text()
    for _ in range(data.number()):
        data.text()
        data.fingerprint()
        if data.flag():
            # that of the statement alone
            data.take(HASH)
    for _ in range(data.number()):
        data.text()
        for _ in range(data.number()):
            data.text()
            data.fingerprint()
    data.flag()
    if not data.text().startswith(b"ATB2"):
        raise Unread
    json.loads(data.text())


def stated_by(module: bytes) -> bytes:
    """A module without the fingerprints of its items, where it is of the known form; else as it is."""
    found = BODY.search(module)
    if not module.startswith(FORM) or not found or found.end() + int(found[1]) != len(module):
        return module
    data = Bytes(module[found.end() :])
    try:
        if data.take(4) != b"APT2":
            return module
        for _ in range(data.number()):
            read_item(data)
    except (Unread, ValueError):
        return module
    return module[: found.start()] + bytes(data.stated) + data.data[data.at :]


def modules_of(library: pathlib.Path, crate: str) -> dict[str, bytes]:
    """What the modules of a library state, by their names. Those of definitions and clauses stay whole."""
    packed = (library / "toolchain" / "checked.a").read_bytes()
    found = {}
    for line in (library / "toolchain" / "checked.json").read_text().splitlines():
        if line.strip():
            name, at, size = json.loads(line)
            module = packed[at : at + size]
            is_of_proofs = name.startswith(f"part/Rattle-{crate}-proofs.")
            found[name] = stated_by(module) if is_of_proofs else module
    del found["sum/all"]
    return found


def stated_files(library: pathlib.Path) -> dict[str, bytes]:
    """The files of a library that other crates read, and its form."""
    names = [name for name in sources.paths_below(library) if (library / name).is_file()]
    found = {name: (library / name).read_bytes() for name in names if not NOT_STATED.fullmatch(name)}
    lines = (library / "format").read_text().splitlines()
    found["format"] = "\n".join(line for line in lines if not line.startswith(SUMS)).encode()
    return found


def state_the_same(one: pathlib.Path, other: pathlib.Path, crate: str) -> bool:
    """Whether two libraries of a crate differ in proofs alone."""
    try:
        if stated_files(one) != stated_files(other):
            return False
        return modules_of(one, crate) == modules_of(other, crate)
    except (OSError, ValueError, KeyError):
        return False
