"""What was proved, and of what: each library and the program, kept in out/proved/ beside a text that goes by content.

The text says what the thing beside it was made of, and has the sum of that thing. It comes last, whole, and leaves with
the thing; so where it is there and its sum is that of what is there, it is true, whatever was cut off, copied, unpacked
or edited meanwhile. No command of the kit writes to that folder. The files lie there under numbers, since the gate
refuses a source file at any place but a crate's.
"""
import dataclasses
import hashlib
import json
import os
import pathlib
import shutil
import tempfile

from proving import sources
from proving.sources import PROGRAM, TOP

STORE = TOP / "out" / "proved"
OUT = TOP / "crates" / PROGRAM / "out"
BUILT = OUT / PROGRAM
# what `bin/ipbus` reads: the names of the code and of what is stated of it, their sum, the sum of the program, by which
# kit, and the sum with the proofs
PROVED = OUT / "proved"
# what the program itself says of its proof, where a word asks for its version
PROVENANCE = OUT / f"{PROGRAM}.provenance"
# what `rattle` says of the C functions that the proof of the program rests on, beside the program
AXIOMS = OUT / "axioms"


@dataclasses.dataclass(frozen=True)
class MadeOf:
    """What a crate was proved from: the kit, its line of crates.txt, HANDLES, its sources, and what was kept below."""

    kit: str
    uses: tuple[str, ...]
    handles: str
    sources: str
    below: tuple[tuple[str, str], ...]

    def text(self) -> str:
        return json.dumps(dataclasses.asdict(self))

    @classmethod
    def of(cls, text: str) -> "MadeOf | None":
        """What a text tells of, if it is such a text."""
        try:
            told = json.loads(text)
            below = tuple((str(name), str(total)) for name, total in told["below"])
            return cls(told["kit"], tuple(told["uses"]), told["handles"], told["sources"], below)
        except (ValueError, KeyError, TypeError):
            return None

    def is_over(self, other: "MadeOf") -> bool:
        """Whether both were made by the same kit over the same libraries."""
        return self.kit == other.kit and self.below == other.below


def write(path: pathlib.Path, text: str) -> None:
    """Writes a file whole or not at all. Everyone may read it."""
    path.parent.mkdir(parents=True, exist_ok=True)
    number, name = tempfile.mkstemp(prefix="new-", dir=path.parent)
    try:
        with os.fdopen(number, "w") as file:
            file.write(text)
            file.flush()
            os.fchmod(number, 0o644)
            os.fsync(number)
        os.replace(name, path)
    except BaseException:
        pathlib.Path(name).unlink(missing_ok=True)
        raise


def lines_of(path: pathlib.Path) -> list[str]:
    """The lines of a file, none where it cannot be read."""
    try:
        return path.read_text().splitlines()
    except (OSError, UnicodeDecodeError):
        return []


def link_or_copy(one: pathlib.Path, other: pathlib.Path) -> None:
    """Gives a file a second name; nobody writes into such a file."""
    other.parent.mkdir(parents=True, exist_ok=True)
    try:
        os.link(one, other)
    except OSError:
        shutil.copyfile(one, other)


@dataclasses.dataclass(frozen=True)
class Kept:
    """The library of a crate that was proved, or the program."""

    crate: str

    @property
    def folder(self) -> pathlib.Path:
        return STORE / self.crate

    @property
    def text(self) -> pathlib.Path:
        return self.folder / "made_of"

    def take(self, to: pathlib.Path) -> str:
        """Gives the files that are kept their places in a folder, and answers the sum of all; '' where there are none."""
        names = lines_of(self.folder / "names")
        try:
            for number, name in enumerate(names):
                if os.path.isabs(name) or ".." in name.split("/"):
                    raise OSError(f"a file may not be named {name}")
                link_or_copy(self.folder / str(number), to / name)
        except OSError:
            shutil.rmtree(to, ignore_errors=True)
            return ""
        return sources.sum_of_paths(names, to) if names else ""

    def is_of(self, made_of: MadeOf, total: str) -> bool:
        """Whether what is kept was proved from this, where its sum is that."""
        return bool(total) and lines_of(self.text) == [total, made_of.text()]

    def told(self, total: str) -> MadeOf | None:
        """What it was made of, where its sum is that and its text tells of it."""
        lines = lines_of(self.text)
        return MadeOf.of(lines[1]) if len(lines) == 2 and total and lines[0] == total else None

    def put(self, made: pathlib.Path, made_of: MadeOf) -> str:
        """Keeps the files of a folder in place of what was kept, and answers their sum."""
        STORE.mkdir(parents=True, exist_ok=True)
        names = [name for name in sources.paths_below(made) if (made / name).is_file()]
        total = sources.sum_of_paths(names, made)
        with tempfile.TemporaryDirectory(prefix="new-", dir=STORE) as room:
            new = pathlib.Path(room) / self.crate
            new.mkdir()
            for number, name in enumerate(names):
                link_or_copy(made / name, new / str(number))
            write(new / "names", "".join(f"{name}\n" for name in names))
            write(new / "made_of", f"{total}\n{made_of.text()}\n")
            if self.folder.exists():
                os.rename(self.folder, pathlib.Path(room) / "old")
            os.rename(new, self.folder)
        return total

    def tell(self, total: str, made_of: MadeOf) -> None:
        """Says that what is kept, with that sum, is made of this too."""
        write(self.text, f"{total}\n{made_of.text()}\n")


def sweep() -> None:
    """Removes what runs left that were cut off."""
    for old in (*STORE.glob("new-*"), *(OUT / "rlib").glob("proving-*")):
        shutil.rmtree(old, ignore_errors=True)


def put_program(program: pathlib.Path, place: pathlib.Path) -> None:
    """Puts a program in its place, whole or not at all. Everyone may run it."""
    with tempfile.TemporaryDirectory(prefix="proving-", dir=place.parent) as room:
        copy = pathlib.Path(room) / PROGRAM
        shutil.copyfile(program, copy)
        copy.chmod(0o755)
        os.replace(copy, place)


def install(program: pathlib.Path, axioms: str) -> None:
    """Puts a program in the place from which it is run. Until `tell_program` it counts for nothing there."""
    PROVED.unlink(missing_ok=True)
    AXIOMS.unlink(missing_ok=True)
    put_program(program, BUILT)
    if axioms:
        write(AXIOMS, axioms)


@dataclasses.dataclass(frozen=True)
class Sums:
    """The sum of the code and of what is stated of it, and that of these and the proofs."""

    stated: str
    whole: str

    @classmethod
    def now(cls) -> "Sums":
        return cls(sources.sum_of(sources.stated_sources()), sources.sum_of(sources.all_sources()))


def tell_program(sums: Sums, kit: str) -> None:
    """Says that the program that stands there is the proved one of the sources with these sums."""
    names = " ".join(sources.stated_sources())
    built = sources.sum_of_file(BUILT)
    write(PROVENANCE, f"proved by bin/prove\nkit sha256 {kit}\nprogram sha256 {built}\nsources sha256 {sums.stated}\n")
    write(PROVED, f"{names}\n{sums.stated}\n{built}\n{kit}\n{sums.whole}\n")
    for old in OUT.glob("unproved*"):
        old.unlink(missing_ok=True)


def is_proved() -> bool:
    """Whether the program that stands there was proved, and is that of the code and of what is stated of it here."""
    lines = lines_of(PROVED)
    if len(lines) != 5 or lines[:2] != [" ".join(sources.stated_sources()), sources.sum_of(sources.stated_sources())]:
        return False
    return os.access(BUILT, os.X_OK) and sources.sum_of_file(BUILT) == lines[2]


def is_proved_by(kit: str, sums: Sums) -> bool:
    """Whether it was proved by this kit, and by the proofs that stand here."""
    return lines_of(PROVED)[3:] == [kit, sums.whole] and is_proved()


def word_of(*parts: object) -> str:
    """One word for some values."""
    return hashlib.sha256(repr(parts).encode()).hexdigest()
