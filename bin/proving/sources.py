"""The sources of the program: which files they are, their sums, and whether one was touched.

A crate stands in crates/NAME/ and is listed in crates.txt. What it is made of is its src/, specs/ and proofs/. Its code and
what is stated of it stand in the first two: what was proved of them once stays so, whatever becomes of its proofs.
"""
import functools
import hashlib
import os
import pathlib
import time
from collections.abc import Iterable, Iterator

PROGRAM = "ipbus"
TOP = pathlib.Path(__file__).resolve().parent.parent.parent
STATED = ("src", "specs")
PARTS = (*STATED, "proofs")
# files beside the crates that a proof depends on, and those of the example that the program is run on
SHARED = ("crates.txt", "HANDLES")
EXAMPLE = tuple(f"crates/{PROGRAM}/{name}" for name in ("args", "stdin", "stdout"))
# the clock of files goes in steps of some milliseconds
TICK_NS = 20_000_000


@functools.cache
def listed() -> dict[str, list[str]]:
    """The libraries that each crate of crates.txt names, by the crate's name."""
    lines = [line.partition("#")[0].strip() for line in (TOP / "crates.txt").read_text().splitlines()]
    heads = [line.partition(":") for line in lines if line]
    return {head.split()[0]: used.replace(",", " ").split() for head, _, used in heads}


@functools.cache
def below(name: str) -> tuple[str, ...]:
    """The crates that a crate stands on, lowest first."""
    uses = [used for used in listed()[name] if used in listed()]
    return tuple(dict.fromkeys(crate for used in uses for crate in (*below(used), used)))


def forget() -> None:
    """Has crates.txt read again when it is asked for next."""
    listed.cache_clear()
    below.cache_clear()


def crates() -> tuple[str, ...]:
    """The crates that the program is made of, each after those that it stands on; the program is the last."""
    return (*below(PROGRAM), PROGRAM)


def parts_of(crate: str, parts: tuple[str, ...] = PARTS) -> list[str]:
    """The folders of a crate's sources, as they are named from the top; not each of them has to be there."""
    return [f"crates/{crate}/{part}" for part in parts]


def stated_sources() -> list[str]:
    """The files and folders that the program depends on and what is stated of it, as they are named from the top."""
    return [*SHARED, *EXAMPLE, *(part for crate in crates() for part in parts_of(crate, STATED))]


def all_sources() -> list[str]:
    """The files and folders that a proof of all that depends on, as they are named from the top."""
    return [*SHARED, *EXAMPLE, *(part for crate in crates() for part in parts_of(crate))]


def paths_below(folder: pathlib.Path) -> Iterator[str]:
    """The paths of all that stands below a folder, as they are named from it."""
    start = len(f"{folder}/")
    for at, folders, files in os.walk(folder):
        folders.sort()
        yield from (f"{at}/{name}"[start:] for name in (*folders, *sorted(files)))


def paths_in(sources: Iterable[str]) -> Iterator[str]:
    """The paths of some sources, folders among them, as they are named from the top."""
    for source in sources:
        if os.path.lexists(TOP / source):
            yield source
            yield from (f"{source}/{path}" for path in paths_below(TOP / source))


def sum_of_file(path: pathlib.Path) -> str:
    with path.open("rb") as file:
        return hashlib.file_digest(file, "sha256").hexdigest()


def sum_of_paths(paths: Iterable[str], top: pathlib.Path) -> str:
    """A sum of the names and bytes of those paths that are files."""
    total = hashlib.sha256()
    for path in sorted(paths):
        if not os.path.isdir(f"{top}/{path}"):
            total.update(f"{path}\0{sum_of_file(top / path)}\0".encode())
    return total.hexdigest()


def sum_of(sources: Iterable[str]) -> str:
    """A sum of the names and bytes of the files of some sources."""
    return sum_of_paths(paths_in(sources), TOP)


def state_of(sources: Iterable[str]) -> list[tuple[str, int, int, int, int]]:
    """What tells that one of the sources was changed, also if it was changed back since: its number, its size and times.

    A file that was changed this very moment could be changed once more with the same time: then it waits that moment.
    """
    found = []
    for path in paths_in(sources):
        status = os.lstat(TOP / path)
        found.append((path, status.st_ino, status.st_size, status.st_mtime_ns, status.st_ctime_ns))
    if any(changed > time.time_ns() - TICK_NS for *_, changed in found):
        time.sleep(TICK_NS / 1e9)
    return found


def lines_of_code(crate: str) -> int:
    """How many lines of code a crate has."""
    files = [TOP / path for path in paths_in([f"crates/{crate}/src"])]
    return sum(file.read_bytes().count(b"\n") for file in files if file.is_file())
