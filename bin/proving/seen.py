"""A hint that spares `bin/ipbus` reading the sources: what each file looked like when contents were last compared.

Two files beside the stamp hold it. One has the paths of the code and of what is stated of it, of the folders that they
stand in, of the program and of the stamp. The other is what `find` prints of these paths: number and time of change. A
file that is changed later has another time of change, which nobody can set back. So has a folder in which a file is added
or removed, and a source that is not there is named, so that it has a line once it is. The hint is kept only where all
these times were older than its making, so that no change can have the time that it lists.
"""
import contextlib
import dataclasses
import os
import pathlib
import stat
import subprocess
import tempfile
from collections.abc import Iterator

from proving import kept, sources
from proving.sources import TOP

# as in bin/ipbus
FORM = "%i %C@\\n"
# the names of these files begin with that of the stamp
PATHS, SEEN = ".paths", ".seen"


@dataclasses.dataclass
class Note:
    """Whether what was compared was found to be the same."""

    holds: bool = False


def beside(stamp: pathlib.Path, ending: str) -> pathlib.Path:
    """A file of the hint."""
    return stamp.with_name(f"{stamp.name}{ending}")


def keep(stamp: pathlib.Path, paths: list[str], listed: str) -> None:
    """Keeps what `find` says of some paths beside a stamp, if it can be kept."""
    with contextlib.suppress(OSError):
        kept.write(beside(stamp, PATHS), zeros_between(paths))
        kept.write(beside(stamp, SEEN), listed)


def paths_of(stamp: pathlib.Path, program: pathlib.Path) -> list[str]:
    """The paths that are looked at, those of sources that are not there among them."""
    names = [*sources.stated_sources(), *(os.path.relpath(path, TOP) for path in (program, stamp))]
    return [*sources.paths_in(names), *(name for name in names if not os.path.lexists(TOP / name))]


def listing(paths: list[str]) -> str:
    """What `find` says of some paths."""
    run = subprocess.run(
        ["find", "-files0-from", "-", "-maxdepth", "0", "-printf", FORM],
        cwd=TOP, input=zeros_between(paths).encode(errors="replace"),
        stdout=subprocess.PIPE, stderr=subprocess.DEVNULL, check=False,
    )
    return run.stdout.decode(errors="replace")


def zeros_between(paths: list[str]) -> str:
    return "".join(f"{path}\0" for path in paths)


def nanoseconds(written: str) -> int:
    """A time as `find` writes it: seconds, a dot and ten digits."""
    seconds, _, part = written.partition(".")
    return int(seconds) * 10**9 + int(part[:9])


def is_older(listed: str, began: int) -> bool:
    """Whether all that is listed was changed before that time."""
    return all(nanoseconds(line.split(" ")[1]) < began for line in listed.splitlines())


def is_whole(listed: str, paths: list[str]) -> bool:
    """Whether each path that is there is a file or a folder, and has a line."""
    there = [os.lstat(TOP / path).st_mode for path in paths if os.path.lexists(TOP / path)]
    are_plain = all(stat.S_ISREG(mode) or stat.S_ISDIR(mode) for mode in there)
    return are_plain and len(listed.splitlines()) == len(there)


@contextlib.contextmanager
def note_seen(stamp: pathlib.Path, program: pathlib.Path) -> Iterator[Note]:
    """Keeps the hint beside a stamp if what is compared meanwhile holds, and nothing was changed meanwhile."""
    note = Note()
    try:
        with tempfile.TemporaryFile(dir=stamp.parent) as clock:
            began = os.fstat(clock.fileno()).st_ctime_ns
    except OSError:
        # who may not write here keeps no hint
        yield note
        return
    paths = paths_of(stamp, program)
    listed = listing(paths)
    yield note
    # a `find` that does not know these words prints nothing, and that is no hint
    is_hint = is_whole(listed, paths) and is_older(listed, began)
    if note.holds and is_hint and listing(paths) == listed:
        keep(stamp, paths, listed)
