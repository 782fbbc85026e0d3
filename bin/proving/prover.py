"""Proves what is not proved yet of the crates that the program is made of, and builds the program."""
import concurrent.futures
import functools
import os
import pathlib
import re
import subprocess
import sys
import time

from proving import kept, order, sources
from proving.kept import Kept, MadeOf
from proving.kit import Kit, axioms_in
from proving.sources import PROGRAM, TOP
from proving.statements import state_the_same

# in a clause or a definition: something of a library that is no definition of it
OF_PROOFS = re.compile(rb"\bRattle\s*\.\s*(\w+)\s*\.\s*(?!specs\b)")


class Prover:
    """What is proved, as it was kept, and what this run adds to it.

    The room is a folder of this run's own. The libraries stand there, where no other command looks for them.
    """

    def __init__(self, kit: Kit, room: pathlib.Path) -> None:
        self.kit, self.room, self.began = kit, room, time.monotonic()
        crates = sources.crates()
        (room / "libraries").mkdir()
        self.states = {crate: self.state(crate) for crate in crates}
        self.sources = {crate: sources.sum_of(sources.parts_of(crate)) for crate in crates}
        with concurrent.futures.ThreadPoolExecutor() as pool:
            self.sums = dict(zip(crates, pool.map(lambda crate: Kept(crate).take(self.place(crate)), crates)))
        for crate in crates[:-1]:
            kit.place(crate, self.place(crate))

    def place(self, crate: str) -> pathlib.Path:
        """Where the library of a crate stands in this run, or the folder of the program."""
        return self.room / "libraries" / (PROGRAM if crate == PROGRAM else f"{crate}.rlib")

    def state(self, crate: str) -> list[tuple[str, int, int, int, int]]:
        """What tells that a source of a crate was touched."""
        return sources.state_of([*sources.SHARED, *sources.parts_of(crate)])

    def made_of(self, crate: str) -> MadeOf:
        """What a crate is proved from, over the libraries that stand below it."""
        uses, below = tuple(sources.listed()[crate]), tuple((other, self.sums[other]) for other in sources.below(crate))
        return MadeOf(self.kit.sum, uses, self.kit.handles(), self.sources[crate], below)

    def is_done(self, crate: str) -> bool:
        """Whether the library of a crate, or the program, was proved from what is there."""
        return Kept(crate).is_of(self.made_of(crate), self.sums[crate])

    def work(self, crate: str, jobs: int) -> bool:
        """Proves a crate, and keeps its library, or the program; answers whether it is proved."""
        made = self.room / "made" / crate / ("built.o" if crate == PROGRAM else f"{crate}.rlib")
        made.parent.mkdir(parents=True)
        judged = self.kit.prove(crate, made, jobs)
        if not judged.passes:
            sys.stderr.write(judged.said)
            return self.fails(f"{crate} is NOT proved")
        if crate == PROGRAM and not self.link(made, judged.said):
            return False
        if self.state(crate) != self.states[crate]:
            return self.fails(f"{crate} was touched while it was proved: run bin/prove again")
        self.keep(crate, made.parent if crate == PROGRAM else made)
        return True

    def keep(self, crate: str, made: pathlib.Path) -> None:
        """Keeps what was proved just now; or the library that was kept, where the new one states the same."""
        place, made_of, told = self.place(crate), self.made_of(crate), Kept(crate).told(self.sums[crate])
        is_older = crate != PROGRAM and told is not None and told.is_over(made_of) and crate not in named_for_proofs()
        if is_older and state_the_same(place, made, crate):
            Kept(crate).tell(self.sums[crate], made_of)
            return
        if place.exists():
            os.rename(place, made.with_name("replaced"))
        os.rename(made, place)
        self.sums[crate] = Kept(crate).put(place, made_of)

    def link(self, made: pathlib.Path, said: str) -> bool:
        """Links the program that was proved, and puts what it rests on beside it."""
        linked = self.kit.link(made, made.with_name(PROGRAM))
        if not linked.passes:
            sys.stderr.write(linked.said)
            return self.fails("the program was proved, and is not linked")
        made.unlink()
        made.with_name("axioms").write_text(axioms_in(said))
        return True

    def fails(self, why: str) -> bool:
        print(f"prove: {why}", file=sys.stderr, flush=True)
        return False

    def told(self, crate: str, others: list[str], done: int) -> None:
        line = f"{done:2} of {len(sources.crates())}  {crate:18} {time.monotonic() - self.began:5.0f} s"
        print(f"{line}  under way: {' '.join(others)}" if others else line, flush=True)

    def proves_all(self) -> bool:
        """Whether all crates are proved and the program is built and does its example, which it brings about."""
        if not order.side_by_side(sources.crates(), self.is_done, self.work, self.told):
            return False
        program = self.place(PROGRAM)
        kept.install(program / PROGRAM, (program / "axioms").read_text())
        return runs_its_example() or self.fails("the program was proved, and does not print what it has to")


@functools.cache
def named_for_proofs() -> frozenset[str]:
    """The libraries of whose proofs a clause or a definition of some crate may say something."""
    parts = [f"crates/{crate}/{part}" for crate in sources.crates() for part in ("src", "specs")]
    files = [TOP / path for path in sources.paths_in(parts) if path.endswith((".rt", ".antt"))]
    return frozenset(name.decode() for file in files for name in OF_PROOFS.findall(file.read_bytes()))


def runs_its_example() -> bool:
    """Whether the program prints for its example what it has to."""
    words, given, printed = (TOP / name for name in sources.EXAMPLE)
    run = [kept.BUILT, *words.read_text().split()]
    done = subprocess.run(run, input=given.read_bytes(), stdout=subprocess.PIPE, check=False)
    return done.returncode == 0 and done.stdout == printed.read_bytes()
