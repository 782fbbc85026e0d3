"""In which order crates are proved, and how many side by side: those first that the longest chains begin with."""
import concurrent.futures
import os
import pathlib
from collections.abc import Callable

from proving import sources

# what a check of a crate takes at the most, in bytes, and what each further processor adds to that
MEMORY = 2_400_000_000
MEMORY_MORE = 1_200_000_000
# what each check begins with takes as much as so many lines of code
LINES_TO_BEGIN = 100
# how long, in seconds, until a signal is seen at the latest
WAIT = 0.5


def chains(crates: tuple[str, ...]) -> dict[str, int]:
    """The lines that have to be checked from each crate on: its own, and those of the longest chain of crates above.

    Lines of code count, since those of statements and proofs hardly take time.
    """
    lines = {crate: LINES_TO_BEGIN + sources.lines_of_code(crate) for crate in crates}
    longest = dict(lines)
    for crate in reversed(crates):
        above = [longest[other] for other in crates if crate in sources.listed()[other]]
        longest[crate] = lines[crate] + max(above, default=0)
    return longest


def free_memory() -> int:
    """The memory that is free, in bytes."""
    lines = pathlib.Path("/proc/meminfo").read_text().splitlines()
    return next(1024 * int(line.split()[1]) for line in lines if line.startswith("MemAvailable:"))


def side_by_side(
    crates: tuple[str, ...],
    is_done: Callable[[str], bool],
    work: Callable[[str, int], bool],
    told: Callable[[str, list[str], int], None],
) -> bool:
    """Has each crate done, after those that it stands on: by `work`, with a number of processors, unless `is_done`.

    Ends with False at the first that `work` does not do. What is under way then goes on until the process ends.
    """
    longest = chains(crates)
    places = min(len(os.sched_getaffinity(0)), max(1, free_memory() // MEMORY))
    left = sorted(crates, key=lambda crate: -longest[crate])
    done: set[str] = set()
    under_way: dict[concurrent.futures.Future[bool], tuple[str, int]] = {}
    pool = concurrent.futures.ThreadPoolExecutor(places)
    while left or under_way:
        found = [crate for crate in left if done.issuperset(sources.below(crate)) and is_done(crate)]
        if found:
            done.update(found)
            left = [crate for crate in left if crate not in done]
            continue
        ready = [crate for crate in left if done.issuperset(sources.below(crate))]
        for at, crate in enumerate(ready):
            idle = places - sum(jobs for _, jobs in under_way.values())
            if idle > 0:
                jobs = max(1, min(idle // (len(ready) - at), 1 + (free_memory() - MEMORY) // MEMORY_MORE))
                left.remove(crate)
                under_way[pool.submit(work, crate, jobs)] = crate, jobs
        if not under_way:
            continue
        # a signal that comes just before a wait is seen after it, so none is long
        ended, _ = concurrent.futures.wait(under_way, WAIT, return_when=concurrent.futures.FIRST_COMPLETED)
        for run in ended:
            crate, _ = under_way.pop(run)
            if not run.result():
                return False
            done.add(crate)
            told(crate, sorted(name for name, _ in under_way.values()), len(done))
    pool.shutdown()
    return True
