"""Draws and tries cases in processes of their own, until the time is up. All of them end with the run."""
import multiprocessing
import os
import pathlib
import resource
import signal
import sys
import time
import traceback
from collections import Counter
from collections.abc import Iterator
from contextlib import contextmanager, suppress
from dataclasses import dataclass
from multiprocessing import connection
from typing import Any

from soaking.cases import Case, Tried
from soaking.parts import PARTS, share_of
from soaking.program import Program, TooLong, ends_with_its_parent
from soaking.shrinking import shrunk

# the memory that one process of the second programs may have, in bytes, and the seconds that a case may take there
MEMORY = 4 << 30
CASE_SECONDS = 300
# so many cases that differ in one way are made small and kept by each process
MOST_KEPT = 2
END_SECONDS = 20


class Slow(Exception):
    """The second program did not judge a case in its time."""


@dataclass
class Report:
    """What came of the case of a number. One that differs is reported at once, and again when it was made small and kept:
    `is_kept_later` and `kept` tell so."""

    part: str
    number: int
    tried: Tried
    seconds: float
    is_kept_later: bool = False
    kept: str = ""


@contextmanager
def bounded(seconds: float) -> Iterator[None]:
    """What runs here ends in its time."""

    def ring(_signal: int, _frame: Any) -> None:
        raise Slow

    before = signal.signal(signal.SIGALRM, ring)
    signal.setitimer(signal.ITIMER_REAL, seconds)
    try:
        yield
    finally:
        signal.setitimer(signal.ITIMER_REAL, 0)
        signal.signal(signal.SIGALRM, before)


def judged(name: str, case: Case, program: Program) -> Tried:
    """What comes of a case. A second program that ends in any other way than by its answer is a difference, too."""
    if case.is_costly and program.is_unproved:
        return Tried(is_judged=False)
    try:
        with bounded(CASE_SECONDS):
            return PARTS[name].tried(case, program)
    except TooLong as late:
        return Tried().differs("time", str(late))
    except (Slow, MemoryError):
        return Tried(is_judged=False)
    except Exception as error:
        return Tried().differs(f"exception {type(error).__name__}", traceback.format_exc(limit=-4))


def one(name: str, number: int, program: Program) -> tuple[Case | None, Tried]:
    """Draws and tries the case of a number."""
    try:
        with bounded(CASE_SECONDS):
            case = PARTS[name].drawn(number)
    except (Slow, MemoryError):
        return None, Tried(is_judged=False)
    except Exception as error:
        return None, Tried().differs(f"drawing {type(error).__name__}", traceback.format_exc(limit=-4))
    return case, judged(name, case, program)


def keep(folder: pathlib.Path, name: str, number: int, case: Case, tried: Tried, program: Program) -> str:
    """Leaves the smallest case that differs in the same way in a folder of its own, beside the whole one."""
    place = folder / f"{name}_{number}"
    place.mkdir(parents=True, exist_ok=True)
    small = shrunk(case, tried.way, lambda other: judged(name, other, program))
    last = judged(name, small, program) if small != case else tried
    for text, data in case.texts.items():
        (place / f"whole_{text}").write_bytes(data)
    for text, data in {**small.texts, **last.extra}.items():
        (place / text).write_bytes(data)
    words = " ".join(case.words)
    again = f"checks/soak --only {name} --seed {number} {program.path}"
    (place / "what").write_text(f"{words}\n{tried.way}: {tried.told}\nsmall: {last.way}: {last.told}\nagain: {again}\n")
    return str(place)


class Schedule:
    """Which case is next: of the part that has had the least time. Processes share it."""

    def __init__(self, names: list[str], first: int) -> None:
        self.names = names
        self.lock = multiprocessing.Lock()
        self.numbers = multiprocessing.Array("Q", [first] * len(names), lock=False)
        self.spent = multiprocessing.Array("d", [0.0] * len(names), lock=False)

    def next(self) -> tuple[int, int]:
        """A part by its place, and the number of its next case."""
        with self.lock:
            place = min(range(len(self.names)), key=lambda each: self.spent[each] / share_of(self.names[each]))
            number = self.numbers[place]
            self.numbers[place] = number + 1
            # what is under way counts for a little, so that not all processes take the same part
            self.spent[place] += 0.01
            return place, number

    def took(self, place: int, seconds: float) -> None:
        with self.lock:
            self.spent[place] += seconds


def work(schedule: Schedule, program: Program, folder: pathlib.Path, reports: connection.Connection) -> None:
    """One process: it tries case after case until it is ended."""
    ends_with_its_parent()
    os.setpgid(0, 0)
    signal.signal(signal.SIGINT, signal.SIG_IGN)
    signal.signal(signal.SIGTERM, signal.SIG_DFL)
    resource.setrlimit(resource.RLIMIT_AS, (MEMORY, resource.RLIM_INFINITY))
    kept: Counter[tuple[str, str]] = Counter()
    while True:
        place, number = schedule.next()
        name, began = schedule.names[place], time.monotonic()
        case, tried = one(name, number, program)
        report = Report(name, number, tried, time.monotonic() - began)
        schedule.took(place, report.seconds)
        kept[name, tried.way] += bool(tried.way)
        report.is_kept_later = bool(tried.way and case) and kept[name, tried.way] <= MOST_KEPT
        extra, tried.extra = tried.extra, {}
        reports.send(report)
        if report.is_kept_later and case:
            tried.extra = extra
            report.kept = keep(folder, name, number, case, tried, program)
            tried.extra = {}
            reports.send(report)


class Workers:
    """The processes of a run, and what they report."""

    def __init__(self, jobs: int, schedule: Schedule, program: Program, folder: pathlib.Path) -> None:
        pipes = [multiprocessing.Pipe(duplex=False) for _ in range(jobs)]
        self.readers = [reader for reader, _ in pipes]
        words = [(schedule, program, folder, writer) for _, writer in pipes]
        self.processes = [multiprocessing.Process(target=work, args=each, daemon=True) for each in words]
        sys.stdout.flush()
        for process in self.processes:
            process.start()
        for _, writer in pipes:
            writer.close()

    def until(self, end: float) -> Iterator[Report]:
        """The reports up to a moment. There are no more where all processes ended."""
        while self.readers and (left := end - time.monotonic()) > 0:
            for reader in connection.wait(self.readers, left):
                try:
                    yield reader.recv()
                except (EOFError, OSError):
                    self.readers.remove(reader)

    def end(self) -> None:
        """Ends all processes, and what they started."""
        for process in self.processes:
            for kill in (os.killpg, os.kill):
                with suppress(ProcessLookupError):
                    kill(process.pid, signal.SIGKILL)
        for process in self.processes:
            process.join(END_SECONDS)
