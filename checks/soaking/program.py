"""The program under trial: each run of it ends in its time, with the process that ran it."""
import ctypes
import os
import pathlib
import resource
import signal
import subprocess
import tempfile
from typing import NamedTuple

# how many seconds one run may take; an unproved program looks at each address that it uses
SECONDS = 60.0
UNPROVED_SECONDS = 240.0


class Done(NamedTuple):
    """What a run came to."""

    status: int
    text: bytes
    note: bytes


class TooLong(Exception):
    """A run did not end in its time."""


LIBC = ctypes.CDLL(None)
PR_SET_PDEATHSIG = 1


def ends_with_its_parent() -> None:
    """This process is killed where the one that started it ends."""
    LIBC.prctl(PR_SET_PDEATHSIG, signal.SIGKILL)


def free_of_limits() -> None:
    """The program has the memory of the machine, whatever the worker has that starts it, and ends with that."""
    ends_with_its_parent()
    _, most = resource.getrlimit(resource.RLIMIT_AS)
    resource.setrlimit(resource.RLIMIT_AS, (most, most))


class Program(NamedTuple):
    """A built program, and whether it is an unproved one, which needs more memory than it asks for."""

    path: pathlib.Path
    is_unproved: bool = False

    @property
    def seconds(self) -> float:
        """How long one run may take."""
        return UNPROVED_SECONDS if self.is_unproved else SECONDS

    def run(self, words: list[str] | tuple[str, ...], data: bytes, **settings: object) -> Done:
        """Runs it with these words and this input, to its end."""
        with tempfile.TemporaryFile() as given:
            given.write(data)
            given.seek(0)
            return self.run_on(words, given.fileno(), **settings)

    def run_on(self, words: list[str] | tuple[str, ...], given: int, memory: int = 0, out: int = subprocess.PIPE) -> Done:
        """Runs it on an open input, with so many bytes of memory if that is not 0, and to an open output."""

        def limits() -> None:
            free_of_limits()
            if memory:
                resource.setrlimit(resource.RLIMIT_AS, (memory, memory))

        process = subprocess.Popen(
            [self.path, *words], stdin=given, stdout=out, stderr=subprocess.PIPE, preexec_fn=limits, env=calm()
        )
        try:
            text, note = process.communicate(timeout=self.seconds)
        except subprocess.TimeoutExpired as late:
            raise TooLong(f"`{' '.join(words)}` did not end in {self.seconds:.0f} s") from late
        finally:
            process.kill()
            process.wait()
        return Done(process.returncode, text or b"", note)


def calm() -> dict[str, str]:
    """The environment of a run: what the tests of the program would change in it is not there."""
    return {name: value for name, value in os.environ.items() if not name.startswith("IPBUS_")}


def program_at(path: pathlib.Path) -> Program:
    """The program of a path. The kit builds an unproved one with a watch over its memory, which its bytes name."""
    return Program(path, b"AddressSanitizer" in path.read_bytes() or "unproved" in path.name)
