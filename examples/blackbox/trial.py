"""What the black-box cases try: a program, and how many cases it passed."""
import pathlib
import subprocess
from collections.abc import Callable
from dataclasses import dataclass

from model.notes import NOTES, is_note_of, usage_line
from net.peers import CASE_SECONDS

HERE = pathlib.Path(__file__).resolve().parent.parent
TOP = HERE.parent
FIRST = HERE / "start" / "first.toml"
SCRIPT = TOP / "bin" / "ipbus"
# how many seconds one run of the program may take
SECONDS = 60
USAGE = usage_line()

Done = subprocess.CompletedProcess


@dataclass
class Trial:
    """One program on its cases. `program` starts it, `built` is the program itself, where it is started thousands of
    times. `times` is how many times longer it may take than the proved program. `said` is what standard error says at
    each start of it, before the program says anything: a line where `bin/ipbus` runs an unproved one."""

    program: pathlib.Path
    built: pathlib.Path
    times: int = 1
    said: bytes = b""
    # how many seconds a case among peers may take
    case_seconds: float = CASE_SECONDS
    passed: int = 0
    failed: int = 0
    # how often a transcript had too many ways to read it
    undecided: int = 0

    @property
    def seconds(self) -> int:
        """How long one run of the program may take."""
        return SECONDS * self.times

    def share(self, count: int) -> int:
        """How many of so many inputs are tried, and of what they must have at the least: a slow program has fewer."""
        return count // self.times

    @property
    def is_script(self) -> bool:
        """Whether a script starts the program, as `bin/ipbus` does."""
        return self.program.parent.name == "bin"

    @property
    def quiet(self) -> pathlib.Path:
        """What starts the program and says nothing of its own: the program itself where `bin/ipbus` runs an unproved
        one."""
        return self.script.parent.parent / "crates" / "ipbus" / "out" / "unproved" if self.said else self.program

    @property
    def script(self) -> pathlib.Path:
        """The script that starts the program of a repository."""
        return self.program if self.is_script else SCRIPT

    def count(self, name: str, faults: list[str]) -> None:
        """Counts a case as passed where it has no faults."""
        self.passed += not faults
        self.failed += bool(faults)
        for fault in faults:
            print(f"{name}: {fault}", flush=True)

    def check(
        self, name: str, done: Done, wanted_text: bytes, wanted_status: int, wanted_note: bytes | None = None
    ) -> None:
        """Counts a run as passed where its text, its status and its note are as wanted; the note is mostly that of the
        status, and has the sentence of a refusal where the input is refused."""
        if wanted_note is None and wanted_status == 3:
            wanted_note = done.stderr if is_note_of(wanted_text, done.stderr) else b"the sentence of the refusal"
        elif wanted_note is None:
            wanted_note = NOTES[wanted_status]
        wanted = {"text": wanted_text, "status": wanted_status, "note": wanted_note}
        given = {"text": done.stdout, "status": done.returncode, "note": done.stderr}
        pairs = ((what, given[what], wanted[what]) for what in wanted)
        self.count(name, [f"{what} {one!r}, wanted {other!r}" for what, one, other in pairs if one != other])

    def run(self, command: list, **settings) -> Done:
        """Runs a command, in which the program may stand anywhere, to its end."""
        done = subprocess.run(command, capture_output=True, timeout=self.seconds, **settings)
        done.stderr = done.stderr.removeprefix(self.said)
        return done

    def answer(self, words: list, data: bytes) -> Done:
        """Runs the program with these words and this input."""
        return self.run([self.program, *words], input=data)

    def answer_built(self, words: list, data: bytes) -> Done:
        """Runs the program itself with these words and this input."""
        return self.run([self.built, *words], input=data)


def trial_of(program: pathlib.Path, times: int = 1) -> Trial:
    """The trial of a program, or of a script that starts one."""
    done = subprocess.run([program, "load", "1"], capture_output=True, timeout=SECONDS * times)
    trial = Trial(program, program, times)
    trial.said = done.stderr if trial.is_script else b""
    return trial


# a part of the cases counts what it tries
Part = Callable[[Trial], None]
