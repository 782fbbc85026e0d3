"""What the benchmarks share: the program that is timed, runs of a command and their least times, the plain hub in C,
and small programs that are built over a copy of the crates."""
import importlib.machinery
import importlib.util
import os
import pathlib
import shutil
import socket
import subprocess
import sys
import tempfile
import time
from collections import namedtuple

BENCH = pathlib.Path(__file__).resolve().parent
TOP = BENCH.parent
PROGRAM = TOP / "crates" / "ipbus" / "out" / "ipbus"

# seconds by the clock and of all threads, the status, the text, and the most memory in MB
Spent = namedtuple("Spent", "wall processor status text memory")


# a line of the table of bench/all: ours, and what is timed beside it in the same run; a time may be unknown
Row = namedtuple("Row", "what ours beside theirs")


def proved_program():
    """The program, which is proved and built where it is not yet: without the script that starts it."""
    subprocess.run([TOP / "bin" / "prove"], check=True, stdout=sys.stderr)
    return PROGRAM


def run(words, data=b""):
    """A run of a command, whose input and output are files."""
    with tempfile.TemporaryFile() as file, tempfile.TemporaryFile() as output:
        file.write(data)
        file.seek(0)
        began = time.monotonic()
        process = subprocess.Popen([str(word) for word in words], stdin=file, stdout=output)
        _, status, used = os.wait4(process.pid, 0)
        wall = time.monotonic() - began
        process.returncode = os.waitstatus_to_exitcode(status)
        output.seek(0)
        text = output.read().decode()
    return Spent(wall, used.ru_utime + used.ru_stime, process.returncode, text, used.ru_maxrss // 1024)


def least(spent):
    """The least times of some runs, which may be those of two of them, and what the last one gave."""
    spent = list(spent)
    wall, processor = (min(each) for each in zip(*((run.wall, run.processor) for run in spent)))
    return spent[-1]._replace(wall=wall, processor=processor)


def least_of(runs, words, data=b""):
    return least(run(words, data) for _ in range(runs))


def spent(wall, processor=None):
    """Times that were taken otherwise than by `run`."""
    return Spent(wall, processor, 0, "", 0)


def free_port(kind):
    """A port that nobody has, of a kind of sockets."""
    with socket.socket(socket.AF_INET, kind) as probe:
        probe.bind(("127.0.0.1", 0))
        return probe.getsockname()[1]


# the first line of a document whose parse alone is timed: it is refused behind that, and nothing else is read
REFUSED_FORMAT = b"format = 3\n"
REFUSED = "refused: document format Shape"


def parse_alone(runs, words, data):
    """The times of the TOML parse of a document, which is refused behind it. What is refused is read a second time, for
    what standard error says of it: so half of the whole."""
    parsed = least_of(runs, words, REFUSED_FORMAT + data)
    assert (parsed.status, last_line(parsed.text)) == (3, REFUSED), (parsed.status, last_line(parsed.text))
    return parsed._replace(wall=parsed.wall / 2, processor=parsed.processor / 2)


def last_line(text):
    lines = text.splitlines()
    return lines[-1] if lines else ""


def compiled(folder, source):
    """A program in C, compiled."""
    program = pathlib.Path(folder) / pathlib.Path(source).stem
    subprocess.run(["cc", "-O2", "-pthread", "-o", program, source], check=True)
    return program


def script(name):
    """A benchmark beside this file, as a module."""
    loader = importlib.machinery.SourceFileLoader(name, str(BENCH / name))
    module = importlib.util.module_from_spec(importlib.util.spec_from_loader(name, loader))
    loader.exec_module(module)
    return module


def plain_hub(folder):
    return compiled(folder, BENCH / "plain_hub.c")


def hubs_in_c(plain):
    """The forms of the plain hub by their names in a table: their first words. The second keeps to its end what the
    definitions of the program speak of."""
    return {"a hub in C": [plain], "a hub in C that keeps the same": [plain, "--keep"]}


def copy_of_crates(folder):
    for name in ("crates.txt", "HANDLES"):
        shutil.copy(TOP / name, folder / name)
    shutil.copytree(TOP / "crates", folder / "crates", ignore=shutil.ignore_patterns("out"))


def built(folder, name, below, source, words, proofs=None, copied=False):
    """A small program over these crates, proved and built in a copy of them, which is made where it is not there. It is
    run once with these words. `proofs` are files of its folder `proofs` by their paths."""
    folder = pathlib.Path(folder)
    if not copied:
        copy_of_crates(folder)
    crate = folder / "crates" / name
    files = {"src/main.rt": source} | {f"proofs/{path}": text for path, text in (proofs or {}).items()}
    for path, text in files.items():
        (crate / path).parent.mkdir(parents=True, exist_ok=True)
        (crate / path).write_text(text)
    with (folder / "crates.txt").open("a") as crates:
        crates.write(f"{name}: {below}\n")
    command = ["rt", "run", "--jobs", "1", "--", *map(str, words)]
    subprocess.run(command, cwd=crate, stdin=subprocess.DEVNULL, stdout=subprocess.DEVNULL)
    program = crate / "out" / name
    if not program.exists():
        raise SystemExit(f"{name} was not built")
    return program
