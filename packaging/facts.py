"""What the sources say of the program: its commands, its limits, its statuses, and where it comes from."""
import pathlib
import re
import subprocess
from dataclasses import dataclass
from typing import List, Optional, Tuple

TOP = pathlib.Path(__file__).resolve().parent.parent
COMMANDS = TOP / "crates" / "command_words" / "src" / "command.rt"
HELP = TOP / "crates" / "operator_notes" / "src" / "help.rt"
FORMATS = TOP / "docs" / "FORMATS.md"


class FactsMissing(Exception):
    """A source no longer has what a page is made from; the text says which one and what was looked for."""


@dataclass(frozen=True)
class Command:
    """A command: its name, the words behind it, and what it does."""

    name: str
    words: Tuple[str, ...]
    does: str


def found(pattern: str, text: str, where: pathlib.Path) -> str:
    """The first group of a pattern in a text, or a failure that names the file."""
    match = re.search(pattern, text, re.MULTILINE | re.DOTALL)
    if not match:
        raise FactsMissing(f"{where.relative_to(TOP)} has no {pattern}: mend the pattern in packaging/facts.py")
    return match[1]


def usage_line() -> str:
    """The usage line, as the program prints it, without its line feed."""
    return found(r'USAGE_LINE: &str =\s*"(usage: .*?)\\n";', COMMANDS.read_text(), COMMANDS)


def help_lines() -> List[str]:
    """The lines of the page of help."""
    block = found(r"HELP: \[&str; \d+\] = \[(.*?)\];", HELP.read_text(), HELP)
    return re.findall(r'"((?:[^"\\]|\\.)*)"', block)


def version() -> str:
    """The version of the program, as it says it."""
    return found(r'VERSION: &str =\s*"version (\d[\d.]*)', HELP.read_text(), HELP)


def commands() -> List[Command]:
    """The commands of the usage line, each with what the page of help says of it."""
    does = {}
    for line in help_lines():
        match = re.match(r"ipbus (\S+)((?: [A-Z]+)*)\s{2,}(\S.*)", line)
        if match:
            does[match[1]] = match[3]
    listed = []
    for form in usage_line().removeprefix("usage: ipbus ").split(" | "):
        name, *words = form.split()
        if name not in does:
            raise FactsMissing(f"{HELP.relative_to(TOP)} has no line for the command {name}: add one")
        listed.append(Command(name, tuple(words), does[name]))
    return listed


def section(heading: str) -> str:
    """A section of docs/FORMATS.md, without its heading."""
    return found(rf"^## {re.escape(heading)}\n(.*?)(?=^## |\Z)", FORMATS.read_text(), FORMATS)


def tables(text: str) -> List[List[List[str]]]:
    """The tables of a text, each a list of rows of cells, the head first."""
    made: List[List[List[str]]] = []
    rows: List[List[str]] = []
    for line in [*text.splitlines(), ""]:
        if line.startswith("|"):
            cells = [cell.strip().replace("\\|", "|") for cell in re.split(r"(?<!\\)\|", line.strip()[1:-1])]
            if not all(set(cell) <= set("-: ") for cell in cells):
                rows.append(cells)
        elif rows:
            made.append(rows)
            rows = []
    return made


def example() -> str:
    """The example of a document that has every key."""
    return (TOP / "examples" / "guide" / "every_key.toml").read_text()


def revision() -> Optional[str]:
    """The revision of the sources, with `+` where they differ from it; none outside of git."""
    try:
        name = subprocess.run(["git", "-C", TOP, "rev-parse", "HEAD"], capture_output=True, text=True, check=True).stdout.strip()
        changed = subprocess.run(["git", "-C", TOP, "status", "--porcelain", "crates", "crates.txt"], capture_output=True, text=True)
    except (OSError, subprocess.CalledProcessError):
        return None
    return name + ("+" if changed.stdout.strip() else "")


def kit() -> str:
    """The line that names the kit on this machine, or that there is none."""
    try:
        return subprocess.run(["rt", "version"], capture_output=True, text=True, check=True).stdout.strip()
    except (OSError, subprocess.CalledProcessError):
        return "unknown: there is no rt here"


def proved_manifest() -> Optional[str]:
    """The sum of the sources that the proved program was built of, where these are the sources; else none."""
    prove = TOP / "bin" / "prove"
    if subprocess.run([prove, "--is-proved"], capture_output=True).returncode:
        return None
    return subprocess.run([prove, "--sum"], capture_output=True, text=True, check=True).stdout.splitlines()[-1]
