"""What an installation has, below its prefix, and where each file comes from."""
import hashlib
import pathlib
import re
from dataclasses import dataclass
from typing import List, Optional

from packaging import completions, facts, manual

PROGRAM = facts.TOP / "crates" / "ipbus" / "out" / "ipbus"
UNPROVED = facts.TOP / "crates" / "ipbus" / "out" / "unproved"
LIST = "share/ipbus/installed"
PAGES = ("SESSIONS", "OPERATING", "UHAL", "CAPTURES", "FORMATS", "PROTOCOL", "PROVED", "TESTED", "WORDS")
LAUNCHER = '''#!/usr/bin/env python3
"""The command {name} of the Python package ipbus."""
import pathlib
import sys

sys.path.insert(0, str(pathlib.Path(__file__).resolve().parent.parent / "{python}"))
from {module} import {function}  # noqa: E402

sys.exit({function}())
'''


class NotInstallable(Exception):
    """Why there is nothing to install; the text says what to do next."""


@dataclass(frozen=True)
class Placed:
    """A file of an installation: where it stands below the prefix, its bytes, and its mode."""

    path: str
    content: bytes
    mode: int = 0o644


def proved_program() -> bytes:
    """The program that bin/prove built of these very sources."""
    told = facts.proved_manifest()
    if told is None:
        raise NotInstallable("the program is not proved yet: run bin/prove first, or install it by --unproved")
    return PROGRAM.read_bytes()


def unproved_program() -> bytes:
    """The program that bin/ipbus compiled without a proof."""
    if not UNPROVED.is_file():
        raise NotInstallable("there is no unproved program: run `bin/ipbus load 1` first, which compiles it")
    return UNPROVED.read_bytes()


def provenance(program: bytes, is_proved: bool) -> str:
    """Where an installed program comes from, a line each."""
    said = "proved" if is_proved else "NOT proved: compiled without a proof"
    lines = [f"ipbus {facts.version()}: {said}", f"revision {facts.revision() or 'unknown'}", f"kit {facts.kit()}"]
    lines.append(f"program sha256 {hashlib.sha256(program).hexdigest()}")
    if is_proved:
        lines.append(f"sources sha256 {facts.proved_manifest()}")
    return "\n".join(lines) + "\n"


def of_folder(folder: pathlib.Path, to: str, pattern: str) -> List[Placed]:
    """The files of a folder, each below another one."""
    found = sorted(file for file in folder.rglob(pattern) if file.is_file() and "__pycache__" not in file.parts)
    return [Placed(f"{to}/{file.relative_to(folder)}", file.read_bytes()) for file in found]


def launchers(python: str) -> List[Placed]:
    """The commands of the Python package, each a script that finds the package beside it."""
    scripts = facts.found(r"^\[project\.scripts\]\n(.*?)(?=^\[|\Z)", (facts.TOP / "python" / "pyproject.toml").read_text(), facts.TOP / "python" / "pyproject.toml")
    named = re.findall(r'^(\S+) = "([\w.]+):(\w+)"$', scripts, re.MULTILINE)
    return [
        Placed(f"bin/{name}", LAUNCHER.format(name=name, python=python, module=module, function=function).encode(), 0o755)
        for name, module, function in named
    ]


def files(is_proved: bool, python: Optional[str]) -> List[Placed]:
    """All files of an installation; the Python package stands below the folder that is given, or nowhere."""
    program = proved_program() if is_proved else unproved_program()
    made = [
        Placed("bin/ipbus", program, 0o755),
        Placed("share/ipbus/provenance", provenance(program, is_proved).encode()),
        Placed("share/man/man1/ipbus.1", manual.program_page().encode()),
        Placed("share/man/man5/ipbus-session.5", manual.session_page().encode()),
        Placed("share/bash-completion/completions/ipbus", completions.bash().encode()),
        Placed("share/zsh/site-functions/_ipbus", completions.zsh().encode()),
        Placed("share/fish/vendor_completions.d/ipbus.fish", completions.fish().encode()),
        Placed("share/doc/ipbus/copyright", (facts.TOP / "LICENSE").read_bytes()),
        Placed("share/doc/ipbus/NOTICE", (facts.TOP / "NOTICE").read_bytes()),
    ]
    made += [Placed(f"share/doc/ipbus/{name}.md", (facts.TOP / "docs" / f"{name}.md").read_bytes()) for name in PAGES]
    units = facts.TOP / "packaging" / "units"
    made += of_folder(units, "lib/systemd/system", "*.service")
    made.append(Placed("lib/sysusers.d/ipbus.conf", (units / "ipbus.conf").read_bytes()))
    if python is not None and (facts.TOP / "python" / "ipbus").is_dir():
        made += of_folder(facts.TOP / "python" / "ipbus", f"{python}/ipbus", "*")
        made += launchers(python)
    listed = "".join(f"{placed.path}\n" for placed in [*made, Placed(LIST, b"")])
    return [*made, Placed(LIST, listed.encode())]
