"""The kit: a crate is proved, judged and linked by the kit's own `rt`, as its gate does it.

`rt ci` has no command for one crate over libraries that are there. So its text is loaded, and the calls that the gate
makes for a crate are made here. What the gate refuses of a crate is refused by the same lines.
"""
import copy
import dataclasses
import functools
import importlib.machinery
import importlib.util
import os
import pathlib
import re
import subprocess
import sys
import tempfile
import types

from proving.sources import PROGRAM, TOP

# what is used of `rt` and of `rattle build`
CALLS = "Crate.prove Crate.words Crate.link handles_of kit_sum stop_on_words REACHES RENAMES IGNORED".split()
OF_LIBRARY = "Crate.below help_of lock code_of guarded stop_on_links stop_on_text".split()
FLAGS = "--statements --empty-contracts --list-axioms --logic-built --toolchain --backend --jobs".split()
# of the lines of `--list-axioms`, those of functions on which the verdict rests
REACHED = re.compile(r"^  (\S+) +reached$", re.M)


class OtherKit(Exception):
    """The kit is another than the one that this was written for."""


def loaded(file: pathlib.Path) -> types.ModuleType:
    """The kit's command `rt`, as a module."""
    loader = importlib.machinery.SourceFileLoader("rt", str(file))
    module = importlib.util.module_from_spec(importlib.util.spec_from_loader("rt", loader))
    sys.modules["rt"] = module
    loader.exec_module(module)
    return module


def lacks(module: object, names: list[str]) -> list[str]:
    """Those of some names, with dots, that a module does not have."""
    found = []
    for name in names:
        value = module
        for part in name.split("."):
            value = getattr(value, part, None)
        if value is None:
            found.append(name)
    return found


@dataclasses.dataclass
class Judged:
    """What a run of the prover came to: whether the crate is proved and passes what the gate asks, and what was said."""

    passes: bool
    said: str


class Kit:
    """The kit whose `rt` is on the path."""

    def __init__(self) -> None:
        doc = subprocess.run(["rt", "doc"], stdout=subprocess.PIPE, text=True, check=True).stdout.strip()
        self.top = pathlib.Path(doc).parent
        self.rt = loaded(self.top / "bin" / "rt")
        self.lib = self.rt.rtlib
        missing = lacks(self.rt, CALLS) + lacks(self.lib, OF_LIBRARY)
        if not missing:
            page = self.lib.help_of("build")
            missing = [flag for flag in FLAGS if not re.search(rf"^ +{flag}\b", page, re.M)]
        if missing:
            raise OtherKit(f"the kit in {self.top} has no {missing[0]}, which bin/prove uses; rt ci works with any kit")
        self.sum = self.rt.kit_sum()
        self.lib.Crate = self.rt.Crate
        # one walk down for each crate, and not one for each way down
        self.rt.Crate.below = functools.cache(self.rt.Crate.below)
        self.rt.Crate.allowed = self.rt.handles_of(str(TOP))
        # once, before threads ask
        self.lib.guarded()
        program = self.lib.Crate(str(TOP / "crates" / PROGRAM), str(TOP), {})
        self.crates = {crate.name: crate for crate in (*program.below(), program)}

    def handles(self) -> str:
        """The handles that HANDLES allows, as words."""
        return " ".join(self.rt.Crate.allowed)

    def hold(self) -> list[int]:
        """Waits until no other command works in the crates' folders, and keeps others out until this run ends."""
        return self.lib.lock(self.crates.values())

    def place(self, crate: str, library: pathlib.Path) -> None:
        """Says where the library of a crate stands."""
        self.crates[crate].rlib = str(library)

    def refused_text(self, crate) -> str | None:
        """Why the text of a crate is refused before it is proved, if it is."""
        self.lib.stop_on_links(crate.folder)
        self.lib.stop_on_text(crate, "verdict")
        self.rt.stop_on_words(crate)
        code = self.lib.code_of(crate.folder)
        for handle, words in self.rt.REACHES.items():
            if handle not in crate.allowed and re.search(words, code):
                return f"it names what only the handle {handle} reaches, and HANDLES does not allow it"
        if re.search(self.rt.RENAMES, code):
            return "it renames std, or takes it whole: name what it uses of std by its path"
        if re.search(self.rt.IGNORED, code):
            return "it has a test that nothing would run: remove the attribute or the test"
        return None

    def prove(self, name: str, made: pathlib.Path, jobs: int) -> Judged:
        """Proves a crate from nothing over the libraries below, and writes its library, or the object of the program."""
        crate = copy.copy(self.crates[name])
        with tempfile.TemporaryFile("w+", errors="replace") as crate.out:
            try:
                why = self.refused_text(crate)
                passes = not why and self.build(crate, made, jobs) == 0
            except SystemExit:
                # `rt` ends so where it refuses a text, and has said why
                why, passes = "its text is refused, as the line above says", False
            crate.out.seek(0)
            said = crate.out.read()
        return Judged(passes, f"{said}prove: {name}: {why}\n" if why else said)

    def build(self, crate, made: pathlib.Path, jobs: int) -> int:
        words = ["build", *crate.words(["--jobs", str(jobs)], keeps=False), "-o", str(made)]
        if crate.is_program:
            words += ["--toolchain", f"{self.top}/toolchain", "--backend", "llvm", "--list-axioms"]
        else:
            # the crates above read what is stated, and no proof
            words.append("--statements")
        return crate.prove(words)

    def link(self, made: pathlib.Path, program: pathlib.Path) -> Judged:
        """Links the program, and holds what it can call of the system to HANDLES."""
        crate = copy.copy(self.crates[PROGRAM])
        with tempfile.TemporaryFile("w+", errors="replace") as crate.out:
            status = crate.link(str(made), os.path.relpath(program, crate.folder))
            crate.out.seek(0)
            return Judged(status == 0, crate.out.read())

    def check_program(self, jobs: int) -> Judged:
        """Proves the program over the libraries that `rt ci` left, and has it said what the proof rests on."""
        crate = copy.copy(self.crates[PROGRAM])
        with tempfile.TemporaryFile("w+", errors="replace") as crate.out:
            status = crate.prove(["check", *crate.words(["--jobs", str(jobs)], keeps=False), "--list-axioms"])
            crate.out.seek(0)
            return Judged(status == 0, crate.out.read())


def axioms_in(said: str) -> str:
    """The C functions that the proof of a program rests on, as `--list-axioms` lists them: one on a line."""
    return "".join(f"{name}\n" for name in sorted(REACHED.findall(said)))
