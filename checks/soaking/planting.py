"""Bugs that are planted in the unproved program, one or two for each part: each is found within its minutes.

Each stands in `planted/CRATE/NAME.edit` as those of `checks/mutants` do, and its line `case:` names the part that finds
it. One program has them all, and a number in it chooses one: it is built once.
"""
import argparse
import pathlib
import sys
import tempfile
import time
from collections.abc import Callable
from typing import TYPE_CHECKING, Any

from soaking.program import Program

if TYPE_CHECKING:
    from soaking.reporting import Account

HERE = pathlib.Path(__file__).resolve().parent
PLANTED = HERE / "planted"
MUTANTS = HERE.parent / "mutants"
MINUTES = 5.0


def edits() -> list[Any]:
    """The bugs in the order of their names."""
    sys.path.insert(0, str(MUTANTS))
    from edits import read_edit

    return [read_edit(path) for path in sorted(PLANTED.glob("*/*.edit"))]


def programs(folder: pathlib.Path, chosen: list[Any], kept: pathlib.Path | None) -> dict[str, pathlib.Path]:
    """The program with each bug, by its name: of the one that an earlier run kept of these sources, or a new one."""
    from building import built, sum_of, with_number

    numbered = list(enumerate(edits(), 1))
    total, stamp = sum_of(numbered), kept.with_name(f"{kept.name}.of") if kept else None
    if kept and stamp and kept.exists() and stamp.exists() and stamp.read_text() == total:
        data = kept.read_bytes()
    else:
        room = folder / "room"
        room.mkdir()
        data = built(room, numbered)
        if kept and stamp:
            kept.parent.mkdir(parents=True, exist_ok=True)
            kept.write_bytes(data)
            stamp.write_text(total)
    wanted = [(number, edit) for number, edit in numbered if edit in chosen]
    return {edit.name: with_number(data, number, folder / f"unproved_{number}") for number, edit in wanted}


def is_found(account: "Account") -> bool:
    return account.differing.total() > 0


def find_all(options: argparse.Namespace, soak: Callable[..., "Account"]) -> int:
    """Tries each bug on its part until a case differs. Answers 1 where one was not found in its time."""
    names = options.planted
    chosen = [edit for edit in edits() if not names or edit.name in names or edit.crate in names or edit.case in names]
    failed = 0
    with tempfile.TemporaryDirectory() as folder:
        made = programs(pathlib.Path(folder), chosen, options.kept.parent / "planted")
        options.minutes = options.minutes or MINUTES
        options.kept = pathlib.Path(folder) / "kept"
        for edit in chosen:
            began = time.monotonic()
            account = soak([edit.case], options, Program(made[edit.name], True), is_found)
            if account.is_stopped:
                return 1
            took, cases = time.monotonic() - began, account.cases.total()
            failed += not is_found(account)
            said = "found" if is_found(account) else "NOT FOUND"
            print(f"{edit.name}: {said} by {edit.case} after {took:.0f} s and {cases} cases", flush=True)
    print(f"{len(chosen) - failed} of {len(chosen)} planted bugs were found")
    return int(failed > 0)
