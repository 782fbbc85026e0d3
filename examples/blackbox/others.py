"""The cases of other folders: audits, captures, files of uHAL, peers, and hostile inputs."""
from collections.abc import Callable

from audits.cases import audit_cases
from blackbox.trial import Part, Trial
from captures.cases import capture_cases
from captures.over_udp import CAPTURED
from hostile.cases import COUNT, HOSTILE
from net.cases import CASES
from net.peers import Peers, Skipped, within
from uhal.cases import uhal_cases


def of_audits(trial: Trial) -> None:
    """What the program answers to transcripts, right ones and changed ones."""
    for name, faults in audit_cases(trial.answer_built):
        trial.count(name, faults)


def of_captures(trial: Trial) -> None:
    """Captures and their descriptions."""
    for name, faults in capture_cases(trial.answer):
        trial.count(name, faults)


def from_uhal(trial: Trial) -> None:
    """Files of uHAL."""
    for name, faults in uhal_cases(trial.answer):
        trial.count(name, faults)


def among(name: str, case: Callable[[Peers], None]) -> Part:
    """One case among peers. One that the machine does not allow counts as neither."""

    def part(trial: Trial) -> None:
        try:
            trial.count(name, within(trial.case_seconds, [trial.quiet], case))
        except Skipped as why:
            print(f"{name}: skipped: {why}", flush=True)

    return part


PEERS: dict[str, Part] = {name: among(name, case) for name, case in {**CASES, **CAPTURED}.items()}


def hostile(name: str) -> Part:
    """Hostile inputs of one kind."""

    def part(trial: Trial) -> None:
        faults, tried = HOSTILE[name]([trial.quiet if trial.said else trial.built], trial.share(COUNT), 0)
        trial.count(name, faults)
        print(f"{name}: {tried}", flush=True)

    return part


HOSTILE_PARTS: dict[str, Part] = {name: hostile(name) for name in HOSTILE}
