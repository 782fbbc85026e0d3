"""The pages of the documentation show what the program prints and says."""
import os
import pathlib
import re
import shutil
import subprocess
import sys
import tempfile

from blackbox.documents import configuration_by_model
from blackbox.trial import HERE, TOP, Trial
from model.notes import denial_notes
from model.policy import Rule
from model.session import Session


def guide(trial: Trial) -> None:
    """The guides to sessions and to serving show each document of `guide/`, and what belongs to it, as it is."""
    page = "".join((TOP / "docs" / name).read_text() for name in ("SESSIONS.md", "OPERATING.md"))
    for file in sorted((HERE / "guide").glob("*")):
        if file.suffix not in (".toml", ".out", ".py", ".txt"):
            continue
        shown = f"\n{file.read_text()}```\n"
        is_shown = any(f"```{kind}{shown}" in page for kind in ("", "toml", "python"))
        trial.count(f"guide/{file.name}", [] if is_shown else ["neither docs/SESSIONS.md nor docs/OPERATING.md shows it as it is"])


def guide_policies(trial: Trial) -> None:
    """The guide shows what is said of the operations that its first policy denies, and patterns match what it says."""
    page = (TOP / "docs" / "SESSIONS.md").read_text()
    session = Session((HERE / "guide" / "operator.toml").read_bytes())
    notes = "".join(f"    {line}\n" for line in denial_notes(session).decode().splitlines())
    trial.count("guide to denials", [] if f"\n\n{notes}\n" in page else [f"docs/SESSIONS.md does not show\n{notes}"])
    rows = page.partition("\n| Pattern | Matches | Matches not |\n")[2].partition("\n\n")[0]
    for pattern, matched, others in re.findall(r"^\| `(\S+)` \| (.*) \| (.*) \|$", rows, re.MULTILINE):
        rule = Rule(1, {"effect": "allow", "access": "r", "name": pattern})
        faults = [name for name in re.findall("`(.+?)`", matched) if not rule.matches(*name.split(":"))]
        faults += [name for name in re.findall("`(.+?)`", others) if rule.matches(*name.split(":"))]
        trial.count(f"guide to the pattern {pattern}", faults)
# in front of the configuration of the guide, and values behind it, of which one is not written
DENIED_CHANNEL = """[[policy]]
effect = "deny"
access = "w"
name = "*:ch[0].*"
[[policy]]
effect = "allow"
access = "rw"
name = "*:**"
"""
THRESHOLDS = """[state.fe0]
"ch[0].threshold" = 42
"ch[1].threshold" = 42
"""
# the packet of the writes is lost, and so are the status requests of all rounds; it is executed before the reads
EXECUTED_LATE = 'name = "fe0"\nfates = "ddlllllllll"\n'


def guide_values(trial: Trial) -> None:
    """The guide shows what is said of registers that do not show the value that they were given, and of a write that is
    executed late."""
    page = (TOP / "docs" / "OPERATING.md").read_text()
    session = (HERE / "guide" / "configuration.toml").read_text() + THRESHOLDS
    for name, old, new in (
        ("denied", "format = 2\n", "format = 2\n" + DENIED_CHANNEL),
        ("executed late", 'name = "fe0"\n', EXECUTED_LATE),
    ):
        document = session.replace(old, new).encode()
        done = trial.answer(["apply"], document)
        configuration_by_model(trial, f"guide to values {name}", "apply", document, done)
        notes = "".join(f"      {line}\n" for line in done.stderr.decode().splitlines())
        faults = [] if f"\n\n{notes}\n" in page else [f"docs/OPERATING.md does not show\n{notes}"]
        trial.count(f"notes of the guide to values {name}", faults)


def python_package(trial: Trial) -> None:
    """The tests of the package in `python/`, over the program. A file whose tests were all skipped, as those of the
    browser are where there is none, counts neither as passed nor as failed."""
    tests = TOP / "python" / "tests"
    for file in sorted(tests.glob("test_*.py")):
        words = [sys.executable, "-m", "unittest", "-v", file.stem]
        settings = {"cwd": tests, "env": {**os.environ, "IPBUS": str(trial.built)}, "capture_output": True, "text": True}
        done = subprocess.run(words, **settings)
        ran = sum(map(int, re.findall(r"^Ran (\d+) tests? in", done.stderr, re.MULTILINE)))
        skipped = re.findall(r"\.\.\. skipped ['\"](.*)['\"]$", done.stderr, re.MULTILINE)
        for why in sorted(set(skipped)):
            print(f"python/tests/{file.name}: {skipped.count(why)} of {ran} skipped: {why}", flush=True)
        is_passed = done.returncode == 0 and ran > 0
        if not is_passed or len(skipped) < ran:
            trial.count(f"python/tests/{file.name}", [] if is_passed else [done.stderr])


# the sections whose commands print what stands below them, and how many commands each has
SHOWN = (("README.md", "A first session", 1), ("docs/SESSIONS.md", "Recording", 1))


def guide_commands(trial: Trial) -> None:
    """The first session of README is its example, and the commands of some sections print what is shown below them."""
    document = (HERE / "start" / "one_read.toml").read_text()
    is_shown = f"\n```toml\n{document}```\n" in (TOP / "README.md").read_text()
    trial.count("guide to a first session", [] if is_shown else ["README.md does not show its example as it is"])
    for page, heading, count in SHOWN:
        section = (TOP / page).read_text().partition(f"\n## {heading}\n")[2].partition("\n## ")[0]
        commands = re.findall(r"^    \$ (.*)\n((?:    (?!\$).*\n)*)", section, re.MULTILINE)
        trial.count(f"{page} {heading}", [] if len(commands) == count else [f"{len(commands)} commands"])
        for command, lines in commands:
            done = trial.run(["bash", "-c", command.replace("bin/ipbus", str(trial.program))], cwd=TOP)
            given = "".join(f"    {line}\n" for line in done.stdout.decode().splitlines())
            trial.count(f"{page} {command}", [] if given == lines else [f"it prints {given}"])


def guide_audit(trial: Trial) -> None:
    """The commands of the guide to audits print and say what it shows, one after another."""
    page = (TOP / "docs" / "SESSIONS.md").read_text()
    section = page.partition("\n## What did I run last month\n")[2].partition("\n## ")[0]
    with tempfile.TemporaryDirectory() as folder:
        shutil.copy(HERE / "guide" / "last_month.toml", pathlib.Path(folder) / "session.toml")
        commands = re.findall(r"^    \$ (.*)\n((?:    (?!\$).*\n)*)", section, re.MULTILINE)
        for command, lines in commands:
            done = trial.run(["bash", "-c", command.replace("bin/ipbus", str(trial.program))], cwd=folder)
            given, said = (
                "".join(f"    {line}\n" for line in text.decode().splitlines()) for text in (done.stdout, done.stderr)
            )
            is_shown = given == lines and (not said or f"\n\n{said}\n" in section)
            trial.count(f"guide to audits {command}", [] if is_shown else [f"{done}"])
    trial.count("guide to audits", [] if len(commands) == 5 else [f"{len(commands)} commands"])


def pictures(trial: Trial) -> None:
    """The pictures of the documents are those that their script draws."""
    done = trial.run([TOP / "docs" / "pictures" / "draw", "--same"])
    trial.count("pictures", [] if done.returncode == 0 else ["docs/pictures/draw draws others"])


def page_of_captures(trial: Trial) -> None:
    """The page on captures shows a capture and its description as they are, and what is said of a description."""
    page = (TOP / "docs" / "CAPTURES.md").read_text()
    for name in ("one_read.capture", "one_read.description"):
        is_shown = f"\n```\n{(HERE / 'captures' / name).read_text()}```\n" in page
        trial.count(f"captures/{name}", [] if is_shown else ["docs/CAPTURES.md does not show it as it is"])
    command, *lines = re.search(r"^    \$ (sed .*)\n((?:    .*\n)+)", page, re.MULTILINE).groups()
    done = trial.run(["bash", "-c", command.replace("bin/ipbus", str(trial.program))], cwd=TOP)
    given = "".join(f"    {line}\n" for line in (done.stdout + done.stderr).decode().splitlines())
    trial.count("page of captures", [] if [given] == lines else [f"{command} prints {given}"])
