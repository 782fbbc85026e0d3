"""Cases in which something is ended, edited or replaced while it runs."""
import os
import pathlib
import signal
import subprocess
import time

from proving_cases.edits import LOW, MAIN
from proving_cases.small import LONGEST, Small, command, holds

# a crate below that proves as well, and says nothing of what it gives
SAYS_NOTHING = """// a library that stands on no other
#![tactic(auto)]

pub fn add_seven(x: u32) -> u32 {
    x
}
"""
MOMENTS = 10
GATE = """#!/bin/sh
# stands in for the kit's `rt`, of which `rt ci` alone is tried
[ "$1" = ci ] || exec REAL "$@"
rm -rf crates/ipbus/out
DOES
"""


def ended_in_the_middle(small: Small, kind: int, share: float, whole: float) -> None:
    """The prover is ended after a share of the time that a proof of the lowest crate takes; then the edit is taken back."""
    text = small.file(LOW).read_text()
    small.write(LOW, SAYS_NOTHING)
    with small.proving() as run:
        time.sleep(share * whole)
        (os.killpg if kind == signal.SIGHUP else os.kill)(run.pid, kind)
        run.wait()
        small.wait_for_no_prover()
    small.is_not_proved()
    small.write(LOW, text)
    small.proves()


def goes_on_where_it_was(small: Small) -> None:
    """From nothing: a run that is ended after the first crate, and another one."""
    with small.proving() as run:
        first = run.stdout.readline()
        run.terminate()
        holds(run.wait() == 130, f"a run that is ended should say so by its status: {run.returncode}")
    holds(first.split()[3] == "low", f"the lowest crate should be proved first: {first}")
    small.wait_for_no_prover()
    small.proves(crates=["middle", "ipbus"])


def changed_and_changed_back(small: Small) -> None:
    """A source is another one for a while, as its crate is proved."""
    small.edit(LOW, "// seven more", "// some seven more")
    text = small.file(LOW).read_text()
    with small.proving() as run:
        small.wait_for_prover("low")
        small.write(LOW, SAYS_NOTHING)
        time.sleep(1)
        small.write(LOW, text)
        _, said = run.communicate()
    # a prover that reads late sees the other text, and then refuses that
    is_told = "was touched while it was proved" in said or "low is NOT proved" in said
    holds(run.returncode == 1 and is_told, f"{run.returncode} {said[-600:]}")
    small.is_not_proved()
    small.proves(crates=["low"])


def two_runs_at_once(small: Small) -> None:
    small.edit(LOW, "// seven more", "// some seven more")
    with small.proving() as one, small.proving() as other:
        ended = [run.communicate() for run in (one, other)]
        statuses = [one.returncode, other.returncode]
    holds(statuses == [0, 0], f"both should end well: {statuses} {ended}")
    small.is_proved()
    small.proves(crates=[])


def a_full_disk(small: Small, room: pathlib.Path) -> str | None:
    """On a small disk where one can be had, else under a limit on the size of files."""
    size = sum(file.stat().st_size for file in small.top.rglob("*") if file.is_file())
    room.mkdir()
    words = ["mount", "-t", "tmpfs", "-o", f"size={size + 3_000_000}", "none", room]
    if command(words, small.top).status:
        small.edit(LOW, "// seven more", "// some seven more")
        ended = command(["sh", "-c", 'ulimit -f 60; exec "$0"', small.file("bin/prove")], small.top)
        holds(ended.status not in (0, 2), f"{ended}")
        small.is_not_proved()
        small.proves(crates=["low"])
        return "no disk can be mounted here: tried with a limit on the size of files"
    try:
        copy = small.copy(room / "small")
        copy.is_proved()
        copy.edit(LOW, "// seven more", "// some seven more")
        with (room / "filler").open("wb") as file:
            try:
                file.write(b"\0" * 10_000_000)
            except OSError:
                pass
        copy.refuses("")
        (room / "filler").unlink()
        command(["mount", "-o", f"remount,size={3 * size + 60_000_000}", room], small.top)
        copy.proves(crates=["low"])
    finally:
        command(["umount", "-l", room], small.top)
    return None


def gate(small: Small, does: str, while_it_runs=None) -> subprocess.Popen:
    """Runs `.ci/run` with a gate that does something in place of proving, and leaves a script as the program."""
    tools = small.top.parent / "gate"
    tools.mkdir()
    real = subprocess.run(["sh", "-c", "command -v rt"], stdout=subprocess.PIPE, text=True, check=True).stdout.strip()
    (tools / "rt").write_text(GATE.replace("REAL", real).replace("DOES", does))
    (tools / "rt").chmod(0o755)
    environment = {**os.environ, "PATH": f"{tools}:{os.environ['PATH']}"}
    run = subprocess.Popen(
        [small.file(".ci/run")], cwd=small.top, env=environment, start_new_session=True,
        stdout=subprocess.DEVNULL, stderr=subprocess.DEVNULL, stdin=subprocess.DEVNULL,
    )
    if while_it_runs:
        small.wait(lambda: small.file("gate_left").exists(), LONGEST, "the gate left no program")
        while_it_runs(run)
    run.wait()
    return run


LEAVES = (
    "mkdir -p crates/ipbus/out; printf '#!/bin/sh\\necho 14\\n' >crates/ipbus/out/ipbus; "
    "chmod 755 crates/ipbus/out/ipbus; touch gate_left"
)


def a_gate_that_passes(small: Small) -> None:
    gate(small, f"{LEAVES}; exit 0")
    ran = small.run()
    holds(ran.out == "14\n" and not ran.said, f"what the gate left should be taken: {ran}")
    small.edit(MAIN, "// a program", "// the program")
    small.is_not_proved()


def a_gate_that_fails(small: Small) -> None:
    gate(small, f"{LEAVES}; exit 1")
    small.is_not_proved()
    small.proves(crates=[])


def a_gate_that_is_cut_off(small: Small) -> None:
    gate(small, f"{LEAVES}; sleep 60", lambda run: os.killpg(run.pid, signal.SIGKILL))
    small.is_not_proved()
    small.proves(crates=[])


def a_gate_that_leaves_no_program(small: Small) -> None:
    gate(small, "exit 0")
    small.is_not_proved()


def edited_as_the_gate_runs(small: Small) -> None:
    gate(small, f"{LEAVES}; sleep 2; exit 0", lambda _: small.edit(MAIN, "// a program", "// the program"))
    small.is_not_proved()
    small.edit(MAIN, "// the program", "// a program")
    small.proves(crates=[])


def edited_and_back_as_the_gate_runs(small: Small) -> None:
    def there_and_back(_run: object) -> None:
        text = small.file(MAIN).read_text()
        small.write(MAIN, text.replace("// a program", "// another program"))
        time.sleep(0.1)
        small.write(MAIN, text)

    gate(small, f"{LEAVES}; sleep 2; exit 0", there_and_back)
    small.is_not_proved()
    small.proves(crates=[])


def another_kit(small: Small, kit: pathlib.Path, folder: pathlib.Path) -> None:
    """A kit with another name proves all again; one that lacks what is used is refused by one line."""
    (folder / "bin").mkdir(parents=True)
    for entry in kit.iterdir():
        if entry.name not in ("bin", "KIT-ID"):
            (folder / entry.name).symlink_to(entry)
    for entry in (kit / "bin").iterdir():
        if entry.name in ("rt", "rtlib.py"):
            (folder / "bin" / entry.name).write_bytes(entry.read_bytes())
            (folder / "bin" / entry.name).chmod(0o755)
        else:
            (folder / "bin" / entry.name).symlink_to(entry)
    (folder / "KIT-ID").write_text("another kit\n")
    environment = {**os.environ, "PATH": f"{folder}/bin:{os.environ['PATH']}"}
    with small.proving(env=environment) as run:
        small.wait_for_prover("low")
        run.terminate()
        run.wait()
    small.wait_for_no_prover()
    prover = folder / "bin" / "rattle"
    prover.unlink()
    prover.write_text(f'#!/bin/sh\n"{kit}/bin/rattle" "$@" | sed s/--statements/--interfaces/g\n')
    prover.chmod(0o755)
    ended = small.prove(env=environment)
    lines = ended.said.splitlines()
    holds(ended.status == 70 and len(lines) == 1 and "--statements" in lines[0], f"{ended}")
    small.proves(crates=[])
