"""Outputs that cannot be written, and a machine that has too little."""
import os
import re
import resource
import signal
import subprocess
import tempfile
from pathlib import Path

from blackbox.trial import FIRST, HERE, Trial
from model.notes import NOTES, UNWRITTEN, denial_notes
from model.session import Session


def refusal_of(trial: Trial, command: str, file: Path) -> str:
    """What is said on standard error of an input that a command refuses."""
    return trial.answer([command], file.read_bytes()).stderr.decode()


def other_outputs(trial: Trial) -> None:
    """Outputs that are full, closed, or take a part of the text."""
    refused = HERE / "refused" / "script" / "unknown_register.toml"
    captures = HERE / "captures"
    one_read, is_none = captures / "one_read.capture", captures / "refused" / "odd_digits.capture"
    described, is_no_text = one_read.with_suffix(".description"), captures / "refused" / "more_proved.description"
    for name, target in (("a full output", ">/dev/full"), ("a closed output", ">&-")):
        for told, words, document, note in (
            ("a transcript", "run", FIRST, UNWRITTEN["run"]),
            ("a listing", "check main", FIRST, UNWRITTEN["check"]),
            ("the usage line", "", FIRST, UNWRITTEN["usage"]),
            ("a summary", "load 2", FIRST, UNWRITTEN["load"]),
            ("a configuration", "save", FIRST, UNWRITTEN["save"]),
            ("an audit", "audit", HERE / "audits" / "one_read.input", UNWRITTEN["audit"]),
            ("a refusal", "run", refused, UNWRITTEN["refusal"] + refusal_of(trial, "run", refused)),
            ("a recording", "record", FIRST, UNWRITTEN["record"]),
            ("a description", "describe", one_read, UNWRITTEN["describe"]),
            ("a capture", "undescribe", described, UNWRITTEN["undescribe"]),
            ("no capture", "describe", is_none, UNWRITTEN["refused capture"] + refusal_of(trial, "describe", is_none)),
            (
                "no description",
                "undescribe",
                is_no_text,
                UNWRITTEN["refused description"] + refusal_of(trial, "undescribe", is_no_text),
            ),
        ):
            command = f'exec "$0" {words} < "$1" {target}'
            done = trial.run(["bash", "-c", command, trial.program, document])
            trial.check(f"{name} for {told}", done, b"", 5, note.encode())

    # what was denied is told also where the transcript cannot be written
    denied = HERE / "run" / "policy_on_two_boards.toml"
    note = denial_notes(Session(denied.read_bytes())) + UNWRITTEN["run"].encode()
    done = trial.run(["bash", "-c", 'exec "$0" run < "$1" >/dev/full', trial.program, denied])
    trial.check("a full output for denied operations", done, b"", 5, note)

    # an output that takes 50 bytes and no more: a limit on its size is an error, and no signal
    def take_fifty() -> None:
        resource.setrlimit(resource.RLIMIT_FSIZE, (50, 50))
        if not trial.is_script:
            # a script sees to that by itself
            signal.signal(signal.SIGXFSZ, signal.SIG_IGN)

    with FIRST.open("rb") as file, tempfile.TemporaryFile() as out:
        done = subprocess.run(
            [trial.program, "run"],
            stdin=file,
            stdout=out,
            stderr=subprocess.PIPE,
            timeout=trial.seconds,
            preexec_fn=take_fifty,
        )
        out.seek(0)
        done.stdout, done.stderr = out.read(), done.stderr.removeprefix(trial.said)
        text = FIRST.with_suffix(".out").read_bytes()[:50]
        trial.check("an output of 50 bytes", done, text, 5, UNWRITTEN["run"].encode())

    # where standard error cannot be written either, the status is the same
    done = trial.run(["bash", "-c", 'exec "$0" run < "$1" >/dev/full 2>&-', trial.program, FIRST])
    trial.check("no output at all", done, b"", 5, b"")


def too_few_files(trial: Trial) -> None:
    """A link over UDP takes a file of the process, and there are too few of them for all boards."""
    document = 'rounds = 1\n[[tables.main]]\nid = "id"\n'
    for number in range(16):
        address = f'address = "127.0.0.1:{number + 1}"\nwait = 1\n'
        document += f'[[board]]\nname = "b{number}"\ntable = "main"\nlink = "udp"\n{address}'

    def sixteen_files() -> None:
        resource.setrlimit(resource.RLIMIT_NOFILE, (16, 16))

    silent = rb"ipbus: b\d \(127\.0\.0\.1:\d\) does not answer: it is not asked again until the next start\n"
    lock = rb"ipbus: no lock file can be made: Too many open files \(os error 24\); another hub .*\n"
    last = rb"ipbus: b\d \(127\.0\.0\.1:\d\): Too many open files \(os error 24\)\n" + re.escape(NOTES[7])
    wanted = re.compile(b"(?:%b)+(?:%b)?(?:%b)*%b" % (silent, lock, silent, last))
    for words in (["run"], ["serve", "5000", "1"]):
        with tempfile.TemporaryDirectory() as folder:
            settings = {**os.environ, "XDG_RUNTIME_DIR": folder, "TMPDIR": folder}
            done = trial.run([trial.program, *words], input=document.encode(), preexec_fn=sixteen_files, env=settings)
        note = done.stderr if wanted.fullmatch(done.stderr) else b"the silent boards, and the file that is missing"
        trial.check(f"too few files for {words[0]}", done, b"", 7, note)


def too_few_threads(trial: Trial) -> None:
    """Nobody may have more than one thread: then one thread does the work of all clients."""

    def nobody_with_one_thread() -> None:
        resource.setrlimit(resource.RLIMIT_NPROC, (1, 1))
        os.setgid(65534)
        os.setuid(65534)

    try:
        done = trial.run([trial.built, "load", "1000"], preexec_fn=nobody_with_one_thread)
    except (OSError, subprocess.SubprocessError) as why:
        print(f"too few threads: skipped: {why}")
        return
    trial.check("too few threads", done, b"load 1000\ndone 1000\nwas total 499500\nplaces 1000\n", 0)
