"""How `bin/ipbus` starts the program."""
import os
import pathlib
import resource
import shutil
import subprocess
import tempfile

from blackbox.trial import FIRST, TOP, USAGE, Trial, trial_of

NOTE = b"ipbus: these sources are not proved yet: bin/prove proves and builds them; this run is unproved\n"
# in the place of the program: it shows its words, and then writes 60 bytes
SHOWS_WORDS = f"""#!/bin/sh
for word; do
  echo "[$word]"
done
echo {"x" * 59} || exit 5
"""


def fresh_copy(folder: pathlib.Path, script: pathlib.Path) -> pathlib.Path:
    """What a script needs of its repository, in a folder in which nothing was built. Answers the script there."""
    shutil.copytree(script.parent, folder / "bin")
    shutil.copy(TOP / "crates.txt", folder)
    shutil.copytree(TOP / "crates/command_words/src", folder / "crates/command_words/src")
    return folder / "bin" / script.name


def keep_unproved(folder: pathlib.Path, program: str) -> pathlib.Path:
    """A program stands where an earlier run keeps the one that it compiled from these sources. Answers what says so."""
    out = folder / "crates/ipbus/out"
    out.mkdir(parents=True)
    (out / "unproved").write_text(program)
    (out / "unproved").chmod(0o755)
    stamp = out / "unproved_of"
    stamp.write_bytes(subprocess.run([folder / "bin/prove", "--sum"], capture_output=True).stdout)
    return stamp


def words_reach_the_program(trial: Trial, plain: Trial, copy: pathlib.Path) -> None:
    """Each word comes to the program as it is. A limit on the size of the output is an error there, and no signal."""
    rest = b"x" * 59 + b"\n"
    for words in (["load", "1"], ["check", "no  such"], ["check", ""], ["check", "*"]):
        text = b"".join(f"[{word}]\n".encode() for word in words) + rest
        trial.check(f"words {words} as they are", plain.run([copy, *words]), text, 0, NOTE)

    def take_fifty() -> None:
        resource.setrlimit(resource.RLIMIT_FSIZE, (50, 50))

    with tempfile.TemporaryFile() as out:
        limits = {"preexec_fn": take_fifty, "timeout": trial.seconds}
        done = subprocess.run([copy, "load", "1"], stdout=out, stderr=subprocess.PIPE, **limits)
    faults = [] if done.returncode == 5 else [f"status {done.returncode}"]
    trial.count("an output of 50 bytes to what is started", faults)


def other_ways_to_start(trial: Trial) -> None:
    """By a link, in a copy that nothing was built in, and beside what an earlier run compiled."""
    script = trial_of(trial.script, trial.times)
    plain = Trial(script.program, script.program, trial.times)
    with tempfile.TemporaryDirectory() as name:
        folder = pathlib.Path(name)
        # by a link to it, from elsewhere
        (folder / "link").symlink_to(script.program)
        done = script.run([folder / "link", "run"], input=FIRST.read_bytes(), cwd="/")
        trial.check("a link", done, FIRST.with_suffix(".out").read_bytes(), 0)
        # in a copy that nothing was built in: it says so, and words that are no command start no build
        copy = fresh_copy(folder, script.program)
        others = ["x"], ["check"], ["check", "-x"], ["run", "x"], ["load", "0"], ["serve", "0", "1"]
        for words in (*others, ["load", "00000000001"]):
            trial.check(f"words {words} in a fresh copy", plain.run([copy, *words]), USAGE, 2, NOTE)
        # what an earlier run compiled from these sources is run again, and from no others
        stamp = keep_unproved(folder, SHOWS_WORDS)
        words_reach_the_program(trial, plain, copy)
        with (folder / "crates.txt").open("a") as file:
            file.write("# other sources\n")
        # the clock of files goes in steps of some milliseconds: these sources are later for sure
        later = stamp.stat().st_mtime_ns + 1
        os.utime(folder / "crates.txt", ns=(later, later))
        done = plain.run([copy, "load", "1"])
        trial.count("kept from other sources", [] if done.returncode == 70 else [f"status {done.returncode}"])
