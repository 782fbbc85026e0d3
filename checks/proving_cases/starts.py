"""Cases of what a start of `bin/ipbus` looks at, and of what it compiles and says."""
import os
import pathlib
import shutil
import signal
import subprocess

from proving_cases.edits import LOW, MAIN
from proving_cases.small import LONGEST, NOT_PROVED, Ended, Small, command, holds

TOLD = ("paths", "seen")


def bare(small: Small, tools: str = "sh find cmp readlink") -> Ended:
    """A start with nothing on the path but these: no file can be compared by its contents."""
    folder = small.top.parent / "tools"
    if not folder.exists():
        folder.mkdir()
        for name in tools.split():
            (folder / name).symlink_to(shutil.which(name))
    return command([small.file("bin/ipbus"), "run"], pathlib.Path("/"), env={"PATH": str(folder)})


def is_seen_again(small: Small, what: str) -> None:
    """Something was touched and is what it was: contents are compared, once."""
    ran = bare(small)
    holds(NOT_PROVED in ran.said, f"{what} should be noticed: {ran}")
    small.is_proved()
    ran = bare(small)
    holds(ran == Ended(0, "14\n", ""), f"after {what} contents should be compared once: {ran}")


def hint(small: Small, ending: str) -> pathlib.Path:
    """A file of what spares comparing contents."""
    return small.file(f"crates/ipbus/out/proved.{ending}")


def replace(file: pathlib.Path, data: bytes, dates: os.stat_result) -> None:
    """Puts another file in the place of one, with its mode, and these dates."""
    new = file.with_name("new")
    new.write_bytes(data)
    new.chmod(file.stat().st_mode)
    os.utime(new, ns=(dates.st_atime_ns, dates.st_mtime_ns))
    os.replace(new, file)


def a_start_without_kit_and_python(small: Small) -> None:
    """Where no file was touched, a start takes nothing but a shell, `find` and `cmp`."""
    small.is_proved()
    ran = bare(small)
    holds(ran == Ended(0, "14\n", ""), f"{ran}")


def each_file_touched(small: Small) -> None:
    """Each file and folder that is looked at is touched, and its old dates are put back."""
    small.is_proved()
    told = hint(small, "paths").read_text()
    paths = [path for path in told.split("\0") if path and small.file(path).exists()]
    holds({LOW, "HANDLES", "crates/middle/src", "crates/ipbus/out/ipbus"} <= set(paths), f"{paths}")
    for path in paths:
        dates = small.file(path).stat()
        os.utime(small.file(path), ns=(dates.st_atime_ns, dates.st_mtime_ns))
        is_seen_again(small, f"a touch of {path}")


def replaced_with_old_dates(small: Small) -> None:
    """A file of the same size and dates, by a rename and in place; a file and a folder more, and gone again."""
    small.is_proved()
    dates, text = small.file(MAIN).stat(), small.file(MAIN).read_bytes()
    other = text.replace(b"// a program", b"// A program")
    replace(small.file(MAIN), other, dates)
    small.is_not_proved()
    replace(small.file(MAIN), text, dates)
    is_seen_again(small, "a rename")
    small.file(MAIN).write_bytes(other)
    os.utime(small.file(MAIN), ns=(dates.st_atime_ns, dates.st_mtime_ns))
    small.is_not_proved()
    small.file(MAIN).write_bytes(text)
    is_seen_again(small, "an edit in place")
    for name in ("crates/low/src/more.rt", "crates/middle/specs"):
        folder = small.file(name).parent
        dates = folder.stat()
        small.write(name, "")
        os.utime(folder, ns=(dates.st_atime_ns, dates.st_mtime_ns))
        ran = bare(small)
        holds(NOT_PROVED in ran.said, f"{name} should be noticed: {ran}")
        small.file(name).unlink()
    small.is_proved()


def a_moved_crate(small: Small) -> None:
    """The folder of a crate is put away, and a copy of it in its place."""
    small.is_proved()
    subprocess.run(["cp", "-a", small.file("crates/low"), small.file("copy")], check=True)
    small.file("crates/low").rename(small.file("old"))
    small.file("copy").rename(small.file("crates/low"))
    is_seen_again(small, "a folder in the place of another")


def a_hint_that_is_cut(small: Small) -> None:
    """What says what the files looked like is empty, or says less, or is that of a copy; then a source is edited."""
    small.is_proved()
    told = {ending: hint(small, ending).read_bytes() for ending in TOLD}
    small.edit(MAIN, "// a program", "// the program")
    less = told["paths"].replace(MAIN.encode() + b"\0", b"")
    for paths, seen in ((b"", b""), (b"\0", b""), (b"", told["seen"]), (less, told["seen"])):
        hint(small, "paths").write_bytes(paths)
        hint(small, "seen").write_bytes(seen)
        small.is_not_proved()
    for ending in TOLD:
        hint(small, ending).write_bytes(told[ending])
    for ending in TOLD:
        hint(small, ending).unlink()
    small.is_not_proved()
    small.edit(MAIN, "// the program", "// a program")
    is_seen_again(small, "a hint that is gone")


def a_find_of_few_words(small: Small) -> None:
    """A `find` that does not know what it is asked: contents are compared each time."""
    folder = small.without_kit()
    (folder / "find").write_text("#!/bin/sh\nexit 1\n")
    (folder / "find").chmod(0o755)
    for ending in TOLD:
        hint(small, ending).unlink(missing_ok=True)
    small.is_proved()
    holds(not hint(small, "seen").exists(), "no hint should be kept that says nothing")
    small.edit(MAIN, "// a program", "// the program")
    small.is_not_proved()


def its_version(small: Small) -> None:
    """What a program can say of its proof stands beside it."""
    small.is_proved()
    _, sources, program, kit, _ = small.file("crates/ipbus/out/proved").read_text().splitlines()
    said = f"proved by bin/prove\nkit sha256 {kit}\nprogram sha256 {program}\nsources sha256 {sources}\n"
    stands = small.file("crates/ipbus/out/ipbus.provenance").read_text()
    holds(stands == said, f"{stands}")


def compiled_once(small: Small) -> None:
    """A first start compiles, says so, and keeps what it compiled; an edit meanwhile is not taken for it."""
    small.edit(MAIN, "{number}", "1{number}")
    words = [small.file("bin/ipbus"), "run"]
    ran = command(words, small.top)
    holds(ran.status == 0 and ran.out == "114\n" and "compiled first" in ran.said, f"{ran}")
    ran = command(words, small.top)
    holds(ran.status == 0 and ran.out == "114\n" and "compiled" not in ran.said, f"{ran}")
    small.edit(MAIN, "1{number}", "2{number}")
    with started(small) as run:
        small.edit(MAIN, "2{number}", "3{number}")
        run.communicate()
    stamp = small.file("crates/ipbus/out/unproved_of")
    is_kept = command([small.file("bin/prove"), "--same", stamp], small.top).status == 0
    holds(not is_kept, "what was compiled from other sources should not be kept")


def compiled_while_nobody_looks(small: Small) -> None:
    """What the compiler linked is there, also where it was through before anyone looked."""
    small.edit("bin/proving/unproved.py", "LOOK, TELL = 0.02", "LOOK, TELL = 30")
    small.edit(MAIN, "{number}", "1{number}")
    ran = command([small.file("bin/ipbus"), "run"], small.top)
    holds(ran.status == 0 and ran.out == "114\n" and "compiled first" in ran.said, f"{ran}")


def started(small: Small) -> subprocess.Popen:
    """A first start, once its compiler works."""
    streams = {"stdin": subprocess.DEVNULL, "stdout": subprocess.PIPE, "stderr": subprocess.PIPE, "text": True}
    room = small.top.parent / "rooms"
    room.mkdir(exist_ok=True)
    environment = {**os.environ, "TMPDIR": str(room)}
    run = subprocess.Popen([small.file("bin/ipbus"), "run"], cwd=small.top, env=environment, **streams)
    small.wait(lambda: small.compilers() or run.poll() is not None, LONGEST, "no compiler")
    return run


def a_start_that_is_ended(small: Small) -> None:
    """As it compiles: the compiler ends too, and nothing of it is left."""
    small.edit(MAIN, "// a program", "// the program")
    for kind in (signal.SIGTERM, signal.SIGHUP):
        with started(small) as run:
            run.send_signal(kind)
            run.communicate()
        holds(run.returncode == 70, f"{run.returncode}")
        holds(not small.compilers(), "the compiler went on")
        left = list((small.top.parent / "rooms").iterdir())
        holds(not left, f"{left}")


def what_does_not_compile(small: Small) -> None:
    small.edit(LOW, "    x + 7\n", "    x + y\n")
    ran = command([small.file("bin/ipbus"), "run"], small.top)
    lines = ran.said.splitlines()
    holds(ran.status == 70 and not ran.out and lines[-1] == "ipbus: the program could not be compiled", f"{ran}")
    holds(any("cannot find value" in line for line in lines) and "Traceback" not in ran.said, f"{ran}")


def leave_libraries(small: Small, crate: str) -> None:
    """Puts the library of a crate where `rt ci` leaves it."""
    held = small.file(f"out/proved/{crate}")
    for number, name in enumerate((held / "names").read_text().splitlines()):
        place = small.file(f"crates/{crate}/out/rlib/{crate}.rlib/{name}")
        place.parent.mkdir(parents=True, exist_ok=True)
        shutil.copyfile(held / str(number), place)


def its_c_functions(small: Small) -> None:
    """What the program rests on is listed over the libraries that a gate left, as bin/prove lists it."""
    axioms = small.file("crates/ipbus/out/axioms")
    listed = axioms.read_text()
    axioms.unlink()
    for crate in ("low", "middle"):
        leave_libraries(small, crate)
    words = [small.file("bin/prove"), "--list-axioms"]
    ended = command(words, small.top)
    holds(ended.status == 0 and listed and axioms.read_text() == listed, f"{ended.said[-600:]} {listed}")
    small.is_proved()
    small.edit(MAIN, "// a program", "// the program")
    ended = command(words, small.top)
    holds(ended.status == 1 and "no proved program" in ended.said, f"{ended}")
