"""Cases in which files are edited, copied, unpacked, or put in the place of others."""
import os
import pathlib
import shutil
import subprocess

from proving_cases.small import Ended, Small, command, holds

LOW, MAIN = "crates/low/src/lib.rt", "crates/ipbus/src/main.rt"
DAY = 86_400
CLAUSE = "ensures { result ≡ seven_more x }"
FALSE_CLAUSE = "ensures { result ≡ seven_more (seven_more x) }"


def nothing_to_do(small: Small) -> None:
    small.is_proved()
    small.proves(crates=[])


def a_script_in_its_place(small: Small) -> None:
    small.put_script()
    small.is_not_proved()
    small.proves(crates=[])


def a_script_where_nothing_is_proved(small: Small) -> None:
    shutil.rmtree(small.file("out"), ignore_errors=True)
    for crate in ("low", "middle", "ipbus"):
        shutil.rmtree(small.file(f"crates/{crate}/out"), ignore_errors=True)
    small.put_script()
    small.is_not_proved()
    with small.proving() as run:
        small.wait_for_prover("low")
        run.terminate()
        run.wait()
    small.is_not_proved()


def another_tree_unpacked_over_it(small: Small, other: Small) -> None:
    """All that was built in another tree, with its dates, by tar; also where bin/prove is cut off then."""
    built = [name for name in ("out", "crates/low/out", "crates/middle/out", "crates/ipbus/out") if other.file(name).exists()]
    packed = subprocess.run(["tar", "c", *built], cwd=other.top, stdout=subprocess.PIPE, check=True).stdout
    subprocess.run(["tar", "x"], cwd=small.top, input=packed, check=True)
    small.is_not_proved()
    with small.proving() as run:
        small.wait_for_prover("low")
        run.terminate()
        run.wait()
    small.is_not_proved()


def its_program_alone_unpacked(small: Small, other: Small) -> None:
    packed = subprocess.run(["tar", "c", "crates/ipbus/out"], cwd=other.top, stdout=subprocess.PIPE, check=True).stdout
    subprocess.run(["tar", "x"], cwd=small.top, input=packed, check=True)
    small.is_not_proved()
    small.proves(crates=[])


def another_library_under_its_text(small: Small, other: Small) -> None:
    """The files of a library are those of another one, and what is told of them stays."""
    kept = small.file("out/proved/low")
    text = (kept / "made_of").read_bytes()
    shutil.rmtree(kept)
    shutil.copytree(other.file("out/proved/low"), kept)
    (kept / "made_of").write_bytes(text)
    small.is_proved()
    small.file("crates/ipbus/out/proved").unlink()
    small.is_not_proved()
    small.proves(crates=["low"])


def what_rt_left_stays(small: Small) -> None:
    """bin/prove neither takes nor replaces what `rt` keeps of its own, whose text tells rt what it has."""
    for name in ("low.rlib/format", "stamp"):
        small.write(f"crates/low/out/rlib/{name}", "of rt\n")
    small.edit(LOW, "// seven more", "// some seven more")
    small.proves(crates=["low"])
    for name in ("low.rlib/format", "stamp"):
        holds(small.file(f"crates/low/out/rlib/{name}").read_text() == "of rt\n", f"bin/prove changed rt's {name}")


def example_prints_another_text(small: Small) -> None:
    small.write("crates/ipbus/stdout", "13\n")
    small.refuses("does not print what it has to")
    small.refuses("does not print what it has to")
    small.write("crates/ipbus/stdout", "14\n")
    small.proves(crates=[])


def a_false_clause_of_yesterday(small: Small) -> None:
    small.edit(LOW, CLAUSE, FALSE_CLAUSE)
    now = small.file(LOW).stat().st_mtime
    os.utime(small.file(LOW), (now - DAY, now - DAY))
    small.refuses("low is NOT proved")
    small.refuses("low is NOT proved")
    small.edit(LOW, FALSE_CLAUSE, CLAUSE)
    small.proves(crates=[])


def an_older_file_copied_over(small: Small) -> None:
    """By `cp -p`, with a date before the program was built; and back again."""
    older, kept = small.file("older.rt"), small.file("kept.rt")
    shutil.copy2(small.file(MAIN), kept)
    older.write_text(small.file(MAIN).read_text().replace("{number}", "1{number}"))
    os.utime(older, (1_600_000_000, 1_600_000_000))
    subprocess.run(["cp", "-p", older, small.file(MAIN)], check=True)
    small.is_not_proved()
    subprocess.run(["cp", "-p", kept, small.file(MAIN)], check=True)
    small.is_proved()


def files_added_and_taken_out(small: Small) -> None:
    for name in ("crates/low/specs/More.antt", "crates/low/src/more.rt", "crates/middle/specs/Lib.antt"):
        small.write(name, "-- one more\n")
        small.is_not_proved()
        small.file(name).unlink()
        small.is_proved()
    sevens = small.file("crates/low/specs/Sevens.antt").read_text()
    small.file("crates/low/specs/Sevens.antt").unlink()
    small.is_not_proved()
    small.write("crates/low/specs/Sevens.antt", sevens)
    small.is_proved()
    small.file("crates/low/specs/Sevens.antt").unlink()
    small.refuses("low is NOT proved")


def crates_txt_changed(small: Small) -> None:
    small.edit("crates.txt", "# three", "# these three")
    small.is_not_proved()
    small.proves(crates=[])
    small.edit("crates.txt", "middle: low", "middle:")
    small.refuses()


def a_proof_edited(small: Small) -> None:
    """Proofs and comments in the lowest crate: that crate alone is proved again."""
    small.edit("crates/low/proofs/Sums.antt", "twice_seven = refl", "twice_seven = let it : 7 + 7 ≡ 14 = refl in it")
    small.edit("crates/low/proofs/add_seven/Answers.antt", "pub returns", "-- as it stands\npub returns")
    small.edit("crates/low/specs/Sevens.antt", "-- what", "-- that what")
    small.edit(LOW, "// seven more", "// some seven more")
    small.is_not_proved()
    small.proves(crates=["low"])


def a_proof_that_is_wrong(small: Small) -> None:
    """The code and what is stated of it stay, so the program that runs is the one that was proved; the proof is refused."""
    small.edit("crates/low/proofs/add_seven/Answers.antt", "returns c = refl", "returns c = c")
    small.is_proved()
    small.does_not_prove("low is NOT proved")
    small.is_proved()
    small.edit("crates/low/proofs/add_seven/Answers.antt", "returns c = c", "returns c = refl")
    small.proves(crates=[])


def proofs_added_and_taken_out(small: Small) -> None:
    """So it is of files of proofs: one that the kit does not read, and one that is missing."""
    more, sums = small.file("crates/low/proofs/add_seven/More.antt"), small.file("crates/low/proofs/Sums.antt")
    more.write_text("-- one more\n")
    small.is_proved()
    small.does_not_prove("low is NOT proved")
    more.unlink()
    sums.unlink()
    small.does_not_prove("low is NOT proved")
    small.is_proved()


def a_clause_changed(small: Small) -> None:
    """What the lowest crate states: each crate above is proved again, and the program prints what the new clause says."""
    small.edit("crates/low/specs/Sevens.antt", "seven_more x = x + 7", "seven_more x = x + 8")
    small.edit(LOW, "    x + 7\n", "    x + 8\n")
    small.edit("crates/middle/src/lib.rt", "result ≡ 14", "result ≡ 15")
    small.write("crates/ipbus/stdout", "15\n")
    small.is_not_proved()
    small.proves("15\n", crates=["low", "middle", "ipbus"])


def a_function_that_may_abort(small: Small) -> None:
    """Its clause is met by `todo!`."""
    small.edit(LOW, "#![tactic(auto)]\n", "#![tactic(auto)]\n\nuse std::process::Abort;\n")
    text = small.file(LOW).read_text()
    added = "\n// says much\npub fn any<R: Abort>(rt: &R) -> u32\n    ensures { result ≡ 5 }\n{\n    todo!(rt)\n}\n"
    small.write(LOW, text + added)
    small.refuses("low is NOT proved")


def a_call_that_nothing_can_make(small: Small) -> None:
    text = small.file(LOW).read_text()
    added = "\n// says much\npub fn any(x: u32) -> u32\n    requires { x < 0 }\n    ensures { result ≡ 5 }\n{\n    x\n}\n"
    small.write(LOW, text + added)
    small.refuses("low is NOT proved")


def a_handle_beyond_those_allowed(small: Small) -> None:
    small.write("HANDLES", "Handles allowed: Threads.\n")
    small.edit(LOW, "#![tactic(auto)]\n", "#![tactic(auto)]\n\npub use std::net::UdpSocket;\n")
    small.refuses("HANDLES does not allow it")


def handles_malformed(small: Small) -> None:
    small.write("HANDLES", "Handles allowed: all.\n")
    small.refuses("")


def is_of_user(ended: Ended, printed: str = "14\n") -> None:
    holds(ended == Ended(0, printed, ""), f"another user should run the proved program: {ended}")


def a_start_by_another_user(small: Small, nobody: list[str]) -> None:
    """From another folder and by a link too; with and without a note of what was seen; and with another's library."""
    subprocess.run(["chmod", "-R", "a+rX", small.top], check=True)
    is_of_user(small.run(tuple(nobody)))
    link = small.top.parent / "link"
    link.symlink_to(small.file("bin/ipbus"))
    path = {"PATH": f"{small.without_kit()}:{os.environ['PATH']}"}
    is_of_user(command([*nobody, link, "run"], pathlib.Path("/"), env=path))
    small.file(MAIN).touch()
    for _ in range(2):
        is_of_user(small.run(tuple(nobody)))
    small.edit(MAIN, "// a program", "// the program")
    ran = small.run(tuple(nobody))
    holds("not proved yet" in ran.said and "Traceback" not in ran.said, f"{ran}")


def an_unproved_program_for_all(small: Small, nobody: list[str]) -> None:
    """What a first start compiles can be run by everyone."""
    small.edit(MAIN, "// a program", "// the program")
    shutil.rmtree(small.file("crates/ipbus/out"))
    words = ["sh", "-c", 'umask 077; exec "$0" "$@"', small.file("bin/ipbus"), "run"]
    ran = command(words, small.top)
    holds(ran.status == 0 and ran.out == "14\n", f"{ran}")
    kept = small.file("crates/ipbus/out/unproved")
    holds(kept.stat().st_mode & 0o777 == 0o755, f"the mode of out/unproved is {kept.stat().st_mode:o}")
    subprocess.run(["chmod", "-R", "a+rX", small.top], check=True)
    ran = small.run(tuple(nobody))
    holds(ran.status == 0 and ran.out == "14\n" and "compiled" not in ran.said, f"{ran}")
