"""Words of the command line: those that are no command, and those that ask for help."""
import re
import shutil
import tempfile
from pathlib import Path

from blackbox.trial import FIRST, TOP, USAGE, Trial
from model.notes import VERSION, usage_notes

NO_WORDS = "there is no command, or a word that is not UTF-8"
NO_COMMAND = '"{}" is no command; run, check, serve, load, audit, record, describe, undescribe, save and apply are'
ONE_TOO_MANY = '{}: "{}" is one too many'
MISSING = "a {} is missing"
OUT_OF_RANGE = '"{}" is no {} in 1 to 10 decimal digits'
PORT, CONNECTIONS = "port from 1 to 65535", "number of connections from 1 to 64"
OPERATIONS = "number of operations from 1 to 100000"
HYPHEN = '"{}" begins with a hyphen, and check takes no such word'
# words that are no command, and what is said of them
NO_COMMANDS = [
    ([], NO_WORDS),
    (["run", "x"], ONE_TOO_MANY.format("run takes no further word", "x")),
    (["Run"], NO_COMMAND.format("Run")),
    (["audit", "x"], ONE_TOO_MANY.format("audit takes no further word", "x")),
    (["record", "x"], ONE_TOO_MANY.format("record takes no further word", "x")),
    (["describe", "x"], ONE_TOO_MANY.format("describe takes no further word", "x")),
    (["undescribe", "x"], ONE_TOO_MANY.format("undescribe takes no further word", "x")),
    (["save", "x"], ONE_TOO_MANY.format("save takes no further word", "x")),
    (["apply", "x"], ONE_TOO_MANY.format("apply takes no further word", "x")),
    (["run "], NO_COMMAND.format("run ")),
    (["x\ty\x1b"], NO_COMMAND.format("x\\u{9}y\\u{1b}")),
    (["x" * 300], NO_COMMAND.format("x" * 200 + "..")),
    (["check"], "check needs the name of a table"),
    (["check", "main", "x"], ONE_TOO_MANY.format("check takes the name of one table", "x")),
    (["check", "-main"], HYPHEN.format("-main")),
    (["check", "--"], HYPHEN.format("--")),
    (["Check", "main"], NO_COMMAND.format("Check")),
    (["load"], MISSING.format(OPERATIONS)),
    *(
        (["load", word], OUT_OF_RANGE.format(word, OPERATIONS))
        for word in ("", "0", "0000000000", "00000000001", "+1", "-1", "1e3", "100001", "0x1", "4294967297")
    ),
    (["load", "1", "1"], ONE_TOO_MANY.format("the command takes no further word", "1")),
    (["serve"], MISSING.format(PORT)),
    (["serve", "5000"], MISSING.format(CONNECTIONS)),
    *(
        (["serve", word, "1"], OUT_OF_RANGE.format(word, PORT))
        for word in ("0", "65536", "00000005000", "0000065536", "0x1388")
    ),
    *(
        (["serve", "5000", word], OUT_OF_RANGE.format(word, CONNECTIONS))
        for word in ("0", "65", "00000000001", "+1")
    ),
    (["serve", "5000", "1", "1"], ONE_TOO_MANY.format("the command takes no further word", "1")),
    (["main"], NO_COMMAND.format("main")),
    *((words, NO_WORDS) for words in ([b"\xff"], ["check", b"\xff"], ["load", b"1\xff"], ["serve", "5000", b"\xff"])),
]


def help_page(trial: Trial) -> None:
    """The page of help has each command and an example of it that runs; the usage line and its status stay."""
    for words in (["--help"], ["-h"], ["run", "--help"], ["serve", "-h"]):
        done = trial.run([trial.program, *words])
        faults = [] if (done.stdout, done.returncode) == (USAGE, 2) else [f"{done}"]
        lines = done.stderr.decode().splitlines()
        page = "\n".join(line.removeprefix("ipbus: ") for line in lines)
        faults += [f"no prefix: {line}" for line in lines if not line.startswith("ipbus: ")]
        names = ("run", "check", "serve", "load", "audit", "record", "describe", "undescribe", "save", "apply")
        faults += [f"no {name}" for name in names if f"\nipbus {name} " not in f"\n{page}"]
        trial.count(f"words {words}", faults)
    for example in re.findall(r"(bin/ipbus (?:run|check|load|audit|record|describe|undescribe|save|apply) .*)", page):
        done = trial.run(["bash", "-c", example.replace("bin/ipbus", str(trial.program))], cwd=TOP)
        trial.count(f"example {example}", [] if done.returncode == 0 else [f"{done}"])


UNKNOWN = "what was proved of this program is not known: no file beside it says so"
NO_TEXT = "the file that says what was proved is no text"
TOO_LONG = "the file that says what was proved is too long to be one"
PROVED = ["ipbus 2: proved", "kit K", "program sha256 0", "sources sha256 0"]
# what stands in the file of an installed program, in the one beside the program, and what is said of them
ORIGINS: list[tuple[str, bytes | None, bytes | None, list[str]]] = [
    ("no file", None, None, [UNKNOWN]),
    ("a file", "\n".join([*PROVED, ""]).encode(), None, PROVED),
    ("a file beside it", None, "\n".join([*PROVED, ""]).encode(), PROVED),
    ("two files", b"installed\n", b"built\n", ["installed"]),
    ("an empty file", b"", None, []),
    ("control characters", b"a\x1bb", None, ["a\\u{1b}b"]),
    ("the longest file", b"x" * 100 + b"\n" * 3996, None, ["x" * 100]),
    ("a longer file", b"x" * 100 + b"\n" * 3997, None, [TOO_LONG]),
    ("a file that is no text", b"\xff\n", None, [NO_TEXT]),
]


def version(trial: Trial) -> None:
    """`--version` says what the file beside the program says of its proof; the usage line and its status stay."""
    program = trial.quiet if trial.said else trial.built
    for name, installed, beside, lines in ORIGINS:
        with tempfile.TemporaryDirectory() as room:
            placed = copied(program, Path(room))
            if installed is not None:
                (Path(room) / "share" / "ipbus" / "provenance").write_bytes(installed)
            if beside is not None:
                placed.with_name("ipbus.provenance").write_bytes(beside)
            note = "".join(f"ipbus: {line}\n" for line in [VERSION, *lines]).encode()
            trial.check(f"the version, {name}", trial.run([placed, "--version"]), USAGE, 2, note)
    with tempfile.TemporaryDirectory() as room:
        placed = copied(program, Path(room))
        (Path(room) / "share" / "ipbus" / "provenance").mkdir()
        note = f"ipbus: {VERSION}\nipbus: {UNKNOWN}\n".encode()
        trial.check("the version, a folder", trial.run([placed, "--version"]), USAGE, 2, note)
        # it is asked for beside a word of help too, and then the page alone is said
        done = trial.run([placed, "--version", "--help"])
        trial.count("the version and help", [] if b"proved" not in done.stderr else [f"{done}"])


def copied(program: Path, prefix: Path) -> Path:
    """The program as an installation below this folder has it, without what says where it comes from."""
    for folder in ("bin", "share/ipbus"):
        (prefix / folder).mkdir(parents=True)
    return Path(shutil.copy(program, prefix / "bin" / "ipbus"))


def other_words(trial: Trial) -> None:
    """Words that are no command, and names of tables that are none."""
    first = FIRST.read_bytes()
    for words, line in NO_COMMANDS:
        trial.check(f"words {words}", trial.answer(words, first), USAGE, 2, usage_notes(line))
    # a name with control characters is shown as it is on standard output, and escaped on standard error
    done = trial.answer(["check", "no\nsuch\x1b"], first)
    note = b"ipbus: table no\\u{a}such\\u{1b}: the document has no table of a name that is used\n"
    trial.check("words check with a line feed", done, b"refused: compile no\nsuch\x1b - UnknownModule\n", 3, note)
    # any other word can be that of a table
    for table in ("", "run", "none", "no such"):
        line = f"refused: compile {table} - UnknownModule\n".encode()
        trial.check(f"words check {table!r}", trial.answer(["check", table], first), line, 3)
    # what was not read is there for the next reader
    with FIRST.open("rb") as file:
        done = trial.run(["bash", "-c", '"$0" x; cat', trial.program], stdin=file)
    trial.check("other words leave the input", done, USAGE + first, 0, usage_notes(NO_COMMAND.format("x")))
