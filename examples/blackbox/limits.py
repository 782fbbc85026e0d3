"""Inputs that cannot be read, and the most of each thing that an input may have."""
import resource
import subprocess

from audits.cases import whole_faults
from blackbox.trial import FIRST, Trial
from model.configuration import MOST_KEPT
from model.notes import configuration_notes
from model.policy import MOST_RULES


def other_inputs(trial: Trial) -> None:
    """Inputs that are no document, too long, cut into bytes, or cannot be read."""
    first = FIRST.read_bytes()
    transcript = FIRST.with_suffix(".out").read_bytes()
    trial.check("no input", trial.answer(["run"], b""), b"refused: document - NoBoards\n", 3)
    for words in (["5000", "1"], ["05000", "0000000064"]):
        done = trial.answer(["serve", *words], b"")
        trial.check(f"no input to serve {words}", done, b"refused: document - NoBoards\n", 3)
    no_toml = b"refused: document - NotToml\n"
    for name, document, place, why in (
        ("not UTF-8", first + b"# \xff\n", (first.count(b"\n") + 1, 3), "this is no UTF-8"),
        ("no TOML", 'a = 1\n"kä" = "b\n'.encode(), (2, 10), "invalid string"),
        ("a key twice", b"a = 1\n  a = 2\n", (2, 3), "duplicate key"),
    ):
        note = f"ipbus: the document is no TOML\nipbus: line {place[0]}, column {place[1]}: {why}"
        done = trial.answer(["run"], document)
        trial.check(name, done, no_toml, 3, done.stderr if done.stderr.startswith(note.encode()) else note)
    full = first + b"#" * (16_777_216 - len(first))
    trial.check("the greatest document", trial.answer(["run"], full), transcript, 0)
    too_long = b"refused: document - TooLong\n"
    trial.check("one byte more", trial.answer(["run"], full + b"#"), too_long, 3)
    trial.check("one byte more to check", trial.answer(["check", "main"], full + b"#"), too_long, 3)

    # the greatest document where there is memory for a part of it
    def some_memory() -> None:
        resource.setrlimit(resource.RLIMIT_AS, (24 << 20, 24 << 20))

    trial.check("too little memory", trial.run([trial.program, "run"], input=full, preexec_fn=some_memory), b"", 6)

    # a pipe that gives one byte at a time
    slow = subprocess.Popen(
        [trial.program, "run"], stdin=subprocess.PIPE, stdout=subprocess.PIPE, stderr=subprocess.PIPE
    )
    for byte in first:
        slow.stdin.write(bytes([byte]))
        slow.stdin.flush()
    text, note = slow.communicate(timeout=trial.seconds)
    done = subprocess.CompletedProcess(slow.args, slow.returncode, text, note.removeprefix(trial.said))
    trial.check("a byte at a time", done, transcript, 0)

    for word in ("run", "audit", "describe", "undescribe", "save", "apply"):
        trial.check(f"a directory to {word}", trial.run(["bash", "-c", f'exec "$0" {word} < /', trial.program]), b"", 4)
        done = trial.run(["bash", "-c", f'exec "$0" {word} <&-', trial.program])
        trial.check(f"a closed input to {word}", done, b"", 4)


def session(lines: list[str]) -> bytes:
    """A document with a register `count` and a port `fifo`, and one client with these lines."""
    script = "".join(f'  "{line}",\n' for line in lines)
    return f"""
tables.main = [ {{ id = "count" }}, {{ id = "fifo", address = 1, mode = "port" }} ]
board = [ {{ name = "b0", table = "main", ranges = [ {{ base = 0, size = 2, init = [7, 8] }} ] }} ]
[[client]]
script = [
{script}]
""".encode()


def transcript_of(lines: list[str], places: int) -> bytes:
    board = f"board b0 places {places} replied {places} timeout 0 lost 0"
    return "".join(line + "\n" for line in ["client 1", *lines, board]).encode()


def largest_scripts(trial: Trial) -> None:
    """The most lines, operations and words of blocks that a session may have, and one more of each."""

    def too_many(line: int) -> bytes:
        return f"refused: script 1 {line} TooMany\n".encode()

    most, most_operations, most_words = 200_000, 100_000, 1_048_576
    trial.check("the most lines", trial.answer(["run"], session(["#"] * most)), transcript_of([], 0), 0)
    trial.count("audit of the most lines", whole_faults(trial.answer, session(["#"] * most), transcript_of([], 0)))
    trial.check("one line more", trial.answer(["run"], session(["#"] * (most + 1))), too_many(most + 1), 3)

    # a packet of 1500 bytes holds 368 words: its header, and 183 reads or their answers, of two words each
    reads = ["read b0:count"] * most_operations
    lines = [
        f"{n + 1} read b0:count = 0x00000007 @{n // 183 + 1}.{n % 183 + 1}" for n in range(most_operations)
    ]
    trial.check("the most operations", trial.answer(["run"], session(reads)), transcript_of(lines, 547), 0)
    trial.count("audit of the most operations", whole_faults(trial.answer, session(reads), transcript_of(lines, 547)))
    more = session([*reads, reads[0]])
    trial.check("one operation more", trial.answer(["run"], more), too_many(most_operations + 1), 3)

    # pieces of 255 words, each in a packet of its own, but for the last one of 16 words behind the one before it
    words = " 0x00000008" * most_words
    places = ",".join([*(f"{place}.1" for place in range(1, 4113)), "4112.2"])
    block = f"readblock b0:fifo {most_words}"
    lines = [f"1 readblock b0:fifo ={words} @{places}"]
    trial.check("the most words of blocks", trial.answer(["run"], session([block])), transcript_of(lines, 4112), 0)
    faults = whole_faults(trial.answer, session([block]), transcript_of(lines, 4112))
    trial.count("audit of the most words of blocks", faults)
    trial.check("one word more", trial.answer(["run"], session([block, "readblock b0:fifo 1"])), too_many(2), 3)


def largest_policies(trial: Trial) -> None:
    """The most rules that a policy may have, of which the last one decides, and one more."""
    others = ", ".join(f'{{ effect = "deny", access = "rw", name = "b0:other_{n}" }}' for n in range(MOST_RULES - 1))
    last = '{ effect = "deny", access = "w", name = "b0:count" }'
    lines = ["write b0:count 1", "read b0:count"]
    document = f"policy = [ {others}, {last} ]\n".encode() + session(lines)
    text = transcript_of(["1 write b0:count denied by rule 1024", "2 read b0:count denied by rule 0"], 0)
    note = b"ipbus: policy rule 1024 denied 1 operation: deny w b0:count\n"
    note += b"ipbus: no rule of the policy allowed 1 operation\n"
    for n in range(MOST_RULES - 1):
        note += f"ipbus: policy rule {n + 1} matches no register: deny rw b0:other_{n}\n".encode()
    trial.check("the most rules", trial.answer(["run"], document), text, 1, note)
    trial.count("audit of the most rules", whole_faults(trial.answer, document, text))
    document = f"policy = [ {others}, {last}, {last} ]\n".encode() + session(lines)
    for words in (["run"], ["check", "main"], ["serve", "5000", "1"], ["save"], ["apply"]):
        trial.check(f"one rule more to {words[0]}", trial.answer(words, document), b"refused: policy - Shape\n", 3)


def largest_configurations(trial: Trial) -> None:
    """The most registers that boards may keep, saved and then applied."""
    head = f"""format = 2
tables.main = [ {{ id = "r", count = {MOST_KEPT} }} ]
board = [ {{ name = "b0", table = "main", ranges = [ {{ base = 0, size = {MOST_KEPT}, init = [7] }} ] }} ]
"""

    def text_of(values: list[int]) -> bytes:
        names = sorted((f"r[{place}]" for place in range(MOST_KEPT)), key=str.encode)
        lines = "".join(f'"{name}" = 0x{values[int(name[2:-1])]:08x}\n' for name in names)
        return f"[state.b0]\n{lines}".encode()

    opening = text_of([7] + [0] * (MOST_KEPT - 1))
    note = configuration_notes(opening.decode())
    trial.check("the most registers saved", trial.answer(["save"], head.encode()), opening, 0, note)
    values = [place * 0x10001 & 0xFFFFFFFF for place in range(MOST_KEPT)]
    done = trial.answer(["apply"], head.encode() + text_of(values))
    trial.check("the most registers applied", done, text_of(values), 0, note)


def loads(trial: Trial) -> None:
    """So many sums of 1 at one register, by four clients over a link with noise: each was done once."""
    for word in ("1", "2", "3", "4", "5", "0000000005", "1000", "70000", "100000"):
        count = int(word)
        total = count * (count - 1) // 2
        text = f"load {count}\ndone {count}\nwas total {total}\nplaces {count}\n".encode()
        trial.check(f"load {word}", trial.answer(["load", word], b""), text, 0)
    with FIRST.open("rb") as file:
        done = trial.run(["bash", "-c", '"$0" load 1; cat', trial.program], stdin=file)
    text = b"load 1\ndone 1\nwas total 0\nplaces 1\n" + FIRST.read_bytes()
    trial.check("load leaves the input", done, text, 0)
