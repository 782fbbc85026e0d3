"""Session documents with something changed, drawn from a number: the program answers each of them in its time, with a
status and a text that go together, and a transcript that an audit takes."""
import pathlib
import random
import re
import subprocess
import tomllib
from concurrent.futures import ThreadPoolExecutor
from dataclasses import dataclass, field

from audits import cases as audits
from model.drawn import drawn_session
from model.notes import NOTES, denial_notes, is_note_of
from model.policy import is_told
from model.replay import Undecided, check_transcript
from model.session import Session
from model.told import Wrong

HERE = pathlib.Path(__file__).resolve().parent
SECONDS = 20
AT_ONCE = 4
LARGEST = 20_000
# as many as any parse of TOML takes
LEVELS = 40
DRAWN = 20
# of those that run, this part may be read by no model at the most, and this part be undecided by the replay
MOST_UNREAD, MOST_UNDECIDED = 0.05, 0.05

# what a value, a name or a text may be in the place of another, at the edge of some rule or past it
VALUES = """0 1 -1 16 17 64 65 91 92 255 256 600 9000 9001 65535 65536 4194304 4194305 4294967295 4294967296 0xffffffff
0x100000000 65537 1.0 1e3 inf true "" "0" "0x" "0xffffffff" "0x100000000" "4294967295" "00000000001" "+1" "rw" "block"
9223372036854775807 9223372036854775808 [] {} [1] [[]] {a=1} 1979-05-27 07:32:00 0o7 0b1 1_000""".split()
NUMBERS = """0 1 2 15 16 255 256 600 601 700 65536 4294967295 4294967296 0xffffffff 0x100000000 00000000001 -1 +1
1.0""".split()
NAMES = """format rounds window tables board client script name table mtu buffers first fates noise ranges base size kind
init address mask permission mode module nodes id tags description count stride link wait policy effect access x
""".split()
TEXTS = """|sim|rw|ro|wo|slow|r|w|read|write|single|block|port|inc|hierarchical|main|group|b0|b1|d|lrd159|x|0|a-b_c|a.b
|dispatch|read b0:id|read b0:|read :id|read b0|read b0:id 1|read  b0:id|write b0:count|write b0:count 0x100000000|# b0:id
|b0:id read|readblock b0:mem 0|readblock b0:mem 4194304|writeblock b0:mem|writeblock b0:mem 1 2 3|rmwsum b0:count 1
|rmwbits b0:count 1|rmwbits b0:count 1 2 3|readblock b0:low.memory 700|rmwsum b0:high.count 4294967295|allow|deny|*:**
|b0:unit[2].*|b0:unit[02].*|*:low.**.count""".replace(
    "\n", ""
).split("|")
PATTERNS = """*:** *:* b0:** b0:id b0:count b0:a b0:a.** *:low.* *:low.count b0:unit[*].** b0:unit[2].* b0:unit[02].*
b0:unit[0 b0:unit[65535].* b0:unit[65536].* b0:unit].* *:low.**.count b0:low..count b0:.count b0:low: :** b0 ** *.*
*:*[1]""".split()
SIGNS = '" \' [ ] [[ ]] { } = , . : # \\ \n \r\n \t \0 \x7f \u00e9 \U0001f4a1'.split(" ")

ANSWER = "(=( 0x[0-9a-f]{8})+|done|was 0x[0-9a-f]{8}|error [0-9]+ after [0-9]+|skipped)"
TRANSCRIPT_LINE = re.compile(
    r"client [0-9]+|board \S+ (places [0-9]+ replied [0-9]+ timeout [0-9]+ lost [0-9]+|silent|down)"
    r"|[0-9]+ (read|write|readblock|writeblock|rmwbits|rmwsum) \S+ "
    rf"({ANSWER}|unsent"
    rf"|timeout after [0-9]+ rounds, (execution unknown|answered late: {ANSWER}))"
    r"( @[0-9]+\.[0-9]+(,[0-9]+\.[0-9]+)*)?"
    r"|[0-9]+ (read|write|readblock|writeblock|rmwbits|rmwsum) \S+ denied by rule [0-9]+"
)
REFUSAL = re.compile(rb"refused: (document|table|policy|compile|board|script) [^\n]+ [A-Z][A-Za-z]+\n")
# what is said of denied operations, where no model can read the document
DENIALS = re.compile(
    rb"(ipbus: policy rule [0-9]+ denied [0-9]+ operations?: deny [^\n]+\n)*"
    rb"(ipbus: no rule of the policy allowed [0-9]+ operations?\n)?"
)


def is_toml(data):
    """Whether this is TOML of few levels beyond doubt: all its integers fit 64 bits."""
    try:
        return is_plain(tomllib.loads(data.decode()), LEVELS)
    except (ValueError, RecursionError):
        return False


def is_plain(value, levels):
    if isinstance(value, dict):
        value = list(value.values())
    if isinstance(value, list):
        return levels > 0 and all(is_plain(each, levels - 1) for each in value)
    return not isinstance(value, int) or -(2**63) <= value < 2**63


def is_refused(document):
    """Whether the status beside a document says so."""
    status = document.with_suffix(".status")
    return status.exists() and int(status.read_text()) == 3


def base_documents():
    """Documents of the examples whose boards are all simulated: those of sessions that run, with some that are drawn,
    and those that are refused."""
    good, bad = [drawn_session(number) for number in range(DRAWN)], []
    for folder in ("run", "guide", "listings", "arrays", "refused"):
        for file in sorted((HERE.parent / folder).rglob("*.toml")):
            data = file.read_bytes()
            if len(data) <= LARGEST and b"udp" not in data and is_toml(data):
                (bad if is_refused(file) else good).append(data)
    return good, good, good, bad


def change_bytes(draw, data, others):
    """A few bytes are others, left out, or there twice."""
    begin = draw.randrange(len(data) + 1)
    end = min(len(data), begin + draw.choice((0, 1, 1, 2, 5, 30)))
    put = draw.choice((b"", draw.randbytes(1), draw.randbytes(4), data[begin:end] * 2))
    return data[:begin] + put + data[end:]


def change_bit(draw, data, others):
    if not data:
        return b"\x80"
    place = draw.randrange(len(data))
    return data[:place] + bytes([data[place] ^ 1 << draw.randrange(8)]) + data[place + 1 :]


def change_lines(draw, data, others):
    """A line is left out, there twice, in the place of another, or from another document."""
    lines = data.splitlines(keepends=True) or [b""]
    one, two = draw.randrange(len(lines)), draw.randrange(len(lines))
    kind = draw.randrange(4)
    if kind == 0:
        del lines[one]
    elif kind == 1:
        lines.insert(two, lines[one])
    elif kind == 2:
        lines[one], lines[two] = lines[two], lines[one]
    else:
        lines.insert(one, draw.choice(draw.choice(others).splitlines(keepends=True) or [b""]))
    return b"".join(lines)


def put_in_place(draw, data, pattern, choices):
    """One of the places where a pattern stands has another text."""
    spots = list(re.finditer(pattern, data))
    if not spots:
        return data
    spot = draw.choice(spots)
    return data[: spot.start()] + draw.choice(choices).encode() + data[spot.end() :]


def change_value(draw, data, others):
    return put_in_place(draw, data, rb"(?<=[=,\[] )[0-9][0-9A-Za-z_]*|(?<== )\"[^\"\n]*\"", VALUES)


def change_number(draw, data, others):
    """A number of a line of a script is another one."""
    return put_in_place(draw, data, rb"(?<=[a-z0-9] )[0-9][0-9A-Za-z]*(?=[ \"])", NUMBERS)


def change_name(draw, data, others):
    return put_in_place(draw, data, rb"\b[a-z]+(?= *=)|(?<=\.)[a-z]+(?=[\]=])|(?<=\[)[a-z]+(?=[\].])", NAMES)


def change_text(draw, data, others):
    return put_in_place(draw, data, rb"\"[^\"\n]*\"", [f'"{text}"' for text in TEXTS])


def change_sign(draw, data, others):
    return put_in_place(draw, data, rb"[^0-9A-Za-z_\s]|\n", SIGNS)


def add_policy(draw, data, others):
    """A policy stands in front, of a few rules that may have faults."""

    def rule():
        effect, access = draw.choice(("allow", "deny", "deny")), draw.choice(("r", "w", "rw", "rw", "wr"))
        client = draw.choice(("", "", "", ", client = 1", ", client = 64", ", client = 0"))
        return f'{{ effect = "{effect}", access = "{access}", name = "{draw.choice(PATTERNS)}"{client} }}'

    rules = ", ".join(rule() for _ in range(draw.choice((0, 1, 1, 2, 5))))
    return f"policy = [ {rules} ]\n".encode() + data


def cut(draw, data, others):
    return data[: draw.randrange(len(data) + 1)]


def nest(draw, data, others):
    """Arrays or tables in one another, as many as the number says."""
    depth = draw.choice((2, 20, 200, 5000))
    begin, end = draw.choice(((b"[", b"]"), (b"{a=", b"}"), (b"a.", b"")))
    return data + b"\nz = " + begin * depth + b"1" + draw.choice((end * depth, b"", end)) + b"\n"


# how often each change is drawn
CHANGES = {change_value: 8, change_number: 8, change_text: 8, change_name: 4, change_lines: 4, change_sign: 2}
CHANGES |= {change_bytes: 2, change_bit: 2, add_policy: 2, cut: 1, nest: 1}


def changed_document(number, bases):
    draw = random.Random(f"document {number}")
    data = draw.choice(draw.choice(bases))
    for _ in range(draw.choice((1, 1, 1, 1, 2, 2, 3, 8))):
        (change,) = draw.choices(list(CHANGES), CHANGES.values())
        data = change(draw, data, bases[0])
    # a board behind a port would be one of another machine
    return data.replace(b"udp", b"sim")


def session_of(data):
    """The session, where the model can read it: it reads TOML 1.0 alone."""
    try:
        return Session(data)
    except Exception:
        return None


@dataclass
class Tried:
    """What came of one document: the status, what is wrong, and by what it was not judged: a model that cannot read it,
    or a transcript that has too many ways to read it."""

    status: int | None = None
    faults: list[str] = field(default_factory=list)
    is_unread: bool = False
    is_undecided: bool = False


def replay_faults(session, done, tried):
    """What the replay finds."""
    try:
        check_transcript(session, done.stdout.decode(), done.returncode)
    except Undecided:
        tried.is_undecided = True
    except Wrong as wrong:
        return [str(wrong)]
    return []


def refusal_faults(data, done):
    """What is wrong in a refusal."""
    if not REFUSAL.fullmatch(done.stdout):
        return [f"refused by {done.stdout!r}"]
    if not is_note_of(done.stdout, done.stderr):
        return [f"note {done.stderr!r} beside {done.stdout!r}"]
    if done.stdout == b"refused: document - NotToml\n" and is_toml(data):
        return ["TOML is refused as none"]
    return []


def audit_faults(program, session, data, done):
    """What is wrong with the audit of a transcript."""
    if session is None:
        return audits.unread_faults(program, data, done.stdout)
    return audits.run_faults(program, data, session, done.stdout)


def run_faults(program, data, done, tried):
    """What is wrong in a run."""
    session = session_of(data)
    tried.is_unread = session is None
    if session is None:
        is_noted = DENIALS.fullmatch(done.stderr)
    else:
        is_noted = done.stderr == denial_notes(session) + NOTES.get(done.returncode, b"")
    if not is_noted or done.returncode not in (0, 1):
        return [f"status {done.returncode}, note {done.stderr!r} beside {done.stdout!r}"]
    lines = done.stdout.decode().splitlines()
    strange = [line for line in lines if not TRANSCRIPT_LINE.fullmatch(line)]
    if strange:
        return [f"the line {strange[0]!r}"]
    replayed = replay_faults(session, done, tried) if session else []
    return [*replayed, *audit_faults(program, session, data, done)]


def faults_of(program, data, done, tried):
    """What is wrong in an answer to `run`. `program` runs it with words and an input."""
    if is_toml(data) and not is_told(tomllib.loads(data.decode()), done.stdout):
        return [f"{done.stdout[:200]!r} beside the policy"]
    return refusal_faults(data, done) if done.returncode == 3 else run_faults(program, data, done, tried)


def answer(command, data):
    def program(words, given):
        return subprocess.run([*command, *words], input=given, capture_output=True, timeout=SECONDS)

    tried = Tried()
    try:
        done = program(["run"], data)
        tried.status = done.returncode
        tried.faults = faults_of(program, data, done, tried)
    except subprocess.TimeoutExpired:
        tried.faults = [f"it took longer than {SECONDS} s"]
    return tried


def not_judged_faults(what, count, of, most):
    """What is wrong where so many of the inputs that ran were not judged: nobody would see a fault there."""
    return [f"{what} {count} of {of}, and {most * of:.0f} may be: mend the model"] if count > most * of else []


def try_documents(command, numbers):
    """The faults of these numbers, as texts, and how many documents were refused, and not judged."""
    bases = base_documents()

    def try_one(number):
        tried = answer(command, changed_document(number, bases))
        tried.faults = [f"document {number}: {fault}" for fault in tried.faults]
        return tried

    with ThreadPoolExecutor(AT_ONCE) as pool:
        answers = list(pool.map(try_one, numbers))
    faults = [fault for tried in answers for fault in tried.faults]
    refused = sum(each.status == 3 for each in answers)
    unread, undecided = sum(each.is_unread for each in answers), sum(each.is_undecided for each in answers)
    ran = len(answers) - refused
    faults += not_judged_faults("documents that no model can read:", unread, ran, MOST_UNREAD)
    faults += not_judged_faults("transcripts that the replay cannot decide:", undecided, ran, MOST_UNDECIDED)
    told = f"{refused} of {len(answers)} documents were refused; of the others {unread} could be read by no model"
    return faults, f"{told}, and {undecided} be decided by no replay"
