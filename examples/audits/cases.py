"""Cases of `audit`: the changed transcripts of this folder, the inputs that are refused, the transcripts that a number
draws, and the longest inputs, which the second program answers too. What standard error says beside an answer of no
stands in NAME.note, and of the others the forms of its lines are known."""
import pathlib
import re

from model.audit import MOST_DOCUMENT, MOST_INPUT, YES, audit, audit_input, audit_told
from model.drawn_transcripts import drawn_transcript
from model.notes import NOTES, is_note_of, is_note_of_verdict
from model.replay import check_text
from model.told import Wrong

HERE = pathlib.Path(__file__).resolve().parent
FIRST = HERE.parent / "start" / "first.toml"
REFUSED = HERE.parent / "refused"
DRAWN = 2000
# so many of these must have each answer at the least
LEAST_OF_EACH = 50
RULES = ("Form", "Partial", "Place", "Result", "Count")
# the refusals that the second program knows
OF_SECOND = ("NoLength", "TooLong", "NotSim")
PARTIAL = re.compile("audit no [0-9]+ Partial\n")
# so many characters of what differs are shown
MOST_SHOWN = 300


def is_note(text, status, note, transcript):
    """Whether what is said on standard error is that which belongs to an answer on this transcript."""
    if status == 3:
        return is_note_of(text.encode(), note)
    return note == NOTES[0] if status == 0 else is_note_of_verdict(text, transcript, note)


def faults_of(done, text, transcript=b""):
    """What is wrong where the program owes this text, which has its status."""
    status = 0 if text == YES else 3 if text.startswith("refused: ") else 1
    if (done.stdout, done.returncode) != (text.encode(), status):
        return [f"{done.stdout[:MOST_SHOWN]!r} with status {done.returncode}, wanted {text!r} with {status}"]
    return [] if is_note(text, status, done.stderr, transcript) else [f"it says {done.stderr[:MOST_SHOWN]!r}"]


def rows(folder, suffix):
    """The names in the list of answers of a folder, each with the file of that name and its answer."""
    answers = [line.split(": ", 1) for line in (folder / "answers").read_text().splitlines(keepends=True)]
    for name, text in answers:
        yield name, (folder / name).with_suffix(suffix), text
    files = {file.stem for file in folder.glob(f"*{suffix}")}
    assert files == {name for name, _ in answers}, f"{folder} has other files than its answers"


def of_files(answer):
    """The changed transcripts, each in the folder of its session; and the input that is made of a session and what it
    prints."""
    session = HERE / "one_read.toml"
    given = audit_input(session.read_bytes(), session.with_suffix(".out").read_bytes())
    is_same = given == session.with_suffix(".input").read_bytes()
    yield "audit one_read.input", [] if is_same else ["it is not the session and what it prints"]
    noted = set()
    for document in sorted(HERE.glob("*.toml")):
        data = document.read_bytes()
        for name, file, text in rows(document.with_suffix(""), ".transcript"):
            transcript, note = file.read_bytes(), file.with_suffix(".note")
            given = audit_input(data, transcript)
            done = answer(["audit"], given)
            yield f"audit {document.stem}/{name}", faults_of(done, text, transcript)
            is_same = audit_told(given)[0] == text
            yield f"reference for audit {document.stem}/{name}", [] if is_same else ["it differs"]
            if note.exists():
                noted.add(text.split()[-1])
                is_same = done.stderr == note.read_bytes()
                yield f"note of audit {document.stem}/{name}", [] if is_same else [f"it is {done.stderr!r}"]
    yield "rules with notes", [f"no {rule}" for rule in RULES if rule not in noted]


def of_refused(answer):
    """Inputs that are refused; and documents that `run` refuses, which are refused here by the same line."""
    for name, file, text in rows(HERE / "refused", ".input"):
        data = file.read_bytes()
        yield f"audit refused/{name}", faults_of(answer(["audit"], data), text)
        if text.split()[-1] in OF_SECOND:
            is_same = audit_told(data) == (text, 3)
            yield f"reference for audit refused/{name}", [] if is_same else ["it differs"]
    for document in sorted(REFUSED.rglob("*.toml")):
        if not document.with_suffix(".args").exists() and b'"udp"' not in document.read_bytes():
            given = audit_input(document.read_bytes(), b"")
            text = document.with_suffix(".out").read_text()
            yield f"audit refused/{document.relative_to(REFUSED)}", faults_of(answer(["audit"], given), text)


def is_right_by_replay(session, text):
    """Whether each line shows what it can, by replay. What a board counts of its places as replied, timeout and lost is
    left aside, since no rule compares it."""
    try:
        check_text(session, text.decode("latin-1"), is_counted=False)
    except Wrong:
        return False
    return True


def of_drawn(answer):
    """Changed transcripts that are drawn: the program answers what the second one does, and what fits is right by
    replay, and else nothing is. A line that is partial may be right or not."""
    answers = []
    for number in range(DRAWN):
        document, session, text = drawn_transcript(number)
        wanted = audit(session, text)
        answers.append(wanted.split()[-1])
        yield f"audit drawn {number}", faults_of(answer(["audit"], audit_input(document, text)), wanted, text)
        if answers[-1] != "Partial":
            is_same = is_right_by_replay(session, text) == (wanted == YES)
            yield f"replay of audit drawn {number}", [] if is_same else [f"it finds otherwise than {wanted!r}"]
    for each in ("yes", *RULES):
        count = answers.count(each)
        yield f"drawn audits {each}", [] if count >= LEAST_OF_EACH else [f"{count} of {DRAWN}"]


def of_the_longest(answer):
    """The greatest document, the longest input, and one byte more of each; and the greatest counts."""
    document, text = FIRST.read_bytes(), FIRST.with_suffix(".out").read_bytes()
    full = document + b"#" * (MOST_DOCUMENT - len(document))
    too_long = "refused: document - TooLong\n"
    yield "audit under the greatest document", faults_of(answer(["audit"], audit_input(full, text)), YES)
    yield "audit under one byte more", faults_of(answer(["audit"], audit_input(full + b"#", text)), too_long)
    rest = MOST_INPUT - len(audit_input(document, text))
    for name, behind in (("in one line", b"x" * rest), ("in many lines", b"\n" * rest)):
        given = audit_input(document, text + behind)
        yield f"the longest audit {name}", faults_of(answer(["audit"], given), "audit no 4 Form\n", text + behind)
        yield f"an audit of one byte more {name}", faults_of(answer(["audit"], given + b"\n"), too_long)
    yield "no length of one byte more", faults_of(answer(["audit"], b"x" * (MOST_INPUT + 1)), too_long)


def run_faults(answer, document, session, text):
    """What is wrong with the audit of a transcript that `run` printed: it is yes, or no where an operation shows some
    of its places alone, and it is that of the second program."""
    wanted = audit(session, text)
    is_of_run = wanted == YES or PARTIAL.fullmatch(wanted)
    faults = faults_of(answer(["audit"], audit_input(document, text)), wanted, text)
    return faults if is_of_run else [*faults, f"the second program says {wanted!r}"]


def unread_faults(answer, document, text):
    """The same where no second program can read the document."""
    done = answer(["audit"], audit_input(document, text))
    told = done.stdout.decode()
    is_of_run = told == YES or PARTIAL.fullmatch(told)
    return faults_of(done, told, text) if is_of_run else [f"{told[:MOST_SHOWN]!r}"]


def whole_faults(answer, document, text):
    """What is wrong with the audit of a transcript in which no place of an operation is missing: it is yes."""
    return faults_of(answer(["audit"], audit_input(document, text)), YES, text)


def audit_cases(answer):
    """The name of each case and what is wrong in it. `answer` runs the program with words and an input."""
    yield from of_files(answer)
    yield from of_refused(answer)
    yield from of_drawn(answer)
    yield from of_the_longest(answer)
