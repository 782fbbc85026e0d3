"""What the program owes to a document that it does not refuse: by the second program, and by what has to hold of each
transcript whatever the second program says."""
import tomllib
from typing import Any

from model.audit import YES, audit, audit_input
from model.captures import write_capture
from model.compiled import compiled, listing
from model.configuration import Configuration
from model.configuration import told as configuration_told
from model.network import run_session
from model.notes import (
    NOTES,
    asked_notes,
    configuration_notes,
    denial_notes,
    is_note_of_verdict,
    unmatched_notes,
)
from model.recorded import recorded
from model.refusals import refusal
from model.replay import Undecided, check_same_but_for_order, check_transcript
from model.session import Session
from model.told import Wrong
from model.transcript import transcript
from soaking import forms
from soaking.cases import Tried
from soaking.program import Done, Program

# of so many registers each two are compared
MOST_COMPARED = 700


def run(tried: Tried, program: Program, data: bytes) -> None:
    """`run` on a document whose boards are simulated."""
    done = program.run(["run"], data)
    session = Session(data)
    text, status = transcript(session, run_session(session))
    is_shared = bool(session.shared_boards())
    meet(tried, "run", done)
    tried.meet(forms.of_transcript(done.text.decode()).elements())
    if is_shared:
        same_but_for_order(tried, session, done, text)
        status = done.status if done.status in (0, 1) else 0
    else:
        tried.compare("transcript", done.text.decode(), text)
    tried.compare("status", done.status, status)
    tried.compare("note", done.note, denial_notes(session) + NOTES[status])
    replayed(tried, session, done)
    audited(tried, program, data, session, done)


def meet(tried: Tried, command: str, done: Done) -> None:
    tried.meet([f"status {command} {done.status}", *forms.of_note(done.note)])


def same_but_for_order(tried: Tried, session: Session, done: Done, text: str) -> None:
    try:
        check_same_but_for_order(session, done.text.decode(), text)
    except Wrong as wrong:
        tried.differs("transcript", str(wrong), found=done.text, wanted=text.encode())


def replayed(tried: Tried, session: Session, done: Done) -> None:
    """A transcript is right by replay: its bodies are executed in the printed order."""
    try:
        check_transcript(session, done.text.decode(), done.status)
    except Undecided:
        tried.is_judged = False
    except Wrong as wrong:
        tried.differs("replay", str(wrong), found=done.text)


def audited(tried: Tried, program: Program, data: bytes, session: Session, done: Done) -> None:
    """The audit of a transcript that was printed is yes, but where an operation shows some of its places alone."""
    answer = judge_audit(tried, program, data, done.text, session)
    if answer != YES and not answer.endswith(" Partial\n"):
        tried.differs("audit of a run", answer, found=done.text)


def judge_audit(tried: Tried, program: Program, document: bytes, text: bytes, session: Session) -> str:
    """`audit` answers as the second program does. What that answers."""
    wanted = audit(session, text)
    done = program.run(["audit"], audit_input(document, text))
    meet(tried, "audit", done)
    tried.compare("audit", (done.text.decode(errors="replace"), done.status), (wanted, int(wanted != YES)))
    if not tried.way:
        tried.meet([f"audit {wanted.split()[-1]}"])
        is_noted = done.note == NOTES[0] if wanted == YES else is_note_of_verdict(wanted, text, done.note)
        if not is_noted:
            tried.differs("note of an audit", repr(done.note[:400]), found=done.note)
    return wanted


class Listed(Session):
    """A session whose scripts are not looked at."""

    def plan(self) -> None:
        pass


def check(tried: Tried, program: Program, data: bytes, root: str) -> None:
    """`check` on a table that is not refused."""
    done = program.run(["check", root], data)
    document: dict[str, Any] = tomllib.loads(data.decode())
    entries = compiled(document.get("tables", {}), root)
    meet(tried, "check", done)
    if len(entries) > MOST_COMPARED:
        tried.is_judged = False
        return
    tried.meet(forms.of_listing(done.text.decode()))
    tried.compare("listing", (done.text.decode(), done.status), listing(entries))
    tried.meet(forms.of_note(done.note))
    names = [board["table"] for board in document["board"]]
    if all(is_compiled(document, name) for name in names):
        tried.compare("note of a listing", done.note, listing_notes(document, data))


def listing_notes(document: dict[str, Any], data: bytes) -> bytes:
    """What is said beside a listing: which rules of a policy match no register, and what scripts ask that can run."""
    asked = b"" if refusal("run", data) else asked_notes(Session(data))
    return (unmatched_notes(Listed(data)) if "policy" in document else b"") + asked


def is_compiled(document: dict[str, Any], root: str) -> bool:
    """Whether the table of a board, at which `check` does not look, can be read."""
    try:
        return len(compiled(document.get("tables", {}), root)) <= MOST_COMPARED
    except Exception:  # of another table any fault may be left
        return False


def configure(tried: Tried, program: Program, command: str, data: bytes) -> None:
    """`save` or `apply` on a document that is not refused; what was written whole is written again."""
    done = program.run([command], data)
    text, status = configuration_told(data, command, run_session)
    session = Configuration(data, command)
    session.run()
    meet(tried, command, done)
    tried.meet(forms.of_state(done.text.decode()))
    tried.compare("configuration", (done.text.decode(), done.status), (text, status))
    wanted = denial_notes(session) + configuration_notes(text, session.entries_applied(), status)
    tried.compare("note of a configuration", done.note, wanted)
    if command == "save" and status == 0 and not tried.way:
        again = data + done.text
        wanted_text, wanted_status = configuration_told(again, "apply", run_session)
        applied = program.run(["apply"], again)
        tried.compare("saved and applied", (applied.text.decode(), applied.status), (wanted_text, wanted_status))
        if applied.status == 0:
            tried.compare("applied again", applied.text, done.text)


def record(tried: Tried, program: Program, data: bytes) -> None:
    """`record` on a document that is not refused: the capture of the second program's network."""
    done = program.run(["record"], data)
    session = Session(data)
    _, status = transcript(session, run_session(session))
    meet(tried, "record", done)
    if session.shared_boards():
        status = done.status if done.status in (0, 1) else 0
    else:
        tried.compare("recording", done.text, write_capture(recorded(session)))
    tried.compare("status", done.status, status)
    tried.compare("note of a recording", done.note, denial_notes(session))
