"""Audits of changed transcripts: the answer is that of the second program, and yes just where a replay finds it right."""
from model.audit import YES
from model.drawn_transcripts import drawn_transcript
from model.replay import Undecided, check_text
from model.session import Session
from model.told import Wrong
from soaking import sessions
from soaking.cases import Case, Tried
from soaking.program import Program

DOCUMENT, TRANSCRIPT = "document.toml", "transcript.txt"


def drawn(number: int) -> Case:
    document, _, text = drawn_transcript(number)
    return Case(("audit",), {DOCUMENT: document, TRANSCRIPT: text})


def is_right(session: Session, text: bytes) -> bool:
    """Whether a replay takes a transcript, but for what its boards count."""
    try:
        check_text(session, text.decode("latin-1"), is_counted=False)
        return True
    except Undecided:
        raise
    except Wrong:
        return False


def tried(case: Case, program: Program) -> Tried:
    found = Tried()
    session, text = Session(case.texts[DOCUMENT]), case.texts[TRANSCRIPT]
    answer = sessions.judge_audit(found, program, case.texts[DOCUMENT], text, session)
    # a line that shows some of its places alone may be right or not
    if not answer.endswith(" Partial\n"):
        try:
            found.compare("replay beside an audit", is_right(session, text), answer == YES)
        except Undecided:
            found.is_judged = False
    return found
