"""Documents, and sessions and configurations that are drawn, each compared with what a second program finds."""
import re
import tomllib
from collections.abc import Callable
from pathlib import Path

from audits.cases import run_faults, whole_faults
from blackbox.trial import HERE, Done, Part, Trial
from model.configuration import Configuration, told
from model.drawn import drawn_session, drawn_session_of_losses, drawn_session_of_many
from model.drawn_configuration import drawn_boards, drawn_configuration
from model.drawn_policy import drawn_policy
from model.network import run_session
from model.notes import NOTES, asked_notes, configuration_notes, denial_notes, unmatched_notes
from model.policy import is_told
from model.refusals import refusal
from model.replay import Undecided, check_same_but_for_order, check_transcript
from model.replay_cases import replay_cases, replay_faults
from model.session import Session
from model.told import Wrong
from model.transcript import transcript

DRAWN = 200
DRAWN_OF_MANY = 500
DRAWN_OF_LOSSES = 500
# the least lines of late answers that the sessions of losses must have
LEAST_LATE = 50
DRAWN_OF_POLICIES = 100
DRAWN_OF_CONFIGURATIONS = 200
AT_ONCE_AGAIN = 200
# how often each of two clients at once writes and reads, and the least orders of places that their runs must have
TURNS_AT_ONCE = 2000
LEAST_ORDERS = 20
MOST_RUNS = 4


def beside(document: Path, suffix: str, default: str) -> str:
    """What stands in the file beside a document with this suffix, if there is one."""
    file = document.with_suffix(suffix)
    return file.read_text() if file.exists() else default


def documents_of(folder: str) -> Part:
    """Each document of a folder prints what stands beside it, and what the second program finds."""

    def part(trial: Trial) -> None:
        for document in sorted((HERE / folder).rglob("*.toml")):
            check_document(trial, document)

    return part


# boards of the documents of `net` and `uhal` stand elsewhere, and their cases follow
FOLDERS = sorted({file.relative_to(HERE).parts[0] for file in HERE.rglob("*.toml")} - {"net", "uhal"})
DOCUMENTS: dict[str, Part] = {f"documents of {folder}": documents_of(folder) for folder in FOLDERS}


def check_document(trial: Trial, document: Path) -> None:
    """A document prints what stands beside it, and what the second program finds."""
    name = str(document.relative_to(HERE))
    words = beside(document, ".args", "run").splitlines()
    status = int(beside(document, ".status", "0"))
    text = document.with_suffix(".out").read_bytes()
    done = trial.answer(words, document.read_bytes())
    if words == ["run"] and status in (0, 1):
        session = Session(document.read_bytes())
        check_run(trial, name, session, done, text, status)
        check_by_model(trial, name, session, document.read_bytes(), done)
    elif words in (["save"], ["apply"]) and (status in (0, 1) or text.startswith(b"refused: state ")):
        trial.check(name, done, text, status, configuration_note(words[0], document.read_bytes(), text, status))
        configuration_by_model(trial, name, words[0], document.read_bytes(), done)
    else:
        trial.check(name, done, text, status, listing_note(words, document.read_bytes(), status))
    refusal_by_model(trial, name, words, document.read_bytes(), text)
    policy_by_model(trial, name, document.read_bytes(), text)


def refusal_by_model(trial: Trial, name: str, words: list[str], data: bytes, text: bytes) -> None:
    """A document is refused, or not, as the second program says."""
    command, *rest = words
    line = refusal(command, data, rest[0] if command == "check" else None)
    wanted = f"{line}\n".encode() if line else None
    is_same = text == wanted if wanted else not text.startswith(b"refused: ")
    trial.count(f"refusal of {name}", [] if is_same else [f"{text!r}, wanted {wanted!r}"])


class Listed(Session):
    """A session whose scripts are not looked at."""

    def plan(self) -> None:
        pass


def listing_note(words: list[str], data: bytes, status: int) -> bytes | None:
    """What is said beside a listing: the rules of the document's policy that match no register, and what its scripts ask,
    if they can run."""
    if words[0] != "check" or status not in (0, 1):
        return None
    asked = b"" if refusal("run", data, None) else asked_notes(Session(data))
    return (unmatched_notes(Listed(data)) if b"policy" in data else b"") + asked


def configuration_note(command: str, data: bytes, text: bytes, status: int) -> bytes | None:
    """What is said beside a configuration that was written; of one that is refused any sentence that belongs to it."""
    if status not in (0, 1):
        return None
    session = Configuration(data, command)
    session.run()
    return denial_notes(session) + configuration_notes(text.decode(), session.entries_applied(), status)


def configuration_by_model(trial: Trial, name: str, command: str, data: bytes, done: Done) -> None:
    """A configuration, or its refusal, is that of the second program."""
    text, status = told(data, command, run_session)
    note = configuration_note(command, data, text.encode(), status)
    trial.check(f"reference for {name}", done, text.encode(), status, note)


def policy_by_model(trial: Trial, name: str, data: bytes, text: bytes) -> None:
    """What a document has as its policy is refused, or not, as the rules of policies say."""
    try:
        document = tomllib.loads(data.decode())
    except ValueError:
        return
    if "policy" in document:
        faults = [] if is_told(document, text) else [f"the model finds something else than {text!r}"]
        trial.count(f"policy of {name}", faults)


def faults_of(judge: Callable[..., object], *given: object) -> list[str]:
    """What is wrong with a transcript: a list of one text, or an empty one."""
    try:
        judge(*given)
    except Wrong as wrong:
        return [str(wrong)]
    return []


def check_run(trial: Trial, name: str, session: Session, done: Done, text: bytes, status: int) -> None:
    """A run is as wanted, but for the order of clients on boards that several use. There the status is that of the
    results, which the replay judges."""
    if not session.shared_boards():
        trial.check(name, done, text, status, denial_notes(session) + NOTES[status])
        return
    is_run = done.returncode in (0, 1) and done.stderr == denial_notes(session) + NOTES[done.returncode]
    faults = [] if is_run else [f"status {done.returncode}, note {done.stderr!r}"]
    trial.count(name, faults + faults_of(check_same_but_for_order, session, done.stdout.decode(), text.decode()))


def decided_faults(trial: Trial, session: Session, document: bytes, done: Done) -> list[str]:
    """What is wrong with a transcript by replay. Where there are too many ways to read it the session is run again: its
    threads take other turns then."""
    for _ in range(MOST_RUNS):
        try:
            check_transcript(session, done.stdout.decode(), done.returncode)
            return []
        except Undecided as wrong:
            faults = [str(wrong)]
            trial.undecided += 1
            done = trial.answer(["run"], document)
        except Wrong as wrong:
            return [str(wrong)]
    return faults


def check_by_model(trial: Trial, name: str, session: Session, document: bytes, done: Done) -> None:
    """A transcript is right by replay and by audit, and is that of the second program but for the order of clients."""
    trial.count(f"replay of {name}", decided_faults(trial, session, document, done))
    trial.count(f"audit of {name}", run_faults(trial.answer_built, document, session, done.stdout))
    text, status = transcript(session, run_session(session))
    check_run(trial, f"reference for {name}", session, done, text.encode(), status)


def drawn(kind: str, draw: Callable[[int], bytes], many: int, least_late: int = 0) -> Part:
    """Sessions of one kind that are drawn from numbers."""

    def part(trial: Trial) -> None:
        late = 0
        for number in range(trial.share(many)):
            document = draw(number)
            done = trial.answer(["run"], document)
            check_by_model(trial, f"drawn {kind} {number}", Session(document), document, done)
            late += done.stdout.count(b" rounds, answered late: ")
        faults = [] if late >= trial.share(least_late) else [f"{late} lines of late answers"]
        trial.count(f"late answers of each drawn {kind}", faults)

    return part


drawn_sessions = drawn("session", drawn_session, DRAWN)
drawn_sessions_of_many = drawn("session of many clients", drawn_session_of_many, DRAWN_OF_MANY)
drawn_sessions_under_rules = drawn("session under many rules", drawn_policy, DRAWN_OF_POLICIES)
drawn_sessions_of_losses = drawn("session of losses", drawn_session_of_losses, DRAWN_OF_LOSSES, LEAST_LATE)


def drawn_configurations(trial: Trial) -> None:
    """Configurations that are saved and applied; what is saved whole and applied whole is written again."""
    again = 0
    many = trial.share(DRAWN_OF_CONFIGURATIONS)
    for number in range(many):
        for command, draw in (("save", drawn_boards), ("apply", drawn_configuration)):
            document = draw(number)
            done = trial.answer([command], document)
            configuration_by_model(trial, f"drawn configuration {number} to {command}", command, document, done)
            if done.returncode == 0:
                again += 1
                other = trial.answer(["apply"], drawn_boards(number) + done.stdout)
                is_same = other.returncode == 1 or (other.returncode, other.stdout) == (0, done.stdout)
                trial.count(f"drawn configuration {number} again", [] if is_same else [f"{other} of {done.stdout}"])
    trial.count("configurations again", [] if again > many // 4 else [f"{again} applied again"])


def at_once(number: int) -> bytes:
    """A document in which two clients write and read one register at once, so often that both are at it for a while,
    over a link with noise."""
    document = (HERE / "run" / "two_clients_write_and_read.toml").read_text().split("[[client]]")[0]
    document = document.replace('table = "main"\n', f'table = "main"\nnoise = {number}\n')
    for client in (1, 2):
        turn = f'"write b0:a {client}", "dispatch", "read b0:a", "dispatch", '
        document += f'[[client]]\nscript = [ {turn * TURNS_AT_ONCE} "read b0:a" ]\n'
    return f"rounds = 32\n{document}".encode()


def clients_at_once(trial: Trial) -> None:
    """Two clients at one register, again and again. Where they ran one after another there would be two orders."""
    orders = set()
    many = trial.share(AT_ONCE_AGAIN)
    for number in range(many):
        document = at_once(number)
        done = trial.answer(["run"], document)
        text = done.stdout.decode()
        trial.count(f"clients at once {number}", replay_faults(Session(document), text, done.returncode))
        trial.count(f"audit of clients at once {number}", whole_faults(trial.answer_built, document, done.stdout))
        orders.add(tuple(re.findall("@([0-9]+)", text)))
    told = f"{len(orders)} orders of places in {many} runs"
    print(f"clients at once: {told}")
    trial.count("orders of clients at once", [] if len(orders) >= trial.share(LEAST_ORDERS) else [told])


def replay_itself(trial: Trial) -> None:
    """The replay finds what is wrong in transcripts that were made to be wrong."""
    for name, faults in replay_cases():
        trial.count(f"replay of {name}", faults)
