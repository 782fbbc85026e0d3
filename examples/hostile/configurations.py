"""Changed documents that are saved and applied. Where a second program can read one, both write the same, or refuse the
state by the same rule."""
import pathlib
import re
import subprocess
from concurrent.futures import ThreadPoolExecutor

from hostile.documents import (
    AT_ONCE, LARGEST, MOST_UNREAD, SECONDS, Tried, changed_document, is_refused, is_toml, not_judged_faults,
)
from model.configuration import Configuration, told
from model.drawn_configuration import drawn_configuration
from model.network import run_session
from model.notes import configuration_notes, denial_notes, is_note_of

HERE = pathlib.Path(__file__).resolve().parent
DRAWN = 60
REFUSAL = re.compile(rb"refused: (document|table|policy|compile|board|state|script) [^\n]+ [A-Z][A-Za-z]+\n")
LINE = re.compile(r'\[state\.[\w-]+\]|"[^"\n]+" = 0x[0-9a-f]{8}|# "[^"\n]+" [^\n]+')


def base_documents():
    """Documents with a state, those of the examples and some that are drawn: right ones, and those that are refused."""
    drawn = [drawn_configuration(number) for number in range(DRAWN)]
    good, bad = [data for data in drawn if Configuration(data, "apply").fault() is None], []
    for folder in ("configurations", "refused/state"):
        for file in sorted((HERE.parent / folder).glob("*.toml")):
            data = file.read_bytes()
            if len(data) <= LARGEST and is_toml(data):
                (bad if is_refused(file) else good).append(data)
    return good, good, good, bad


def by_model(data, command):
    """What a second program writes, and its status and note; or None where it cannot read the document."""
    try:
        text, status = told(data, command, run_session)
        if status == 3:
            return text, status, None
        session = Configuration(data, command)
        session.run()
        return text, status, denial_notes(session) + configuration_notes(text, session.entries_applied(), status)
    except Exception:
        return None


def faults_of(data, command, done, tried):
    """What is wrong in an answer. What the program refuses before it comes to the state the second program may not."""
    wanted = by_model(data, command)
    tried.is_unread = wanted is None and done.returncode != 3
    text = done.stdout.decode()
    if done.returncode == 3:
        if not REFUSAL.fullmatch(done.stdout) or not is_note_of(done.stdout, done.stderr):
            return [f"refused by {done.stdout!r}, note {done.stderr!r}"]
        is_same = not wanted or not text.startswith("refused: state ") or text == wanted[0]
        return [] if is_same else [f"{text!r} in place of {wanted[0]!r}"]
    strange = [line for line in text.splitlines() if not LINE.fullmatch(line)]
    if done.returncode not in (0, 1) or strange:
        return [f"status {done.returncode}, the lines {strange[:1]}"]
    if wanted and (text, done.returncode, done.stderr) != wanted:
        return [f"{done} in place of {wanted}"]
    return []


def answer(command, word, data):
    tried = Tried()
    try:
        done = subprocess.run([*command, word], input=data, capture_output=True, timeout=SECONDS)
        tried.status = done.returncode
        tried.faults = faults_of(data, word, done, tried)
    except subprocess.TimeoutExpired:
        tried.faults = [f"it took longer than {SECONDS} s"]
    return tried


def try_configurations(command, numbers):
    """The faults of these numbers, as texts, and how many documents were refused, and not judged."""
    bases = base_documents()

    def try_one(number):
        word = ("apply", "apply", "save")[number % 3]
        data = changed_document(number, bases)
        # `save` takes no state
        data = data.partition(b"[state")[0] if word == "save" else data
        tried = answer(command, word, data)
        tried.faults = [f"configuration {number} to {word}: {fault}" for fault in tried.faults]
        return tried

    with ThreadPoolExecutor(AT_ONCE) as pool:
        answers = list(pool.map(try_one, numbers))
    faults = [fault for tried in answers for fault in tried.faults]
    refused, unread = sum(each.status == 3 for each in answers), sum(each.is_unread for each in answers)
    faults += not_judged_faults("configurations that no model can read:", unread, len(answers) - refused, MOST_UNREAD)
    return faults, f"{refused} of {len(answers)} configurations were refused; of the others {unread} could be read by no model"
