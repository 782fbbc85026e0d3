"""What a soak is to meet: each rule of each command, each status, each result, code and form of a line. A form is a text
that begins with its kind; those that a text shows are found by reading it."""
import re
from collections import Counter
from collections.abc import Iterator

COMMANDS = ("run", "serve", "check", "save", "apply", "record", "audit")


def each(kind: str, names: str) -> list[str]:
    return [f"{kind} {name}" for name in names.split()]


DOCUMENT = each("document", "TooLong NotToml Shape NoBoards ManyBoards ManyClients DuplicateBoard")
TABLE = each(
    "table", "Shape UnknownKey MissingId BadId BadNumber BadMask BadPermission BadMode BadSize BadCount"
)
COMPILE = each("compile", "UnknownModule ModuleCycle TooMany TooDeep Duplicate AddressPastEnd")
BOARD = each("board", "Empty PastEnd Overlap TooLarge InitLong")
SCRIPT = each(
    "script", "BadLine UnknownBoard UnknownName NoPermission WrongMode PastSize BitsOutside NotWhole TooMany"
)
STATE = each("state", "Shape Overlap TooMany UnknownBoard UnknownName NotKept BitsOutside")
# what a command alone refuses
OWN = {
    "serve": ["policy NoServe"],
    "record": ["document OneBoard", "board NotSim"],
    "audit": ["document NoLength", "board NotSim"],
    "save": ["state Overlap", "state TooMany"],
    "apply": STATE,
}


def rules_of(command: str) -> list[str]:
    """The rules by which a command refuses a document."""
    common = [*DOCUMENT, *TABLE, "policy Shape", *COMPILE]
    return [*common, *([] if command == "check" else [*BOARD, *SCRIPT]), *OWN.get(command, [])]


def refused(text: str) -> str:
    """The rule by which an input is refused."""
    _, kind, *_, name = text.split()
    return f"{kind} {name}"


RULES = [f"rule {command} {rule}" for command in COMMANDS for rule in rules_of(command)]
RULES += each("rule describe capture", "TooLong First Form Long")
RULES += each("rule undescribe description", "TooLong NotDescription")

ENDS = {"run": "0 1 3 4 5 6 7", "serve": "0 1 3 4 5 6 7 8", "check": "0 1 3 4 5 6", "load": "0 5 6"}
ENDS |= {"save": "0 1 3 4 5 6 7", "apply": "0 1 3 4 5 6 7", "record": "0 1 3 4 5 6", "audit": "0 1 3 4 5 6"}
ENDS |= {"describe": "0 3 4 5 6", "undescribe": "0 3 4 5 6", "words": "2 5"}
STATUSES = [f"status {command} {status}" for command, statuses in ENDS.items() for status in statuses.split()]

ANSWERS = ["=", "done", "was", "error 4", "error 5", "error 6", "error 7", "skipped", "garbled"]
RESULTS = [*ANSWERS, "timeout", *(f"late {answer}" for answer in ANSWERS), "unsent", "link lost", "denied", "denied by 0"]
RESULTS = [f"result {result}" for result in RESULTS]
LINES = each("line", "board-live board-silent board-down places-several")
CODES = [f"code {code}" for code in range(9)]
CLOSINGS = [f"end {end}" for end in ("closed", "bad frame", "cut frame", "read fault", "write fault")]
AUDITS = each("audit", "yes Form Partial Place Result Count")

VERBS = ("read", "write", "readport", "writeport", "rmwbits", "rmwsum")
ROWS = ["> status", "< status", "> resend", "> raw", "< raw"]
ROWS += [f"{way} control {order}" for way in "><" for order in ("big", "little")]
ROWS += [f"request {verb}" for verb in VERBS] + [f"reply {verb} {code}" for verb in VERBS for code in (0, 4, 5, 6, 7)]
DESCRIBED = [f"described {row}" for row in [*ROWS, "reply read 1", "proved 0", "proved more"]]

PERMISSIONS, KINDS = ("r", "w", "rw"), ("single", "block", "port", "hierarchical")
MODES = [f"{permission} {mode}" for permission in PERMISSIONS for mode in KINDS]
LISTED = [f"listed {mode}" for mode in [*MODES, "overlap"]]
# nothing is asked of a board behind the reads of its registers, so none of them is answered late
STATES = [f"state {line}" for line in ("value", "error", "timeout", "skipped", "unsent", "denied")]
NOTES = {
    "rule denied": rb"policy rule \d+ denied ",
    "no rule allowed": rb"no rule of the policy allowed ",
    "rule without registers": rb"policy rule \d+ matches no register",
    "registers": rb"registers: ",
    "none of a board": rb"none of \d+ registers was read",
    "given": rb"\d+ of \d+ given",
    "not as given": rb"not as given: ",
    "write not done": rb"not done: one write or more",
    "line at fault": rb"line \d+: ",
    "end of the transcript": rb"the transcript ends before it",
    "greeting": rb"MTU \d+, \d+ buffers, next ",
    "silence": rb"does not answer",
    "answers again": rb"answers again",
    "out of step": rb"expects \d+ where \d+ is next",
    "asks of a board": rb"client \d+, board .*: packets \d+, words read ",
    "assumed MTU": rb"counted for an MTU of 1500",
    "waits long": rb"waited .* for a board that does not answer",
    "listens": rb"listens on port ",
    "last connection": rb"is the last one",
    "board full": rb"takes no more packets",
    "one address": rb"have one address",
    "port in use": rb"port \d+: ",
}
SAID = [f"said {name}" for name in NOTES]
FORMS = [*RULES, *STATUSES, *RESULTS, *LINES, *CODES, *CLOSINGS, *AUDITS, *DESCRIBED, *LISTED, *STATES, *SAID]

OPERATION = re.compile(r"\d+ (?:readblock|writeblock|read|write|rmwbits|rmwsum) \S+ (.*?)( @\S+)?")
LATE = re.compile(r"timeout after \d+ rounds, answered late: (.*)")


def answer_in(result: str) -> str:
    """The answer that a result tells: its first word, and the code of an error."""
    first, _, rest = result.partition(" ")
    return f"{first} {rest[:1]}" if first == "error" else first


def result_in(result: str) -> str:
    late = LATE.fullmatch(result)
    if late:
        return f"late {answer_in(late[1])}"
    if result.startswith("denied"):
        return "denied by 0" if result.endswith(" 0") else "denied"
    if result.startswith(("timeout", "link lost")):
        return "timeout" if result.startswith("timeout") else result
    return answer_in(result)


def of_transcript(text: str) -> Counter[str]:
    """The forms of a transcript, or of what a server prints."""
    found: Counter[str] = Counter()
    for line in text.splitlines():
        operation = OPERATION.fullmatch(line)
        if operation:
            found[f"result {result_in(operation[1])}"] += 1
            found["line places-several"] += "," in (operation[2] or "")
        elif line.startswith("board "):
            told = line.split()[2]
            found[f"line board-{'live' if told == 'places' else told}"] += 1
        elif line.startswith("connection "):
            found[f"end {line.split(' ', 4)[4]}"] += 1
    return found


def of_listing(text: str) -> Iterator[str]:
    for line in text.splitlines():
        words = line.split()
        yield "listed overlap" if words[0] == "overlap" else f"listed {words[3]} {words[4]}"


def of_description(text: str) -> Iterator[str]:
    way = ">"
    for line in text.splitlines():
        words = line.split()
        if line.startswith("  "):
            yield f"described request {words[1]}" if way == ">" else f"described reply {words[1]} {words[2]}"
        elif words[0] in "><":
            way = words[0]
            yield f"described {way} {words[1]} {words[3]}" if words[1] == "control" else f"described {way} {words[1]}"
        elif words[0] == "proved":
            yield f"described proved {'0' if words[1] == '0' else 'more'}"


def of_state(text: str) -> Iterator[str]:
    for line in text.splitlines():
        if line.startswith("# "):
            result = result_in(line.split('" ', 1)[1])
            yield f"state {'late' if result.startswith('late') else result.split()[0]}"
        elif line.startswith('"'):
            yield "state value"


def of_note(note: bytes) -> list[str]:
    """What is said on standard error."""
    found = {name: re.search(rb"^ipbus: [^\n]*" + form, note, re.MULTILINE) for name, form in NOTES.items()}
    return [f"said {name}" for name in found if found[name]]
