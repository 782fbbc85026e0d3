"""What the program says on standard error at its end."""
import pathlib
import re
from collections import Counter, defaultdict

from model.session import READ, READ_PORT, WRITE, WRITE_PORT

TOP = pathlib.Path(__file__).resolve().parent.parent.parent

# by its status, where that decides it
NOTES = {
    0: b"",
    1: b"",
    4: b"ipbus: the input could not be read; nothing was executed or written\n",
    6: b"ipbus: memory ran out; nothing was written, and what boards were asked before may have been executed\n",
    7: b"ipbus: a link to a board could not be made; nothing was executed or written\n",
    8: b"ipbus: the port could not be listened to, or a connection not be accepted: the boards were asked before, and "
    b"only the text is missing\n",
}

# the commands that ask no board
ASK_NO_BOARD = ("check", "audit", "describe", "undescribe")


def memory_note(command):
    """What a command says where memory ran out: one that asks no board says nothing of boards."""
    front, mark, _ = NOTES[6].partition(b"nothing was written")
    return front + mark + b"\n" if command in ASK_NO_BOARD else NOTES[6]


# where the output could not be written, by what it was to have
CUT = "ipbus: the output could not be written: {}\n"
UNWRITTEN = {
    "run": CUT.format("the scripts were executed, and only the text is cut or missing"),
    "serve": CUT.format("the connections were served, and only the text is cut or missing"),
    "load": CUT.format("the session was run, and only the text is cut or missing"),
    "record": CUT.format("the scripts were executed, and only the capture is cut or missing"),
    "check": CUT.format("only the listing is cut or missing"),
    "audit": CUT.format("only the answer is cut or missing"),
    "save": CUT.format("the registers were read, and only the text is cut or missing"),
    "apply": CUT.format("the values were written and the registers read, and only the text is cut or missing"),
    "describe": CUT.format("only the description is cut or missing"),
    "undescribe": CUT.format("only the text of the capture is cut or missing"),
    "usage": CUT.format("only the usage line is cut or missing"),
    "refusal": CUT.format(
        "the document was refused, nothing was executed, and the line that says so is cut or missing"
    ),
    "refused capture": CUT.format("the capture was refused, and the line that says so is cut or missing"),
    "refused description": CUT.format("the description was refused, and the line that says so is cut or missing"),
}

TRY = "the session document is read from standard input; try: bin/ipbus run < examples/start/first.toml, or --help"
VERSION = "version 2, for IPbus 2.0 and session documents of formats 1 and 2"


def usage_notes(line):
    """What is said of words that are no command: which word is wrong, and how to go on."""
    return f"ipbus: {line}\nipbus: {TRY}\n".encode()


def usage_line():
    """The line for words that are no command, as `docs/FORMATS.md` has it."""
    page = (TOP / "docs" / "FORMATS.md").read_text()
    [line] = re.findall(r"^\| `(usage: .+?)` \|", page, re.MULTILINE)
    return (line.replace("\\|", "|") + "\n").encode()


# so many of many are named, and the others counted
MOST_NAMED = 10
# what is said of the packets to boards whose packets are not known before a run
ASSUMED = (
    "packets to boards over UDP are counted for an MTU of 1500; each board tells its own when a run starts"
)
CONTROL = re.compile(r"[\x00-\x1f\x7f-\x9f]")
# so many characters of a text are shown
MOST_SHOWN = 200


def shown(text):
    """A text as it stands in a line."""
    cut = text if len(text) <= MOST_SHOWN else text[:MOST_SHOWN] + ".."
    return CONTROL.sub(lambda found: f"\\u{{{ord(found[0]):x}}}", cut)


def unmatched_notes(session):
    """What is said at the end of a run, and of a listing, of the rules of the policy that match no register."""
    names = [(board.name, name) for board in session.boards for name in board.registers]
    rules = session.policy.rules if session.policy else []
    unmatched = [rule for rule in rules if not any(rule.matches(*name) for name in names)]
    lines = [f"policy rule {rule.number} matches no register: {shown(rule.text)}" for rule in unmatched]
    return "".join(f"ipbus: {line}\n" for line in lines).encode()


def asked_notes(session):
    """What is said beside a listing of what each client asks of each board, where the scripts of the document can run."""
    lines = []
    is_assumed = False
    for place, board in enumerate(session.boards):
        for client in session.clients:
            requests = [request for body in client.bodies[place] for request in body]
            if not requests:
                continue
            read = sum(request.count for request in requests if request.kind not in (WRITE, WRITE_PORT))
            written = sum(request.count for request in requests if request.kind not in (READ, READ_PORT))
            lines.append(
                f"client {client.number}, board {shown(board.name)}: packets {len(client.bodies[place])}, "
                f"words read {read}, words written {written}"
            )
            is_assumed = is_assumed or board.is_on_network
    lines = named(lines) + ([ASSUMED] if is_assumed else [])
    return "".join(f"ipbus: {line}\n" for line in lines).encode()


def denial_notes(session):
    """What is said at the end of a run of the policy, in front of what is said of the status: for each rule that denied
    some operations its text, in the order of the rules, then how many no rule allowed, and the rules that match none."""
    denied = Counter(operation.denied_by for client in session.clients for operation in client.operations)
    lines = []
    for rule in session.policy.rules if session.policy else []:
        if denied[rule.number]:
            lines.append(f"policy rule {rule.number} denied {operations(denied[rule.number])}: {shown(rule.text)}")
    if denied[0]:
        lines.append(f"no rule of the policy allowed {operations(denied[0])}")
    return "".join(f"ipbus: {line}\n" for line in lines).encode() + unmatched_notes(session)


def named(lines):
    """The first of many lines, and how many more there are."""
    more = len(lines) - MOST_NAMED
    return lines[:MOST_NAMED] + ([f"and {more} more"] if more > 0 else [])


def boards_in(text):
    """The lines of each board in the text of a configuration: a value or a comment for each register that is kept."""
    parts = re.split(r"^\[state\.(.*)\]\n", text, flags=re.MULTILINE)
    return dict(zip(parts[1::2], (part.splitlines() for part in parts[2::2])))


def is_unread(lines):
    """Whether a board has several registers, and none of them was read."""
    return len(lines) > 1 and all(line.startswith("# ") for line in lines)


def given_counts(boards, entries):
    """What is said of the boards some of whose registers were given no value."""
    given = Counter(board for board, _, _ in entries)
    counts = [(name, given[name], len(lines)) for name, lines in boards.items()]
    return [f"board {shown(name)}: {count} of {most} given" for name, count, most in counts if count < most]


def not_as_given(boards, entries):
    """What is said of the registers that do not show in the text of a configuration the value that was given, in the
    order of these values. Those of boards of which none was read are counted, and not named."""
    values = {}
    for board, lines in boards.items():
        for line in lines:
            name, _, value = line.partition(" = ")
            values[board, name] = value
    count, lines = 0, []
    for board, name, value in entries:
        wanted, found = f"0x{value:08x}", values.get((board, f'"{name}"'))
        if found != wanted:
            count += 1
            became = f"= {found}" if found else "not read"
            if not is_unread(boards[board]):
                lines.append(f'board {shown(board)}: "{shown(name)}" {became}, given {wanted}')
    return [f"not as given: {count}", *named(lines)] if count else []


# where a write was not done, and each register shows the value that it was given
NO_REGISTER = "not done: one write or more, of registers that show the values given all the same"


def configuration_notes(text, entries=None, status=0):
    """What is said of the text of a configuration, beside its status: how many registers of how many boards it has, and
    which of them were not read; and of these entries, which were written before, which registers have none, and which do
    not show their values."""
    boards = boards_in(text)
    registers = sum(len(lines) for lines in boards.values())
    unread, missing, count = [], [], 0
    for board, lines in boards.items():
        of_board = [line.removeprefix("# ") for line in lines if line.startswith("# ")]
        count += len(of_board)
        if is_unread(lines):
            front = f"board {shown(board)}: none of {len(lines)} registers was read, the first: "
            unread.append(front + shown(of_board[0]))
        else:
            missing += [(len(unread), f"board {shown(board)}: {shown(register)}") for register in of_board]
    first = f"registers: {registers}, boards: {len(boards)}" + (f"; not read: {count}" if count else "")
    lines = [first, *in_order(unread, missing)]
    others = []
    if entries is not None:
        lines += given_counts(boards, entries)
        others = not_as_given(boards, entries)
        lines += others
    if status == 1 and not count and not others and entries is not None:
        lines.append(NO_REGISTER)
    return "".join(f"ipbus: {line}\n" for line in lines).encode()


def in_order(unread, missing):
    """The lines of boards of which no register was read, and those of the first registers of the others, each behind so
    many of the former."""
    lines = []
    for place in range(len(unread) + 1):
        lines += [line for before, line in missing[:MOST_NAMED] if before == place]
        lines += unread[place : place + 1]
    return lines + named([line for _, line in missing])[MOST_NAMED:]


def operations(count):
    return f"{count} operation" if count == 1 else f"{count} operations"


def sentences():
    """The refusals of `docs/FORMATS.md` and what each means, by the second word and the last one of its line. Where it
    depends on the command there are several sentences."""
    page = (TOP / "docs" / "FORMATS.md").read_text()
    kinds = "document|table|policy|compile|board|state|script|capture|description"
    rows = re.findall(rf"^\| `({kinds})` \| `(\w+)` \| (.+) \|$", page, re.MULTILINE)
    found = defaultdict(list)
    for kind, name, sentence in rows:
        found[kind, name].append(sentence)
    return found


SENTENCES = sentences()


# how the second line beside `audit no` begins, by the rule, where it depends on the transcript
BEGIN = {
    "Form": ("here belongs: client ", "here belongs operation ", "here belongs the line of board ", "no line belongs"),
    "Result": ("the registers of its board give at these places: ",),
}


def sentences_of_rules():
    """What `docs/FORMATS.md` has as the second line beside `audit no`, where it is the same for each transcript."""
    page = (TOP / "docs" / "FORMATS.md").read_text()
    return dict(re.findall(r"^\| `(Partial|Place|Count)` \| `(.+)` \|$", page, re.MULTILINE))


SENTENCES_OF_RULES = sentences_of_rules()


def line_of(text, number):
    """The line of this number of a transcript, which may be any bytes, or None behind its end. One that is no UTF-8 is
    told as such."""
    begin = 0
    for _ in range(number - 1):
        begin = text.find(b"\n", begin) + 1 or len(text)
    if begin == len(text):
        return None
    end = text.find(b"\n", begin)
    try:
        return text[begin : end if end >= 0 else len(text)].decode()
    except UnicodeDecodeError:
        return "bytes that are no text"


def lines_shown(text, number):
    """What is said of the line of this number: the line, and the places that it shows where it is cut before them."""
    line = line_of(text, number)
    if line is None:
        return [f"line {number}: the transcript ends before it"]
    is_cut = len(line) > MOST_SHOWN and " @" in line
    places = [f"the places of this line: {shown(line.rpartition(' @')[2])}"] if is_cut else []
    return [f"line {number}: {shown(line)}", *places]


# what may stand behind these lines beside a rule, each at most once
BEHIND = {
    "Form": re.compile(
        "its line begins with: .*|the policy denies it: its line shows denied by rule [0-9]+, and no place"
        "|the policy of this session does not deny it|its board is silent: its line shows unsent, and no place"
        "|its board is down: its line shows link lost, and no place"
        '|"(=|done|was)" is no result of [a-z]+|it shows [0-9]+ words, and the operation reads [0-9]+'
        "|it shows 1 word, and the operation reads [0-9]+|.* is no word: it has 0x and eight digits 0 to 9 or a to f"
        "|it shows [0-9]+ places, and the operation has (1 piece|[0-9]+ pieces)"
        '|".*" is no place: one has two numbers with a dot between, as 12[.]1'
        "|two spaces stand side by side in it, and one belongs there"
        "|it shows places twice: they stand once, at its end, with commas between"
        "|it shows no place, as only unsent and link lost may"
        "|it is unsent, and shows the places of all its pieces"
        "|this line has no line feed at its end: the text is cut, or its last line feed was lost"
        "|a (space|tab) stands at the end of this line"
        r"|this line ends as on Windows: take out the carriage returns, as tr -d '\\r' does"
    ),
    "Result": re.compile("word [0-9]+ of the value is .*, and .* is given"),
}


def is_note_of_verdict(verdict, text, note):
    """Whether a note has the lines that stand beside `audit no`: what the line at fault shows, and what its rule wants
    there."""
    _, _, number, rule = verdict.split()
    lines = note.decode().split("\n")
    if lines.pop() or not all(line.startswith("ipbus: ") for line in lines):
        return False
    lines = [line.removeprefix("ipbus: ") for line in lines]
    front = lines_shown(text, int(number))
    if lines[: len(front)] != front or len(lines) == len(front):
        return False
    second, *rest = lines[len(front) :]
    is_second = second.startswith(BEGIN[rule]) if rule in BEGIN else second == SENTENCES_OF_RULES[rule]
    are_behind = all(rule in BEHIND and BEHIND[rule].fullmatch(line) for line in rest)
    return is_second and len(set(rest)) == len(rest) and are_behind


def is_note_of(refusal, note):
    """Whether a note has the sentence of a refusal, which stands in its first line."""
    _, kind, *_, name = refusal.decode().split()
    lines = note.decode().removesuffix("\n").split("\n")
    is_told = any(lines[0].endswith(sentence) for sentence in SENTENCES[kind, name])
    return is_told and all(line.startswith("ipbus: ") and not CONTROL.search(line) for line in lines)
