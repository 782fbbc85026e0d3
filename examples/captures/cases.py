"""Cases of captures: what `describe` and `undescribe` answer to the files of this folder, to texts that are drawn and
to the longest ones, which the second program answers too; and what `from_dump` and `timeline` make of theirs."""
import itertools
import pathlib
import subprocess
import sys
from xml.dom import minidom

from captures.taps import (
    COOKED,
    COOKED_2,
    ETHERNET,
    HEADERS,
    IP_ALONE,
    LOOP,
    NULL,
    dump_of,
    internet,
    udp,
)
from model.captures import MOST_BYTES, Capture, Caught, Refused, description, read_capture, write_capture
from model.captures import describe as describe_text
from model.captures import undescribe as undescribe_text
from model.drawn_captures import drawn_capture, drawn_description, long_capture
from model.notes import NOTES, denial_notes, is_note_of
from model.recorded import recorded
from model.session import Session
from net.packets import Status, control_packet, request, resend_request, status_reply, status_request

HERE = pathlib.Path(__file__).resolve().parent
DRAWN = 300
SECONDS = 120
# so many characters of what differs are shown
MOST_SHOWN = 500
ONE_READ = HERE / "one_read.capture"
FIRST = HERE.parent / "start" / "first.toml"
LOSSY_RUN = HERE / "lossy_run.toml"


def faults_of(done, text, status=0, denied=b""):
    """What is wrong where the program owes this text and this status, and first says what a policy denied."""
    given = {"text": done.stdout, "status": done.returncode}
    wanted = {"text": text, "status": status}
    faults = [
        f"{what} {given[what]!r}"[:MOST_SHOWN] + f", wanted {wanted[what]!r}"[:MOST_SHOWN]
        for what in wanted
        if given[what] != wanted[what]
    ]
    is_said = is_note_of(text, done.stderr) if status == 3 else done.stderr == denied + NOTES[status]
    return faults + ([] if is_said else [f"it says {done.stderr!r}"])


def owed(command, text):
    """What the second program answers: a text and a status."""
    try:
        return {"describe": describe_text, "undescribe": undescribe_text}[command](text), 0
    except Refused as line:
        return str(line).encode(), 3


def of_files(answer):
    """The texts of this folder: those of captures, beside their descriptions, and those that are refused."""
    for file in sorted(HERE.glob("*.capture")):
        text, described = file.read_bytes(), file.with_suffix(".description").read_bytes()
        yield f"describe {file.stem}", faults_of(answer(["describe"], text), described)
        yield f"undescribe {file.stem}", faults_of(answer(["undescribe"], described), text)
        is_same = owed("describe", text) == (described, 0) and owed("undescribe", described) == (text, 0)
        yield f"reference for {file.stem}", [] if is_same else ["it differs"]
    for file in sorted(HERE.glob("refused/*.refused")):
        line = file.read_bytes()
        for suffix, command in ((".capture", "describe"), (".description", "undescribe")):
            if file.with_suffix(suffix).exists():
                text = file.with_suffix(suffix).read_bytes()
                yield f"{command} {file.stem}", faults_of(answer([command], text), line, 3)
                yield f"reference for {file.stem}", [] if owed(command, text) == (line, 3) else ["it differs"]


def of_drawn(answer):
    """Texts that are drawn: the program answers what the second one does, and each command undoes the other."""
    kinds = ("describe", drawn_capture), ("describe", long_capture), ("undescribe", drawn_description)
    for (command, draw), number in itertools.product(kinds, range(DRAWN)):
        text = draw(number)
        answered, status = owed(command, text)
        done = answer([command], text)
        yield f"{command} {draw.__name__} {number}", faults_of(done, answered, status)
        if status == 0:
            other = "undescribe" if command == "describe" else "describe"
            yield f"{other} {draw.__name__} {number} again", faults_of(answer([other], done.stdout), text)


def raw_texts(size):
    """A capture of so many bytes whose datagrams are zeros, which are no packet, and its description."""
    lines = [b"> " + b"00" * 9000 + b"\n"] * (size // 18_003 - 1)
    rest = size - len(b"first 1\n") - 18_003 * len(lines)
    # two lines more: each has three bytes beside its digits, whose number is even
    last = [b"> " + b"00" * ((rest - 6) // 4) + b"\n", b"> " + b"00" * ((rest - 6) // 2 - (rest - 6) // 4) + b"\n"]
    text = b"first 1\n" + b"".join(lines + last)
    return text, text.replace(b"> ", b"> raw ") + b"proved 0\n"


def of_the_longest(answer):
    text, described = raw_texts(MOST_BYTES)
    yield "the longest capture", [] if len(text) == MOST_BYTES else [f"it has {len(text)} bytes"]
    yield "describe the longest", faults_of(answer(["describe"], text), described)
    long = b"refused: capture - TooLong\n"
    yield "describe one byte more", faults_of(answer(["describe"], text + b"\n"), long, 3)
    long = b"refused: description - TooLong\n"
    yield "undescribe one byte more", faults_of(answer(["undescribe"], text + b"\n"), long, 3)


# ---- scripts


def run(name, *words, data=b""):
    command = [sys.executable, HERE / name, *map(str, words)]
    return subprocess.run(command, input=data, capture_output=True, timeout=SECONDS)


HUB, OTHER, BOARD = ("10.0.0.9", 40_000), ("10.0.0.8", 40_001), ("10.0.0.1", 50_001)
EXCHANGE = [
    Caught(True, status_request()),
    Caught(False, status_reply(Status(1500, 16, 7))),
    Caught(True, control_packet(7, request(0, 0, 4, 1))),
    Caught(True, resend_request(7)),
    Caught(False, control_packet(7, [0x2000_0100, 0xABCD])),
    Caught(False, b""),
]
NOISE = [bytes(60), bytes(12) + b"\x86\xdd" + bytes(40), bytes(3), b""]


def frames_between(hub, items, kind=ETHERNET, board=BOARD):
    for is_sent, data in items:
        ends = (hub, board) if is_sent else (board, hub)
        yield HEADERS[kind] + internet(*ends, udp(*ends, data))


def in_pieces(ends, data, order):
    """The frames of a datagram that goes in pieces of 16 bytes, in this order."""
    carried = udp(*ends, data)
    pieces = range(0, len(carried), 16)
    frames = [
        HEADERS[ETHERNET] + internet(*ends, carried[at : at + 16], (0x2000 if at + 16 < len(carried) else 0) | at // 8)
        for at in pieces
    ]
    return [frames[at] for at in order]


def of_dumps():
    """Dumps that are made by hand, and what becomes of them."""
    wanted = write_capture(Capture(7, EXCHANGE))
    board, hub = "10.0.0.1:50001", "10.0.0.9:40000"

    def made(name, dump, *words, text=wanted):
        done = run("from_dump", "-", board, "--first", 7, *words, data=dump)
        return f"dump {name}", [] if (done.stdout, done.stderr, done.returncode) == (text, b"", 0) else [f"{done}"]

    def refused(name, dump, said, *words):
        done = run("from_dump", "-", board, *words, data=dump)
        is_told = done.returncode == 1 and done.stdout == b"" and said in done.stderr
        return f"dump {name}", [] if is_told else [f"{done}"]

    kinds = {"ethernet": ETHERNET, "cooked": COOKED, "cooked 2": COOKED_2, "ip": IP_ALONE, "loop": LOOP, "null": NULL}
    for (name, kind), order, magic in itertools.product(kinds.items(), "<>", (0xA1B2C3D4, 0xA1B23C4D)):
        dump = dump_of(kind, frames_between(HUB, EXCHANGE, kind), order, magic)
        yield made(f"of {name} {order} {magic:x}", dump)
    frames = list(frames_between(HUB, EXCHANGE))
    others = frames_between(HUB, EXCHANGE, board=OTHER)
    yield made("beside other packets", dump_of(ETHERNET, [*NOISE, *others, *frames]))
    tagged = [frame[:12] + bytes.fromhex("81000005") + frame[12:] for frame in frames]
    yield made("with tags", dump_of(ETHERNET, tagged))
    yield made("padded", dump_of(ETHERNET, [frame + bytes(6) for frame in frames]))
    both = [frame for pair in zip(frames, frames_between(OTHER, EXCHANGE)) for frame in pair]
    yield made("of one hub of two", dump_of(ETHERNET, both), "--hub", hub)
    yield refused("of two hubs", dump_of(ETHERNET, both), b"--hub is needed: 10.0.0.8:40001, 10.0.0.9:40000")
    for order in ([0, 1, 2], [2, 0, 1], [1, 2, 0]):
        pieces = in_pieces((HUB, BOARD), bytes(range(40)), order)
        text = write_capture(Capture(7, [Caught(True, bytes(range(40)))]))
        yield made(f"in pieces {order}", dump_of(ETHERNET, pieces), text=text)
    dump = dump_of(ETHERNET, frames)
    yield refused("that ends early", dump[:-1], b"the dump ends within packet 6")
    cut = bytearray(dump)
    cut[24 + 12] += 4  # of the first packet more was there than was kept
    yield refused("of parts of packets", bytes(cut), b"packet 1 was cut")
    yield refused("of no board", dump_of(ETHERNET, NOISE), b"no datagram of this board")
    yield refused("of the next generation", bytes.fromhex("0a0d0d0a") + bytes(60), b"pcapng")
    yield refused("that is none", b"first 1\n> -\n", b"no packet dump")
    yield refused("of other headers", dump_of(147, frames), b"headers of kind 147")
    done = run("from_dump", "-", board, data=dump)
    said = b"--first 7" in done.stderr and done.stdout == write_capture(Capture(1, EXCHANGE))
    yield "dump of another identifier", [] if said and done.returncode == 0 else [f"{done}"]


def of_pictures():
    """What `timeline` draws, and of which lines."""
    long = write_capture(Capture(1, [Caught(number % 2 == 0, b"") for number in range(201)]))
    for name, text, words, arrows in (
        ("a lossy run", LOSSY_RUN.with_suffix(".capture").read_bytes(), [], 17),
        ("some lines", LOSSY_RUN.with_suffix(".capture").read_bytes(), ["--from", 4, "--to", 9], 6),
        ("every row", (HERE / "every_row.capture").read_bytes(), [], 16),
        ("what is raw", (HERE / "raw.capture").read_bytes(), [], 20),
        ("nothing", (HERE / "nothing.capture").read_bytes(), [], 0),
        ("the most datagrams", long, ["--to", 201], 200),
        ("one datagram more", long, [], None),
        ("no capture", b"first 0\n", [], None),
    ):
        done = run("timeline", *words, data=text)
        if arrows is None:
            is_right = done.returncode == 1 and done.stdout == b"" and done.stderr.startswith(b"ipbus-timeline: ")
        else:
            drawn = minidom.parseString(done.stdout).getElementsByTagName("polygon") if done.stdout else []
            is_right = done.returncode == 0 and len(drawn) == arrows
        yield f"timeline of {name}", [] if is_right else [f"{done}"[:500]]


def of_the_lossy_run(answer):
    """The capture that the guide draws is that of its session by the second program, and what the program records."""
    text = LOSSY_RUN.with_suffix(".capture").read_bytes()
    capture = recorded(Session(LOSSY_RUN.read_bytes()))
    is_same = write_capture(capture) == text and description(read_capture(text)).endswith(b"\nproved 4\n")
    yield "capture of the lossy run", [] if is_same else ["it is another capture"]
    yield "record of the lossy run", faults_of(answer(["record"], LOSSY_RUN.read_bytes()), text)


def of_one_read(answer):
    """The capture of a session of one read, by the second program and by the program."""
    text = ONE_READ.read_bytes()
    session = FIRST.read_bytes()
    yield "capture of one read", [] if write_capture(recorded(Session(session))) == text else ["it is another capture"]
    yield "record of one read", faults_of(answer(["record"], session), text)
    described = ONE_READ.with_suffix(".description").read_bytes()
    yield "describe of that record", faults_of(answer(["describe"], answer(["record"], session).stdout), described)


def of_what_is_not_done(answer):
    """A capture is written where an operation is not done too, with status 1; what a policy denies is not in it."""
    first = FIRST.read_bytes()
    for name, session in (
        ("denied", b"policy = []\n" + first),
        ("past the end", first.replace(b"address = 4", b"address = 16")),
    ):
        played = Session(session)
        wanted = write_capture(recorded(played))
        yield f"record of a read {name}", faults_of(answer(["record"], session), wanted, 1, denial_notes(played))


def capture_cases(answer):
    """The name of each case and what is wrong in it. `answer` runs the program with words and an input."""
    yield from of_files(answer)
    yield from of_drawn(answer)
    yield from of_the_longest(answer)
    yield from of_dumps()
    yield from of_pictures()
    yield from of_the_lossy_run(answer)
    yield from of_one_read(answer)
    yield from of_what_is_not_done(answer)
