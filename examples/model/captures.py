"""Captures of the datagrams between a hub and one board, from `docs/FORMATS.md` and `docs/PROTOCOL.md` alone: their
text, their description, and up to which place they show that the board has executed. Texts are bytes.
"""
import re
from collections import namedtuple

from net.packets import (
    BAD_HEADER,
    LAST_IDENTIFIER,
    READ,
    READ_PORT,
    READS,
    REQUEST,
    RMW_BITS,
    RMW_SUM,
    WRITE,
    WRITE_PORT,
    WRITES,
    Status,
    control_packet,
    length_of,
    read_control,
    read_resend,
    read_status,
    resend_request,
    status_reply,
    status_request,
    transaction_header,
    transactions_of,
)

# the most bytes of a text, and of a datagram
MOST_BYTES = 134_217_728
LONGEST = 9000

RMWS = (RMW_BITS, RMW_SUM)
VERBS = {
    READ: "read",
    WRITE: "write",
    READ_PORT: "readport",
    WRITE_PORT: "writeport",
    RMW_BITS: "rmwbits",
    RMW_SUM: "rmwsum",
}
KINDS = {verb: kind for kind, verb in VERBS.items()}

# a datagram: whether the hub sent it, and its bytes
Caught = namedtuple("Caught", "is_sent data")
# the identifier of place 1, and the datagrams in order
Capture = namedtuple("Capture", "first items")


class Refused(Exception):
    """A text that is no capture, or no description of one; its text is the line that the program prints."""


# ---- the text of a capture

FIRST = re.compile(rb"first ([1-9][0-9]{0,4})\n")
LINE = re.compile(rb"([<>]) (-|(?:[0-9a-f]{2})+)\n")


def first_of(line):
    """The identifier that line 1 tells, or None."""
    found = FIRST.fullmatch(line)
    first = int(found[1]) if found else 0
    return first if 1 <= first <= LAST_IDENTIFIER else None


def lines_of(text):
    """The lines of a text, each with its line feed; what stands behind the last one is a line, too."""
    return re.findall(rb"[^\n]*\n|[^\n]+\Z", text)


def read_capture(text):
    if len(text) > MOST_BYTES:
        raise Refused("refused: capture - TooLong\n")
    front, feed, rest = text.partition(b"\n")
    first = first_of(front + feed)
    if first is None:
        raise Refused("refused: capture 1 First\n")
    items = []
    for number, line in enumerate(lines_of(rest), 2):
        found = LINE.fullmatch(line)
        if not found:
            raise Refused(f"refused: capture {number} Form\n")
        data = b"" if found[2] == b"-" else bytes.fromhex(found[2].decode())
        if len(data) > LONGEST:
            raise Refused(f"refused: capture {number} Long\n")
        items.append(Caught(found[1] == b">", data))
    return Capture(first, items)


def shown(data):
    return data.hex() or "-"


def way(is_sent):
    return ">" if is_sent else "<"


def write_capture(capture):
    lines = [f"{way(item.is_sent)} {shown(item.data)}\n" for item in capture.items]
    return f"first {capture.first}\n{''.join(lines)}".encode()


# ---- what a datagram says


def word_text(word):
    return f"0x{word:08x}"


def request_line(each):
    words = [word_text(each.address)]
    words += [str(each.count)] if each.kind in READS else map(word_text, each.words)
    return " ".join([f"  {each.number} {VERBS[each.kind]}", *words]) + "\n"


# a reply: the number of its transaction, its type, its info code, its words field and the words that it carries
Reply = namedtuple("Reply", "number kind code count words")


def is_reply(kind, code, count):
    """Whether some reply has this type, this code and this words field."""
    if code == BAD_HEADER:
        return kind == READ and count == 0
    if code != 0 and not 4 <= code <= 7:
        return False
    return kind in READS or kind in WRITES or kind in RMWS and count == (code == 0)


def replies_of(body):
    """The replies of a body, or None where it has something else."""
    found = []
    rest = body
    while rest:
        header = rest[0]
        number, count, kind, code = header >> 16 & 0xFFF, header >> 8 & 0xFF, header >> 4 & 0xF, header & 0xF
        carried = 0 if kind in WRITES else count
        if header >> 28 != 2 or not is_reply(kind, code, count) or len(rest) < 1 + carried:
            return None
        found.append(Reply(number, kind, code, count, rest[1 : 1 + carried]))
        rest = rest[1 + carried :]
    return found


def reply_line(each):
    words = [str(each.code), str(each.count), *map(word_text, each.words)]
    return " ".join([f"  {each.number} {VERBS[each.kind]}", *words]) + "\n"


def control_lines(is_sent, packet):
    """The lines of a control packet behind its direction, or None where its body has something else than requests, if
    the hub sent it, or than replies."""
    order = "little" if packet.is_little else "big"
    head = f"control {packet.identifier} {order}\n"
    if is_sent:
        found, bad = transactions_of(packet.body)
        return None if bad is not None else head + "".join(map(request_line, found))
    found = replies_of(packet.body)
    return None if found is None else head + "".join(map(reply_line, found))


def said(item):
    """What a datagram says, behind its direction: the lines of the packet that has exactly its bytes, or those."""
    is_sent, data = item
    if is_sent and data == status_request():
        return "status request\n"
    status = None if is_sent else read_status(data)
    if status and status_reply(status) == data:
        return f"status {status.mtu} {status.buffers} {status.expected}\n"
    if is_sent and (identifier := read_resend(data)) is not None:
        return f"resend {identifier}\n"
    packet = read_control(data)
    lines = control_lines(is_sent, packet) if packet else None
    return lines or f"raw {shown(data)}\n"


def described(item):
    return f"{way(item.is_sent)} {said(item)}"


# ---- what a capture proves


def identifier_at(first, place):
    return (first + place - 2) % LAST_IDENTIFIER + 1


class Places:
    """The places of packets, datagram by datagram: how many were sent for the first time, and which of them the last
    datagram shows to be executed."""

    def __init__(self, first):
        self.first = first
        self.sent = 0
        # the greatest place so far with each identifier
        self.last = {}

    def add(self, item):
        """Goes on by a datagram. The answer is the place that it shows to be executed, or 0."""
        packet = read_control(item.data)
        if item.is_sent:
            following = identifier_at(self.first, self.sent + 1)
            if packet and not packet.is_little and packet.identifier == following:
                self.sent += 1
                self.last[following] = self.sent
            return 0
        if packet:
            return self.last.get(packet.identifier, 0)
        status = read_status(item.data)
        if not status:
            return 0
        if status.expected == identifier_at(self.first, self.sent + 1):
            return self.sent
        return max(0, self.last.get(status.expected, 0) - 1)


def proved(capture):
    places = Places(capture.first)
    return max((places.add(item) for item in capture.items), default=0)


# ---- descriptions


def describe(text):
    """The description of the capture that has this text."""
    capture = read_capture(text)
    return description(capture)


def description(capture):
    lines = "".join(map(described, capture.items))
    return f"first {capture.first}\n{lines}proved {proved(capture)}\n".encode()


class NoDescription(Exception):
    pass


def number_in(text, most):
    """A decimal number without leading zeros."""
    if not re.fullmatch("0|[1-9][0-9]{0,9}", text) or int(text) > most:
        raise NoDescription(text)
    return int(text)


def word_in(text):
    if not re.fullmatch("0x[0-9a-f]{8}", text):
        raise NoDescription(text)
    return int(text, 16)


def words_in_line(is_sent, line):
    """The words of the request or the reply that a line tells."""
    number, verb, *rest = line.removeprefix("  ").split(" ")
    number = number_in(number, 0xFFF)
    kind = KINDS.get(verb)
    if kind is None or len(rest) < (1 if is_sent else 2):
        raise NoDescription(line)
    if not is_sent:
        code, count = number_in(rest[0], 0xF), number_in(rest[1], 0xFF)
        return [transaction_header(number, count, kind, code), *map(word_in, rest[2:])]
    address = word_in(rest[0])
    if kind in READS:
        if len(rest) != 2:
            raise NoDescription(line)
        return [transaction_header(number, number_in(rest[1], 0xFF), kind, REQUEST), address]
    words = [word_in(word) for word in rest[1:]]
    count = len(words) if kind in WRITES else 1
    if count > 0xFF or len(words) != length_of(kind, count) - 1:
        raise NoDescription(line)
    return [transaction_header(number, count, kind, REQUEST), address, *words]


def datagram_in(is_sent, line, more):
    """The bytes of the datagram that these lines tell: one behind its direction, and those of transactions."""
    kind, *rest = line.split(" ")
    if kind == "control" and len(rest) == 2 and rest[1] in ("big", "little"):
        body = [word for each in more for word in words_in_line(is_sent, each)]
        return control_packet(number_in(rest[0], 0xFFFF), body, rest[1] == "little")
    if more:
        raise NoDescription(line)
    if kind == "raw" and len(rest) == 1 and re.fullmatch("-|(?:[0-9a-f]{2})+", rest[0]):
        return b"" if rest[0] == "-" else bytes.fromhex(rest[0])
    if kind == "resend" and len(rest) == 1:
        return resend_request(number_in(rest[0], 0xFFFF))
    if line == "status request":
        return status_request()
    if kind == "status" and len(rest) == 3:
        mtu, buffers, expected = (number_in(*each) for each in zip(rest, (9000, 64, LAST_IDENTIFIER)))
        return status_reply(Status(mtu, buffers, expected))
    raise NoDescription(line)


def capture_in(text):
    """The one capture that can have this description."""
    head, *lines = text.decode("ascii").split("\n")
    first = first_of(f"{head}\n".encode())
    if first is None or len(lines) < 2 or lines.pop() != "" or not lines.pop().startswith("proved "):
        raise NoDescription(head)
    parts = []
    for line in lines:
        if line[:2] in ("> ", "< "):
            parts.append((line[0] == ">", line[2:], []))
        elif line[:2] == "  " and parts:
            parts[-1][2].append(line)
        else:
            raise NoDescription(line)
    return Capture(first, [Caught(is_sent, datagram_in(is_sent, line, more)) for is_sent, line, more in parts])


def undescribe(text):
    """The text of the capture that has this description."""
    if len(text) > MOST_BYTES:
        raise Refused("refused: description - TooLong\n")
    try:
        capture = capture_in(text)
        is_right = description(capture) == text and all(len(item.data) <= LONGEST for item in capture.items)
    except (NoDescription, ValueError):
        is_right = False
    if not is_right:
        raise Refused("refused: description - NotDescription\n")
    return write_capture(capture)
