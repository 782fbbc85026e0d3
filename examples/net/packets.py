"""Words, packets and transactions of IPbus 2.0, from `docs/PROTOCOL.md` alone. A body is a list of 32-bit words."""
import struct
from collections import namedtuple

WHOLE = 0xFFFFFFFF
GREATEST_PACKET = 2243
LAST_IDENTIFIER = 65_535

CONTROL, STATUS, RESEND = 0, 1, 2
READ, WRITE, READ_PORT, WRITE_PORT, RMW_BITS, RMW_SUM = range(6)
READS = (READ, READ_PORT)
WRITES = (WRITE, WRITE_PORT)
REQUEST = 0xF
BAD_HEADER = 1

STATUS_HEADER = 0x200000F1
STATUS_WORDS = 16

# a control packet: its identifier, its body, and whether it is in little-endian order
Control = namedtuple("Control", "identifier body is_little", defaults=(False,))
# what a board tells of itself: bytes of an IP packet, response buffers, the identifier that it expects next
Status = namedtuple("Status", "mtu buffers expected")
# one transaction of a body: the words behind its header are `words`
Transaction = namedtuple("Transaction", "number kind count address words")


def words_of(data, is_little=False):
    """The words of bytes, or None where a part of a word is left over."""
    if len(data) % 4:
        return None
    return list(struct.unpack(f"{'<' if is_little else '>'}{len(data) // 4}I", data))


def bytes_of(words, is_little=False):
    return struct.pack(f"{'<' if is_little else '>'}{len(words)}I", *words)


def payload_of(mtu):
    """The words of a packet that an IP packet of so many bytes has room for, its header included."""
    return (mtu - 28) // 4


# ---- packets


def packet_header(identifier, kind):
    return 2 << 28 | identifier << 8 | 0xF << 4 | kind


def control_packet(identifier, body, is_little=False):
    return bytes_of([packet_header(identifier, CONTROL), *body], is_little)


def read_control(data):
    """The control packet of these bytes, in either order, or None."""
    for is_little in (False, True):
        words = words_of(data, is_little)
        if not words or len(words) > GREATEST_PACKET:
            return None
        identifier = words[0] >> 8 & 0xFFFF
        if words[0] == packet_header(identifier, CONTROL):
            return Control(identifier, words[1:], is_little)
    return None


def status_request():
    return bytes_of([STATUS_HEADER] + [0] * (STATUS_WORDS - 1))


def is_status_request(data):
    return len(data) == 4 * STATUS_WORDS and data[:4] == bytes_of([STATUS_HEADER])


def status_reply(status):
    told = [status.mtu, status.buffers, packet_header(status.expected, CONTROL)]
    return bytes_of([STATUS_HEADER, *told] + [0] * (STATUS_WORDS - 1 - len(told)))


def read_status(data):
    """What a status reply tells, or None where it is none or out of range."""
    if not is_status_request(data):
        return None
    mtu, buffers, header = words_of(data)[1:4]
    expected = header >> 8 & 0xFFFF
    is_header = header == packet_header(expected, CONTROL) and expected > 0
    if not is_header or not 92 <= mtu <= 9000 or not 1 <= buffers <= 64:
        return None
    return Status(mtu, buffers, expected)


def resend_request(identifier):
    return bytes_of([packet_header(identifier, RESEND)])


def read_resend(data):
    """The identifier that a re-send request asks for, or None."""
    if len(data) != 4:
        return None
    identifier = words_of(data)[0] >> 8 & 0xFFFF
    return identifier if data == resend_request(identifier) else None


def identifier_after(identifier):
    """1 follows the last one: 0 has no place among them."""
    return identifier % LAST_IDENTIFIER + 1


# ---- transactions


def transaction_header(number, count, kind, code):
    return 2 << 28 | number << 16 | count << 8 | kind << 4 | code


def request(number, kind, address, count, words=()):
    """The words of one request."""
    return [transaction_header(number, count, kind, REQUEST), address, *words]


def length_of(kind, count):
    """How many words stand behind the header of a request."""
    if kind in READS:
        return 1
    return 1 + count if kind in WRITES else 3 if kind == RMW_BITS else 2


def reply_length_of(kind, count):
    """How many words a reply has at most, its header included."""
    return 1 if kind in WRITES else 1 + count


def transactions_of(body):
    """The requests of a body up to the first bad header, and the number of the transaction with that, or None."""
    found = []
    rest = body
    while rest:
        header = rest[0]
        number, count, kind = header >> 16 & 0xFFF, header >> 8 & 0xFF, header >> 4 & 0xF
        is_bad = header >> 28 != 2 or kind > RMW_SUM or header & 0xF != REQUEST
        is_bad = is_bad or kind in (RMW_BITS, RMW_SUM) and count != 1
        length = 0 if is_bad else length_of(kind, count)
        if is_bad or len(rest) < 1 + length:
            return found, number
        found.append(Transaction(number, kind, count, rest[1], rest[2 : 1 + length]))
        rest = rest[1 + length :]
    return found, None


def longest_reply(body):
    """The words of the longest body that can answer this one."""
    found, bad = transactions_of(body)
    return sum(reply_length_of(each.kind, each.count) for each in found) + (bad is not None)
