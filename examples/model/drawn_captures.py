"""Texts of captures, and descriptions, that a number draws: datagrams of every kind, sent and received, in turn or not,
whole or with bytes changed; and texts that are not quite those of a capture."""
import random

from model.captures import Capture, Caught, description, identifier_at, write_capture
from net.packets import (
    RMW_BITS,
    RMW_SUM,
    WRITES,
    Status,
    bytes_of,
    control_packet,
    length_of,
    request,
    resend_request,
    status_reply,
    status_request,
    transaction_header,
)

FIRSTS = (1, 2, 7, 65_533, 65_534, 65_535)
MOST_ITEMS = 24


def word(draw):
    return draw.choice([0, 1, 0xFFFFFFFF, draw.getrandbits(32)])


def drawn_request(draw):
    kind = draw.randrange(6)
    count = 1 if kind in (RMW_BITS, RMW_SUM) else draw.choice([0, 1, 2, 3, draw.randrange(256)])
    words = [word(draw) for _ in range(length_of(kind, count) - 1)]
    return request(draw.choice([0, 1, draw.randrange(4096)]), kind, word(draw), count, words)


def drawn_reply(draw):
    kind = draw.randrange(6)
    code = draw.choice([0, 0, 0, 1, 4, 5, 6, 7])
    if code == 1:
        kind = 0
    count = draw.choice([0, 1, 2, draw.randrange(256)])
    if code == 1 or kind in (RMW_BITS, RMW_SUM):
        count = int(code == 0)
    carried = 0 if kind in WRITES else count
    return [transaction_header(draw.randrange(4096), count, kind, code), *(word(draw) for _ in range(carried))]


def drawn_body(draw, is_sent):
    """Mostly transactions of its way; now and then of the other way, cut short, or any words."""
    drawn = drawn_request if is_sent == (draw.randrange(10) > 0) else drawn_reply
    body = [each for _ in range(draw.choice([0, 1, 1, 2, 3])) for each in drawn(draw)]
    odd = draw.randrange(12)
    if odd == 0 and body:
        return body[:-1]
    if odd == 1:
        return body + [word(draw)]
    return body


def changed(draw, data):
    """The bytes with one of them changed, added or left out."""
    if not data:
        return bytes([draw.randrange(256)])
    at = draw.randrange(len(data))
    return draw.choice(
        [
            data[:at] + bytes([data[at] ^ 1 << draw.randrange(8)]) + data[at + 1 :],
            data[:at] + data[at + 1 :],
            data[:at] + bytes([draw.randrange(256)]) + data[at:],
        ]
    )


class Drawn:
    """A capture that is drawn datagram by datagram. `sent` counts the packets that were sent for the first time."""

    def __init__(self, draw):
        self.draw = draw
        self.first = draw.choice([*FIRSTS, draw.randrange(1, 65_536)])
        self.sent = 0

    def identifier(self, is_sent):
        """Mostly one near the last place, sometimes any."""
        if self.draw.randrange(8) == 0:
            return self.draw.choice([0, self.draw.randrange(65_536)])
        back = self.draw.choice([1, 1, 0, 0, -1, -2, 5]) if is_sent else self.draw.choice([0, 0, -1, -2, 1, 2])
        return identifier_at(self.first, self.sent + back)

    def control(self, is_sent):
        identifier = self.identifier(is_sent)
        is_little = self.draw.randrange(6) == 0
        if is_sent and not is_little and identifier == identifier_at(self.first, self.sent + 1):
            self.sent += 1
        return control_packet(identifier, drawn_body(self.draw, is_sent), is_little)

    def status(self):
        mtu = self.draw.choice([91, 92, 1500, 9000, 9001])
        buffers = self.draw.choice([0, 1, 16, 64, 65])
        told = status_reply(Status(mtu, buffers, self.identifier(False)))
        # what stands in the last words is not read
        return told if self.draw.randrange(4) else told[:-4] + bytes_of([word(self.draw)])

    def datagram(self, is_sent):
        kind = self.draw.randrange(20)
        if kind < 11:
            return self.control(is_sent)
        if kind < 13:
            return status_request()
        if kind < 15:
            return self.status()
        if kind < 17:
            return resend_request(self.identifier(is_sent))
        if kind == 17:
            return self.draw.randbytes(self.draw.choice([0, 1, 3, 4, 8, 64, 68]))
        if kind == 18:
            return self.longest(is_sent)
        return self.draw.choice([b"", bytes_of([0x2000_00F0]), bytes_of([0x2000_00F0], True)])

    def longest(self, is_sent):
        """A control packet of so many words, the most that one has or some more, whose body is requests of no words."""
        words = self.draw.choice([2242, 2243, 2244, 2245])
        body = [each for _ in range(words // 2 - 1) for each in request(0, 0, 0, 0)] if is_sent else []
        body += [transaction_header(1, 0, 0, 1)] * (words - 1 - len(body))
        return control_packet(self.identifier(is_sent), body)

    def item(self):
        is_sent = self.draw.randrange(2) == 0
        data = self.datagram(is_sent)
        if self.draw.randrange(8) == 0:
            data = changed(self.draw, data)
        return Caught(is_sent, data)

    def capture(self):
        return Capture(self.first, [self.item() for _ in range(self.draw.randrange(MOST_ITEMS))])


def drawn(number):
    draw = random.Random(number)
    return draw, Drawn(draw).capture()


def changed_text(draw, text):
    """A text of lines with one of them changed."""
    kind = draw.randrange(9)
    if kind == 0:
        return text[:-1]
    if kind == 1:
        return text + draw.choice([b"\n", b"> -", b"> \n", b"<  -\n", b"> 0\n", b"> AB\n", b"=\n", b"proved 0\n"])
    if kind == 2:
        return text.replace(b"first ", draw.choice([b"first 0", b"First ", b"first  ", b" first ", b"first 7"]), 1)
    if kind == 3:
        return text.replace(b"\n", draw.choice([b"\r\n", b" \n", b"\n\n", b""]), draw.choice([1, 2, 3]))
    if kind == 4:
        lines = text.splitlines(keepends=True)
        at = draw.randrange(len(lines))
        return b"".join(lines[:at] + draw.choice([[], [lines[at]] * 2]) + lines[at + 1 :])
    if kind == 5:
        return text.replace(b"0x", draw.choice([b"0X", b"", b"0x0"]), 1)
    if kind == 6:
        lines = text.splitlines(keepends=True)
        at = draw.randrange(len(lines))
        old, new = draw.choice([(b"> ", b"< "), (b"< ", b"> "), (b"big", b"little"), (b"  ", b" "), (b" ", b"  ")])
        lines[at] = lines[at].replace(old, new, 1)
        return b"".join(lines)
    if kind == 7:
        return text.replace(b"proved ", draw.choice([b"proved 0", b"proved 1", b"proved  "]), 1)
    return changed(draw, text)


def drawn_capture(number):
    """The text of a capture, of which every third is not quite one."""
    draw, capture = drawn(number)
    text = write_capture(capture)
    return changed_text(draw, text) if number % 3 == 0 else text


def long_capture(number):
    """The text of a capture with a datagram of the most bytes, or of one more."""
    draw, capture = drawn(number)
    data = draw.randbytes(9000 + number % 2)
    capture.items.insert(draw.randrange(len(capture.items) + 1), Caught(draw.randrange(2) == 0, data))
    return write_capture(capture)


def drawn_description(number):
    """The description of a capture, of which every third is not quite one."""
    draw, capture = drawn(number)
    text = description(capture)
    return changed_text(draw, text) if number % 3 == 0 else text
