"""What is asked of a board: operations, their transactions, and the packets that these go in."""

from __future__ import annotations

import random
from collections.abc import Iterable, Sequence

from ipbus.errors import BusError, ConnectionEnded, Garbled, IpbusError, NotSent, Skipped, unanswered
from ipbus.frames import DONE, Answer, request_frame
from ipbus.packets import (
    ASKED,
    MOST_WORDS,
    READ,
    READ_PORT,
    RMW_BITS,
    RMW_SUM,
    WHOLE,
    WRITE,
    WRITE_PORT,
    control_in,
    control_packet,
    reads_words,
    transaction_header,
)
from ipbus.registers import Register
from ipbus.values import UNDER_WAY, Result

MOST_OF_A_TRANSACTION = 255
# transaction identifiers begin at random in each packet, and rise by 1 there: a reply to the packet of another hub has
# others
_IDENTIFIERS = 1 << 12
_draw = random.SystemRandom()


class Request:
    """One transaction, whoever asks for it. `words` go with it; `length` and `reply_length` count words; `asked` and
    `done` are the headers of the request and of the reply to it, but for the transaction identifier."""

    __slots__ = ("address", "asked", "count", "done", "kind", "length", "reply_length", "words")

    def __init__(self, kind: int, address: int, count: int, words: Sequence[int] = ()) -> None:
        self.kind = kind
        self.address = address
        self.count = count
        self.words = words
        self.length = 2 + len(words)
        self.reply_length = 1 + count if reads_words(kind) else 1
        self.asked = transaction_header(0, kind, count, ASKED)
        self.done = transaction_header(0, kind, count, 0)


# a result, and the transactions whose answers fill it
Operation = tuple[Result, Sequence[Request]]


def write_request(register: Register, value: int) -> Request:
    """A write of a word; under a mask one read-modify-write, so that no other client comes between."""
    if register.mask == WHOLE:
        return Request(WRITE, register.address, 1, (value,))
    return Request(RMW_BITS, register.address, 1, (WHOLE & ~register.mask, value << register.shift))


def bits_request(address: int, and_term: int, or_term: int) -> Request:
    """The word becomes (word AND and_term) OR or_term."""
    return Request(RMW_BITS, address, 1, (and_term, or_term))


def sum_request(address: int, addend: int) -> Request:
    """The word becomes word + addend, modulo 2 to the 32nd."""
    return Request(RMW_SUM, address, 1, (addend,))


def read_requests(address: int, is_port: bool, count: int, payload: int) -> list[Request]:
    """The transactions of a block that is read: each fits a packet of `payload` words."""
    most = min(MOST_OF_A_TRANSACTION, payload - 2)
    kind = READ_PORT if is_port else READ
    return [
        Request(kind, address if is_port else address + at, min(most, count - at)) for at in range(0, count, most)
    ]


def write_requests(address: int, is_port: bool, words: Sequence[int], payload: int) -> list[Request]:
    """The transactions of a block that is written: each fits a packet of `payload` words."""
    most = min(MOST_OF_A_TRANSACTION, payload - 3)
    kind = WRITE_PORT if is_port else WRITE
    parts = ((at, words[at : at + most]) for at in range(0, len(words), most))
    return [Request(kind, address if is_port else address + at, len(part), part) for at, part in parts]


class Packet:
    """Transactions, each with the result that its answer fills, that go in one packet to the board at this position of
    the hub's document."""

    __slots__ = ("asked", "identifier", "is_done", "is_sent", "position", "start")

    def __init__(self, position: int) -> None:
        self.position = position
        self.asked: list[tuple[Result, Request]] = []
        self.identifier = _draw.randrange(1 << 16)
        self.start = _draw.randrange(_IDENTIFIERS - MOST_WORDS // 2)
        self.is_sent = False
        self.is_done = False

    def frame(self) -> bytes:
        """The request frame."""
        words: list[int] = []
        for number, (_, request) in enumerate(self.asked, self.start):
            words += (request.asked | number << 16, request.address, *request.words)
        return request_frame(self.position, control_packet(self.identifier, words))

    def bytes_under_way(self) -> int:
        """How long the frame and the longest reply frame are together."""
        return 28 + 4 * sum([request.length + request.reply_length for _, request in self.asked])

    def mark_sent(self) -> None:
        """From now on each transaction may be executed."""
        self.is_sent = True
        for result, _ in self.asked:
            result.mark_sent()

    def end(self, error: IpbusError) -> None:
        """None of these transactions has another answer than this one."""
        for result, _ in self.asked:
            result.fail(error)

    def give_up(self, error: BaseException) -> None:
        """Nothing more is heard, for this reason."""
        if self.is_sent:
            self.end(error if isinstance(error, IpbusError) else UNDER_WAY)
        elif isinstance(error, IpbusError) and not isinstance(error, ConnectionEnded):
            self.end(error)
        else:
            self.end(NotSent("the connection ended before this was sent: it was not executed"))

    def hear(self, answer: Answer) -> None:
        """Takes the answer of the hub, all of it or none."""
        if answer.code != DONE:
            self.end(unanswered(answer.code))
            return
        packet = control_in(answer.packet)
        replies = self._replies(packet.body) if packet and packet.identifier == self.identifier else None
        if replies is None:
            self.end(Garbled("the reply is none to this packet: it may have been executed"))
            return
        done, failure = replies
        for (result, _), words in zip(self.asked, done):
            result.hear(words)
        if failure is None:
            self.is_done = True
            return
        self.asked[len(done)][0].fail(failure)
        for result, _ in self.asked[len(done) + 1 :]:
            result.fail(Skipped("an operation before it in its packet failed, so it was not executed"))

    def _replies(self, words: Sequence[int]) -> tuple[list[Sequence[int]], BusError | None] | None:
        """The words of each transaction that was done, up to one that failed, and its failure. None if the words are no
        reply to the packet."""
        replies: list[Sequence[int]] = []
        at, length = 0, len(words)
        for number, (_, request) in enumerate(self.asked, self.start):
            done = request.done | number << 16
            if at == length or words[at] != done:
                failure = _failure(request, done, words[at:])
                return None if failure is None else (replies, failure)
            end = at + request.reply_length
            if end > length:
                return None
            replies.append(words[at + 1 : end])
            at = end
        return (replies, None) if at == length else None


def _failure(request: Request, done: int, words: Sequence[int]) -> BusError | None:
    """The failure of this request, if these last words of a body are one."""
    header = words[0] if words else 0
    info, count = header & 0xF, header >> 8 & 0xFF
    is_own = header & ~0xFF0F == done & ~0xFF0F and info and count < max(request.count, 1)
    if not is_own or len(words) != 1 + (count if reads_words(request.kind) else 0):
        return None
    return BusError.of(info, count)


def packets_of(operations: Iterable[Operation], position: int, payload: int) -> list[Packet]:
    """As few packets as the order of these operations allows: each, and the longest reply to it, has at most `payload`
    words with its header."""
    packets: list[Packet] = []
    room = payload - 1
    length = reply_length = payload
    for result, requests in operations:
        for request in requests:
            length += request.length
            reply_length += request.reply_length
            if length > room or reply_length > room:
                packets.append(Packet(position))
                length, reply_length = request.length, request.reply_length
            packets[-1].asked.append((result, request))
    return packets
