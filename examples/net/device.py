"""A board of IPbus 2.0, from `docs/PROTOCOL.md` alone: its registers, and what it answers to a datagram."""
from collections import OrderedDict

from net.packets import (
    BAD_HEADER,
    READ,
    READS,
    RMW_BITS,
    RMW_SUM,
    WHOLE,
    WRITE,
    Status,
    control_packet,
    identifier_after,
    is_status_request,
    longest_reply,
    payload_of,
    read_control,
    read_resend,
    status_reply,
    transaction_header,
    transactions_of,
)

# the info codes of a read and of a write
ABSENT = (4, 5)
SLOW = (6, 7)
REFUSALS = {"rw": (0, 0), "ro": (0, 5), "wo": (4, 0), "slow": SLOW}


class Refused(Exception):
    """An access that a register refuses, with its info code."""

    def __init__(self, code):
        super().__init__(code)
        self.code = code


class Registers:
    """The words of ranges, each of a kind: `rw`, `ro`, `wo` or `slow`."""

    def __init__(self, ranges):
        self.words = {}
        self.refusals = {}
        for base, size, kind, init in ranges:
            for offset in range(size):
                self.words[base + offset] = init[offset] if offset < len(init) else 0
                self.refusals[base + offset] = REFUSALS[kind]

    def read(self, address):
        code = self.refusals.get(address, ABSENT)[0]
        if code:
            raise Refused(code)
        return self.words[address]

    def write(self, address, word):
        code = self.refusals.get(address, ABSENT)[1]
        if code:
            raise Refused(code)
        self.words[address] = word & WHOLE

    def change(self, transaction):
        """A read-modify-write, and the word before it."""
        before = self.read(transaction.address)
        first = transaction.words[0]
        now = before + first if transaction.kind == RMW_SUM else before & first | transaction.words[1]
        self.write(transaction.address, now)
        return before

    def do(self, transaction, words):
        """Does a transaction. What it reads goes into `words`, which stays as far as it came where one is refused.
        The answer is how many words were done, and the code."""
        kind, step = transaction.kind, transaction.kind in (READ, WRITE)
        done = 0
        try:
            for done in range(transaction.count):
                address = transaction.address + (done if step else 0)
                if kind in (RMW_BITS, RMW_SUM):
                    words.append(self.change(transaction))
                elif kind in READS:
                    words.append(self.read(address))
                else:
                    self.write(address, transaction.words[done])
        except Refused as refused:
            return done, refused.code
        return transaction.count, 0

    def execute(self, body):
        """Executes the transactions of a body up to the first that fails. The answer is the body of the reply."""
        reply = []
        found, bad = transactions_of(body)
        for each in found:
            words = []
            done, code = self.do(each, words)
            reply += [transaction_header(each.number, done, each.kind, code), *words]
            if code:
                return reply
        if bad is not None:
            reply.append(transaction_header(bad, 0, 0, BAD_HEADER))
        return reply


class Device:
    """A board. It executes a control packet with the identifier that it expects, and keeps its last replies. `log` is
    called with a line for each datagram that it hears."""

    def __init__(self, registers, mtu=1500, buffers=16, first=1, log=lambda line: None):
        self.registers = registers
        self.mtu = mtu
        self.buffers = buffers
        self.expected = first
        self.replies = OrderedDict()
        self.log = log

    def hear(self, datagram):
        """The datagram that answers this one, or None."""
        if is_status_request(datagram):
            self.log(f"status {self.expected}")
            return status_reply(Status(self.mtu, self.buffers, self.expected))
        identifier = read_resend(datagram)
        if identifier is not None:
            return self.send_again(identifier)
        packet = read_control(datagram)
        if packet is None:
            self.log("no packet")
            return None
        if 1 + max(len(packet.body), longest_reply(packet.body)) > payload_of(self.mtu):
            self.log(f"too long {packet.identifier}")
            return None
        if packet.identifier not in (0, self.expected):
            self.log(f"not expected {packet.identifier}")
            return None
        return self.execute(packet)

    def send_again(self, identifier):
        reply = self.replies.get(identifier)
        self.log(f"{'not held' if reply is None else 'sent again'} {identifier}")
        return reply

    def execute(self, packet):
        words = " ".join(f"{word:08x}" for word in packet.body)
        self.log(f"executed {packet.identifier} {words}".rstrip())
        reply = control_packet(packet.identifier, self.registers.execute(packet.body), packet.is_little)
        if packet.identifier:
            self.expected = identifier_after(self.expected)
            self.replies[packet.identifier] = reply
            while len(self.replies) > self.buffers:
                self.replies.popitem(last=False)
        return reply
