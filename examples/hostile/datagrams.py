"""A board that answers anything, drawn from a number. It executes what it hears, as a board does, and then sends what
is none of its answers: beside them, or in their place."""
import random
import re
import select
import socket
import threading

from model.network import run_session
from model.session import Session
from model.transcript import transcript
from net.device import Device, Registers
from net.packets import (
    Status,
    bytes_of,
    control_packet,
    packet_header,
    read_control,
    status_reply,
    words_of,
)
from net.peers import Board, require, rest_of
from net.run_cases import places_told, require_same
from net.sessions import RANGES, on_network, simulated

LONGEST = 9000
# bodies of one run
DISPATCHES = 60
LINES = [
    "read b0:id",
    "write b0:count {word}",
    "rmwsum b0:count 1",
    "rmwbits b0:a {word} {word}",
    "write b0:a.low {few}",
    "readblock b0:mem {few}",
    "writeblock b0:mem 1 2 3",
    "readblock b0:fifo 4",
    "read b0:fixed",
    "write b0:fixed 9",
    "read b0:slow",
]

ANSWER = r"(=( 0x[0-9a-f]{8})+|done|was 0x[0-9a-f]{8}|error [4-7] after [0-9]+|skipped|garbled)"
OPERATION_LINE = re.compile(
    r"[0-9]+ (read|write|readblock|writeblock|rmwbits|rmwsum) b0:\S+ "
    rf"(({ANSWER}|timeout after [0-9]+ rounds, (execution unknown|answered late: {ANSWER}))"
    r"( @[0-9]+\.[0-9]+(,[0-9]+\.[0-9]+)*)|unsent( @.*)?)"
)
# what is said of a board that lied at its greeting, or lies of what it expects
OUT_OF_STEP = re.compile(
    r"ipbus: b0 expects \d+ where \d+ is next: it was reset, or another hub is at it; start this hub anew\n"
)
BOARD_LINE = re.compile(r"board b0 places ([0-9]+) replied ([0-9]+) timeout ([0-9]+) lost 0|board b0 silent")


def script(draw):
    lines = []
    for _ in range(DISPATCHES):
        for line in draw.choices(LINES, k=draw.choice((1, 1, 2, 5))):
            lines.append(line.format(word=draw.getrandbits(32), few=draw.randrange(1, 200)))
        lines.append("dispatch")
    return lines


# ---- datagrams that answer nothing


def status_out_of_range(draw):
    mtu, buffers, expected = 1500, 16, 1
    kind = draw.randrange(3)
    if kind == 0:
        mtu = draw.choice((0, 91, 9001, 65_535, 0xFFFFFFFF))
    elif kind == 1:
        buffers = draw.choice((0, 65, 0xFFFFFFFF))
    else:
        expected = 0
    return status_reply(Status(mtu, buffers, expected))


def nothing(draw, device, heard, answer):
    """What a hub is to leave alone: no packet, one out of range, or one with an identifier far from those in use."""
    far = (device.expected + 30_000) % 65_535 + 1
    answer = answer or control_packet(far, [0])
    data = draw.choice(
        [
            b"",
            draw.randbytes(3),
            bytes([0x30]) + draw.randbytes(7),
            bytes(LONGEST),
            b"\x30" + draw.randbytes(LONGEST - 1),
            b"\x20" + draw.randbytes(LONGEST - 2),
            answer[:-1],
            answer[: len(answer) // 2 | 1],
            status_out_of_range(draw),
            status_reply(Status(1500, 16, 1))[:60],
            status_reply(Status(1500, 16, 1)) + bytes(4),
            bytes_of([packet_header(far, 2)]),
            bytes_of([packet_header(device.expected, 2)]),
            control_packet(far, [draw.getrandbits(32) for _ in range(draw.randrange(4))]),
            control_packet(0, [0x2000_0100, 0xBAD]),
        ]
    )
    return data


# ---- datagrams that lie


def changed_reply(draw, answer):
    """A reply that is not what the board did: a bit of it is another, or its end is missing, or more stands behind."""
    kind = draw.randrange(4)
    if kind == 0:
        place = draw.randrange(4, len(answer)) if len(answer) > 4 else 3
        return answer[:place] + bytes([answer[place] ^ 1 << draw.randrange(8)]) + answer[place + 1 :]
    if kind == 1:
        return answer[: 4 * draw.randrange(len(answer) // 4 + 1)]
    if kind == 2:
        return answer + draw.randbytes(4 * draw.choice((1, 2, (LONGEST - len(answer)) // 4)))
    return bytes_of(words_of(answer), True)


def lie(draw, device, heard, answer):
    """A datagram with an identifier that may be in use, and any body; or a status that is not the board's own."""
    packet = read_control(heard)
    near = (device.expected + draw.randrange(-20, 20)) % 65_535 + 1
    asked = packet.identifier if packet else near
    choices = [
        control_packet(draw.choice((asked, near)), [draw.getrandbits(32) for _ in range(draw.randrange(6))]),
        control_packet(asked, [0x2001_0100, 0xABCD]),
        control_packet(asked, [0x2000_0002]),
        control_packet(asked, [0x2000_0000 | draw.getrandbits(28)]),
        control_packet(asked, [0] * ((LONGEST - 28) // 4)),
        status_reply(Status(draw.choice((92, 9000, 1500)), draw.choice((1, 16, 64)), near)),
        heard,
        nothing(draw, device, heard, answer),
    ]
    if answer and read_control(answer):
        choices += [changed_reply(draw, answer)] * 4
    return draw.choice(choices)


# ---- the board


class Hostile(threading.Thread):
    """A board on a port of 127.0.0.1, in a thread. `lies` says whether strange datagrams may come in the place of its
    answers and with identifiers in use; else they come beside them."""

    def __init__(self, draw, lies):
        super().__init__(daemon=True)
        self.draw = draw
        self.lies = lies
        self.device = Device(Registers(RANGES), log=self.hear)
        self.bodies = {}
        self.order = []
        self.executed = []
        self.sent = 0
        self.fault = None
        self.socket = socket.socket(socket.AF_INET, socket.SOCK_DGRAM)
        self.socket.bind(("127.0.0.1", 0))
        self.port = self.socket.getsockname()[1]
        self.bell, self.end = socket.socketpair()

    def run(self):
        while True:
            ready, _, _ = select.select([self.socket, self.end], [], [])
            if self.end in ready:
                return
            data, peer = self.socket.recvfrom(65_536)
            self.note(data)
            for datagram in self.answers(data):
                self.socket.sendto(datagram, peer)

    def hear(self, line):
        """What the board says that it does with a datagram."""
        kind, *rest = line.split()
        if kind == "executed":
            self.executed.append(int(rest[0]))

    def note(self, data):
        """A packet that is sent again is the same as at first."""
        packet = read_control(data)
        if packet is None:
            return
        if packet.identifier not in self.bodies:
            self.order.append(packet.identifier)
        if self.bodies.setdefault(packet.identifier, data) != data:
            self.fault = f"the packet {packet.identifier} was sent again with another body"

    def answers(self, data):
        """What it sends when it heard a datagram."""
        answer = self.device.hear(data)
        strange = lie if self.lies else nothing
        found = [strange(self.draw, self.device, data, answer) for _ in range(self.draw.randrange(5))]
        self.sent += len(found)
        if answer is not None and not (self.lies and self.draw.randrange(3) == 0):
            place = self.draw.randrange(len(found) + 1)
            found[place:place] = [answer] * self.draw.choice((1, 1, 1, 2))
        return found

    def stop(self):
        self.bell.send(b"x")
        self.join()
        for each in (self.bell, self.end, self.socket):
            each.close()

    def require_sound(self):
        """Packets went out with one identifier after another, and each was the same whenever it was sent."""
        require(self.fault is None, self.fault)
        first = self.order[0] if self.order else 1
        wanted = [(first + number - 1) % 65_535 + 1 for number in range(len(self.order))]
        require(self.order == wanted, f"identifiers {self.order}")
        require(len(set(self.executed)) == len(self.executed), f"executed {self.executed}")


def require_told(done, lines):
    """A transcript of these lines, whatever the results are: its counts go together."""
    rest = OUT_OF_STEP.sub("", rest_of(done.note))
    require(done.status in (0, 1) and rest == "", f"status {done.status}, note {done.note!r}")
    given = done.text.splitlines()
    operations = [line for line in lines if line != "dispatch"]
    require(given[:1] == ["client 1"] and len(given) == len(operations) + 2, f"the text {done.text!r}")
    for number, line in enumerate(given[1:-1], 1):
        require(OPERATION_LINE.fullmatch(line) and line.startswith(f"{number} "), f"the line {line!r}")
    told = BOARD_LINE.fullmatch(given[-1])
    require(told, f"the line {given[-1]!r}")
    if told[1]:
        places, replied, timeouts = map(int, told.groups())
        require(places == replied + timeouts, f"the line {given[-1]!r}")


def try_datagrams(peers, number):
    """One run over such a board. The answer is how many strange datagrams it sent."""
    draw = random.Random(f"datagrams {number}")
    lies = number % 2 == 1
    lines = script(draw)
    hostile = Hostile(draw, lies)
    board = Board("b0", RANGES)
    board.port = hostile.port
    settings = {"rounds": 3} if lies else {"rounds": 255}
    hostile.start()
    try:
        done = peers.run(on_network([board], [lines], 4 if lies else 100, **settings))
    finally:
        hostile.stop()
    hostile.require_sound()
    if lies:
        require_told(done, lines)
    else:
        text, status = transcript(*both(simulated([board], [lines], **settings)))
        require_same(done, text, status)
        require(places_told(done.text) == [len(hostile.executed)], f"executed {len(hostile.executed)} bodies")
    return hostile.sent


def both(data):
    session = Session(data)
    return session, run_session(session)
