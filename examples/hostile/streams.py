"""Streams of frames, drawn from a number, to a hub that serves: each frame is answered by the code that it is owed, in
its order, and each body that was answered with code 0 was executed once."""
import contextlib
import random
import struct

from net.clients import all_at_once, board_line, require_served
from net.device import Registers
from net.frames import (
    DONE,
    LONGEST,
    SHORTEST,
    Broken,
    ask,
    code_owed,
    frame,
)
from net.packets import (
    READ,
    RMW_BITS,
    RMW_SUM,
    WHOLE,
    WRITE,
    bytes_of,
    control_packet,
    read_control,
    request,
    resend_request,
    status_request,
    transactions_of,
)
from net.peers import Board, require
from net.sessions import RANGES, SHARED, document

# the connections of one hub, which all begin before the first of them sends
AT_ONCE = 64
MTUS = [1500, 92, 9000, None]
ADDRESSES = [0, 1, 15, 16, 0x100, 0x357, 0x358, 0x1000, 0x1003, 0x2000, SHARED + 1, SHARED + 127, WHOLE]


def boards():
    """Live boards of several sizes, and at the end one that never answers."""
    live = [Board(f"b{number}", RANGES, mtu=mtu or 1500, first=65_530) for number, mtu in enumerate(MTUS)]
    tables = [board.simulated() for board in live]
    # the datagrams of the greeting are lost, round by round
    tables[-1] = tables[-1].replace("buffers", f'fates = "{"l" * 20}"\nbuffers', 1)
    return live, document(tables, rounds=10)


# ---- what is sent


def drawn_request(draw):
    kind = draw.randrange(6)
    count = draw.choice((0, 1, 1, 1, 2, 5, 100, 255))
    address = draw.choice(ADDRESSES)
    if kind in (RMW_BITS, RMW_SUM):
        count = 1 if draw.randrange(8) else count
        words = [draw.getrandbits(32) for _ in range(2 if kind == RMW_BITS else 1)]
    else:
        words = [draw.getrandbits(32) for _ in range(count)] if kind in (WRITE, WRITE + 2) else []
    return request(draw.randrange(4096), kind, address, count, words)


def drawn_body(draw):
    body = []
    for _ in range(draw.choice((0, 1, 1, 2, 3, 10))):
        body += drawn_request(draw)
    kind = draw.randrange(8)
    if kind == 0 and body:
        body[draw.randrange(len(body))] ^= 1 << draw.randrange(32)
    elif kind == 1:
        body = body[: draw.randrange(len(body) + 1)]
    elif kind == 2:
        body += [draw.getrandbits(32) for _ in range(draw.choice((1, 2, 15, 400, 2238)))]
    return body[: LONGEST // 4 - 2]


def sum_of_one(draw):
    return request(draw.randrange(4096), RMW_SUM, SHARED, 1, [1])


def no_control_packet(draw):
    return draw.choice(
        [
            b"\0\0\0\0",
            draw.randbytes(4),
            draw.randbytes(draw.choice((5, 6, 7, 8, 63, 64, 65, LONGEST - 4))),
            status_request(),
            resend_request(draw.randrange(65_536)),
            control_packet(draw.randrange(65_536), sum_of_one(draw))[:-1],
            bytes_of([0x300000F0, *sum_of_one(draw)]),
            b"\x20\0\1\xf0\0",
        ]
    )


def drawn_frame(draw):
    board = draw.choice((0, 0, 0, 1, 1, 2, 3, 4, 65_536, WHOLE))
    kind = draw.randrange(10)
    if kind < 2:
        return frame(board, no_control_packet(draw))
    body = sum_of_one(draw) if kind < 6 else drawn_body(draw)
    return ask(board, draw.randrange(65_536), body, draw.randrange(2) == 1)


def bad_end(draw):
    """What stands last in some streams: a length out of range, with a little behind it, or a part of a frame."""
    length = draw.choice((0, 1, 3, 7, SHORTEST, LONGEST, LONGEST + 1, 65_536, WHOLE))
    return struct.pack(">I", length)[: draw.randrange(1, 5)] + draw.randbytes(draw.choice((0, 0, 1, 7, 30)))


def drawn_stream(number):
    """The bytes of a connection, and where they are cut into pieces."""
    draw = random.Random(f"stream {number}")
    data = b"".join(drawn_frame(draw) for _ in range(draw.choice((0, 1, 2, 5, 10))))
    kind = draw.randrange(6)
    if kind == 0:
        data += bad_end(draw)
    elif kind == 1:
        data = data[: draw.randrange(len(data) + 1)]
    elif kind == 2 and data:
        place = draw.randrange(len(data))
        data = data[:place] + bytes([data[place] ^ 1 << draw.randrange(8)]) + data[place + 1 :]
    cuts = sorted(draw.randrange(len(data) + 1) for _ in range(draw.choice((0, 0, 1, 3, 10))))
    return data, cuts


# ---- what is owed


def frames_of(data):
    """The frames of a stream, each a board and a packet, and how the connection ends."""
    found = []
    while data:
        (length,) = struct.unpack(">I", data[:4]) if len(data) >= 4 else (None,)
        if length is not None and not SHORTEST <= length <= LONGEST:
            return found, "bad frame"
        if length is None or len(data) < 4 + length:
            return found, "cut frame"
        found.append((struct.unpack(">I", data[4:8])[0], data[8 : 4 + length]))
        data = data[4 + length :]
    return found, "closed"


def require_reply(asked, reply):
    """The body of a reply has the headers that a fresh board would answer, and its words where a register is fixed."""
    wanted = Registers(RANGES).execute(asked)
    require(len(reply) == len(wanted), f"{len(reply)} words of a reply, wanted {len(wanted)}")
    place = 0
    while place < len(wanted):
        header, count, kind = wanted[place], wanted[place] >> 8 & 0xFF, wanted[place] >> 4 & 0xF
        require(reply[place] == header, f"the header {reply[place]:08x}, wanted {header:08x}")
        place += 1 + (0 if kind in (WRITE, WRITE + 2) else count)


def require_answer(board, packet, answer):
    """The answer to a frame. It is the body that was executed, or None."""
    code = code_owed(board, packet, MTUS)
    require((answer.board, answer.code) == (board, code), f"{answer} to {packet.hex()} for board {board}, wanted {code}")
    if code != DONE:
        return None
    asked, reply = read_control(packet), read_control(answer.packet)
    require(reply is not None and reply.identifier == asked.identifier, f"{answer} to {packet.hex()}")
    require(reply.is_little == asked.is_little, f"{answer} in the other byte order")
    require_reply(asked.body, reply.body)
    return asked.body, reply.body


class Stream:
    """One connection: what it sent, and what it was answered."""

    def __init__(self, number, connection):
        self.number = number
        self.connection = connection
        self.data, self.cuts = drawn_stream(number)
        self.frames, self.end = frames_of(self.data)
        self.done = []

    def go(self):
        try:
            self.talk()
        except (OSError, Broken) as error:
            require(False, f"stream {self.number}: {error}")

    def send(self):
        self.connection.send_cut(self.data, self.cuts, 0)
        self.connection.half_close()

    def talk(self):
        # a hub that goes away at a bad length need not read what stands behind it, and then a side cannot be closed either
        with contextlib.suppress(*[OSError] * (self.end == "bad frame")):
            self.send()
        for board, packet in self.frames:
            answer = self.connection.answer()
            require(answer is not None, f"stream {self.number} has no answer to {packet.hex()}")
            done = require_answer(board, packet, answer)
            if done:
                self.done.append((board, *done))
        with contextlib.suppress(*[ConnectionError] * (self.end == "bad frame")):
            require(self.connection.answer() is None, f"stream {self.number} has one answer more")

    def line(self, place):
        return f"connection {place} frames {len(self.frames)} {self.end}"


def touches_the_sum(body):
    """Whether a body writes the register that all count at, and does not add 1 to it and nothing else."""
    found, _ = transactions_of(body)
    for each in found:
        last = each.address + (each.count - 1 if each.kind == WRITE else 0)
        writes = each.kind not in (READ, READ + 2) and each.count > 0
        is_one = each.kind == RMW_SUM and each.words == [1] and len(found) == 1
        if writes and each.address <= SHARED <= last and not is_one:
            return True
    return False


def require_sums(streams):
    """Each sum of 1 at the shared register was done once, where nobody wrote to it otherwise."""
    for board in range(len(MTUS)):
        done = [(body, reply) for stream in streams for place, body, reply in stream.done if place == board]
        if any(touches_the_sum(body) for body, _ in done):
            continue
        before = [reply[1] for body, reply in done if len(body) == 3 and body[1:] == [SHARED, 1] and len(reply) == 2]
        require(sorted(before) == list(range(len(before))), f"board {board} counted {sorted(before)}")


def try_streams(peers, numbers):
    """The streams of these numbers, at most as many as one hub serves."""
    live, session = boards()
    hub = peers.serve(session, len(numbers))
    streams = [Stream(number, peers.connect(hub)) for number in numbers]
    all_at_once([stream.go for stream in streams])
    lines = [stream.line(place) for place, stream in enumerate(streams, 1)]
    places = [sum(each[0] == board for stream in streams for each in stream.done) for board in range(len(MTUS))]
    told = [board_line(board.name, count) for board, count in zip(live, places)]
    require_served(hub, lines, [*told[:-1], f"board {live[-1].name} silent"])
    require_sums(streams)
