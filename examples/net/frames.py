"""Frames of the hub's TCP connections, from `docs/FORMATS.md`: what a client sends, and what it is owed."""
import socket
import struct
import time
from collections import namedtuple

from net.packets import control_packet, longest_reply, payload_of, read_control

SHORTEST, LONGEST = 8, 8976

DONE, TIMED_OUT, UNSENT, LOST, NO_PACKET, NO_BOARD, TOO_LONG, REPLY_TOO_LONG, FULL = range(9)

# a reply frame: the board as asked, the code, and the packet behind it
Answer = namedtuple("Answer", "board code packet")


class Broken(Exception):
    """The connection ended within a frame, or told what is none."""


def frame(board, packet):
    return struct.pack(">II", 4 + len(packet), board) + packet


def ask(board, identifier, body, is_little=False):
    return frame(board, control_packet(identifier, body, is_little))


def code_owed(board, packet, mtus):
    """The code of the reply to a packet for a board, where each board with an MTU is live and answers, or 0."""
    control = read_control(packet)
    if control is None:
        return NO_PACKET
    if board >= len(mtus):
        return NO_BOARD
    if mtus[board] is None:
        return UNSENT
    room = payload_of(mtus[board]) - 1
    if len(control.body) > room:
        return TOO_LONG
    return REPLY_TOO_LONG if longest_reply(control.body) > room else DONE


class Connection:
    """A client's connection to a hub. No call takes longer than its time."""

    def __init__(self, port, seconds=60.0, host="127.0.0.1"):
        self.socket = socket.create_connection((host, port), seconds)
        self.socket.setsockopt(socket.IPPROTO_TCP, socket.TCP_NODELAY, 1)

    def send(self, data):
        self.socket.sendall(data)

    def send_cut(self, data, cuts, pause=0.001):
        """Sends bytes in pieces that end at these counts of bytes, with a pause behind each."""
        begin = 0
        for end in [*cuts, len(data)]:
            self.socket.sendall(data[begin:end])
            time.sleep(pause)
            begin = end

    def half_close(self):
        """Nothing more is sent. What was asked is still answered."""
        self.socket.shutdown(socket.SHUT_WR)

    def take(self, count):
        """So many bytes, or those up to the end."""
        data = b""
        while len(data) < count and (piece := self.socket.recv(count - len(data))):
            data += piece
        return data

    def answer(self):
        """The next reply frame, or None at the end."""
        head = self.take(4)
        if not head:
            return None
        if len(head) < 4:
            raise Broken(f"the end came behind {head.hex()}")
        (length,) = struct.unpack(">I", head)
        rest = self.take(length)
        if len(rest) < length or length < 8 or rest[6:8] != bytes(2):
            raise Broken(f"no reply frame: {(head + rest).hex()}")
        board, code = struct.unpack(">IH", rest[:6])
        if code != DONE and length > 8:
            raise Broken(f"a packet beside code {code}: {(head + rest).hex()}")
        return Answer(board, code, rest[8:])

    def ask(self, board, identifier, body, is_little=False):
        """Asks for a body and waits for the reply: the body of it."""
        self.send(ask(board, identifier, body, is_little))
        return self.reply(board, identifier, is_little)

    def reply(self, board, identifier, is_little=False):
        """The body of the next reply, which is for this board, and has the identifier and the order of its request."""
        answer = self.answer()
        if answer is None or answer.board != board or answer.code != DONE:
            raise Broken(f"{answer} in place of a reply of board {board}")
        packet = read_control(answer.packet)
        if packet is None or packet.identifier != identifier or packet.is_little != is_little:
            raise Broken(f"{answer.packet.hex()} in place of a reply with the identifier {identifier}")
        return packet.body

    def reset(self):
        """Goes away at once: the hub meets an error at its next read or write."""
        self.socket.setsockopt(socket.SOL_SOCKET, socket.SO_LINGER, struct.pack("ii", 1, 0))
        self.socket.close()

    def close(self):
        self.socket.close()
