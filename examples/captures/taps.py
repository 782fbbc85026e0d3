"""What goes between a hub and a board on 127.0.0.1, as packet dumps: by a relay that both talk through, and by what the
machine shows of its loopback interface."""
import contextlib
import select
import socket
import struct
import threading
import time

from net.peers import Skipped

HOST = "127.0.0.1"
IPV4, UDP = 0x0800, 17
# the kinds of headers in front of IP in a packet dump
NULL, ETHERNET, LOOP, COOKED, IP_ALONE, COOKED_2 = 0, 1, 108, 113, 228, 276
ALL_PACKETS, OUTGOING = 3, 4
PATIENCE = 0.05


def internet(source, target, data, flags=0, header=b""):
    """An IPv4 packet of a UDP datagram between two ends, or of a piece of one, without its sums."""
    words = 5 + len(header) // 4
    ends = socket.inet_aton(source[0]) + socket.inet_aton(target[0])
    front = struct.pack(">BBHHHBBH", 0x40 | words, 0, 4 * words + len(data), 7, flags, 64, UDP, 0)
    return front + ends + header + data


def udp(source, target, data):
    return struct.pack(">4H", source[1], target[1], 8 + len(data), 0) + data


HEADERS = {
    ETHERNET: bytes(12) + IPV4.to_bytes(2, "big"),
    COOKED: bytes(14) + IPV4.to_bytes(2, "big"),
    COOKED_2: IPV4.to_bytes(2, "big") + bytes(18),
    IP_ALONE: b"",
    LOOP: (2).to_bytes(4, "big"),
    NULL: (2).to_bytes(4, "little"),
}


def dump_of(kind, frames, order="<", magic=0xA1B2C3D4):
    """A packet dump of frames."""
    parts = [struct.pack(f"{order}IHHIIII", magic, 2, 4, 0, 0, 262_144, kind)]
    for number, frame in enumerate(frames):
        parts.append(struct.pack(f"{order}4I", number, 0, len(frame), len(frame)) + frame)
    return b"".join(parts)


class Tap:
    """A relay on a port of its own, between a hub and the board on another port. It keeps each datagram in the order in
    which it came by, and which way it went."""

    def __init__(self, board_port):
        self.near, self.far = (socket.socket(socket.AF_INET, socket.SOCK_DGRAM) for _ in range(2))
        self.near.bind((HOST, 0))
        self.far.connect((HOST, board_port))
        self.port = self.near.getsockname()[1]
        self.hub = None
        self.seen = []
        self.is_open = True
        self.thread = threading.Thread(target=self.carry)
        self.thread.start()

    def carry(self):
        while self.is_open:
            ready, _, _ = select.select([self.near, self.far], [], [], PATIENCE)
            # a port that nobody has is a board that is silent
            with contextlib.suppress(OSError):
                if self.near in ready:
                    data, self.hub = self.near.recvfrom(65_536)
                    self.seen.append((True, self.hub, data))
                    self.far.send(data)
                if self.far in ready:
                    data = self.far.recv(65_536)
                    self.seen.append((False, self.hub, data))
                    self.near.sendto(data, self.hub)

    def close(self):
        self.is_open = False
        self.thread.join()
        self.near.close()
        self.far.close()

    def dump(self, kind=ETHERNET, order="<", magic=0xA1B2C3D4):
        board = HOST, self.port
        frames = []
        for is_sent, hub, data in self.seen:
            ends = (hub, board) if is_sent else (board, hub)
            frames.append(HEADERS[kind] + internet(*ends, udp(*ends, data)))
        return dump_of(kind, frames, order, magic)


class Sniffer:
    """What the machine shows of the packets of a port on its loopback interface, where it lets us see them."""

    def __init__(self, port):
        try:
            self.socket = socket.socket(socket.AF_PACKET, socket.SOCK_RAW, socket.htons(ALL_PACKETS))
        except (AttributeError, PermissionError) as why:
            raise Skipped(f"the machine shows no packets: {why}") from why
        self.socket.setsockopt(socket.SOL_SOCKET, socket.SO_RCVBUF, 1 << 22)
        self.socket.bind(("lo", 0))
        self.socket.settimeout(PATIENCE)
        self.port = port.to_bytes(2, "big")
        self.frames = []
        self.is_open = True
        self.thread = threading.Thread(target=self.watch)
        self.thread.start()

    def watch(self):
        """Goes on for a while without a packet once it is to end: those that came before are seen."""
        while True:
            try:
                frame, told = self.socket.recvfrom(65_536)
            except TimeoutError:
                if not self.is_open:
                    return
                continue
            # each packet is seen as it goes and as it comes
            if told[2] != OUTGOING and self.port in (frame[34:36], frame[36:38]):
                self.frames.append(frame)

    def close(self):
        if self.is_open:
            time.sleep(PATIENCE)
            self.is_open = False
            self.thread.join()
            self.socket.close()

    def dump(self):
        return dump_of(ETHERNET, self.frames)
