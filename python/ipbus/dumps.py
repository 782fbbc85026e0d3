"""Packet dumps of a network (the files that `tcpdump -w` writes), and the UDP datagrams in them."""

from __future__ import annotations

import struct
from collections.abc import Iterator
from typing import NamedTuple

from ipbus.errors import IpbusError

# the first word of a dump of whole microseconds, and of nanoseconds; it tells the byte order of the other fields
MAGICS = (0xA1B2C3D4, 0xA1B23C4D)
NEXT_GENERATION = 0x0A0D0D0A
FILE_HEADER, RECORD_HEADER = 24, 16

IPV4, VLAN, QINQ, UDP = 0x0800, 0x8100, 0x88A8, 17
# the kinds of headers in front of IP: by the address family alone, in the order of the machine or of the network; of
# Ethernet; none; and of Linux, if it dumps any interface, in two versions
NULL, ETHERNET, RAW, LOOP, COOKED, IP_ALONE, COOKED_2 = 0, 1, 101, 108, 113, 228, 276
INET = 2


class End(NamedTuple):
    """An end of a datagram: an IPv4 address and a UDP port."""

    address: str
    port: int

    def __str__(self) -> str:
        return f"{self.address}:{self.port}"


class Datagram(NamedTuple):
    """A UDP datagram, and the number of the packet of the dump that ended it, from 1."""

    number: int
    source: End
    target: End
    data: bytes


class BadDump(IpbusError):
    """A dump that cannot be read, with what is wrong."""


def end_of(text: str) -> End:
    """The end of ADDRESS:PORT, as 10.0.0.1:50001. `ValueError` if it is none."""
    address, _, port = text.rpartition(":")
    parts = address.split(".")
    if len(parts) != 4 or not all(part.isdecimal() and int(part) < 256 for part in parts):
        raise ValueError(f"{text} is no IPv4 address and port")
    if not port.isdecimal() or not 1 <= int(port) < 65_536:
        raise ValueError(f"{text} has no port from 1 to 65535")
    return End(".".join(str(int(part)) for part in parts), int(port))


def order_of(data: bytes) -> str:
    """The byte order of a dump, as `struct` has it."""
    for order in "<>":
        if len(data) >= FILE_HEADER and struct.unpack(f"{order}I", data[:4])[0] in MAGICS:
            return order
    if data[:4] == NEXT_GENERATION.to_bytes(4, "big"):
        raise BadDump("this is a dump in the format pcapng; `editcap -F pcap OLD NEW` makes one in pcap of it")
    raise BadDump("this is no packet dump in the format pcap")


def records(data: bytes) -> Iterator[tuple[int, int, bytes, bool]]:
    """Each packet of a dump: the kind of its headers, its number, its bytes, and whether these are all."""
    order = order_of(data)
    kind = struct.unpack(f"{order}I", data[20:24])[0] & 0x0FFFFFFF
    at, number = FILE_HEADER, 0
    while at < len(data):
        number += 1
        if len(data) < at + RECORD_HEADER:
            raise BadDump(f"the dump ends within packet {number}")
        _, _, kept, whole = struct.unpack(f"{order}4I", data[at : at + RECORD_HEADER])
        at += RECORD_HEADER
        if len(data) < at + kept:
            raise BadDump(f"the dump ends within packet {number}")
        yield kind, number, data[at : at + kept], kept == whole
        at += kept


def in_ethernet(frame: bytes) -> bytes:
    """What comes after the header of Ethernet and its tags, if that is IPv4."""
    at, protocol = 14, int.from_bytes(frame[12:14], "big")
    while protocol in (VLAN, QINQ):
        protocol = int.from_bytes(frame[at + 2 : at + 4], "big")
        at += 4
    return frame[at:] if protocol == IPV4 else b""


def internet_packet(kind: int, frame: bytes) -> bytes:
    """The IPv4 packet of a frame, or no bytes."""
    if kind == ETHERNET:
        return in_ethernet(frame)
    if kind in (RAW, IP_ALONE):
        return frame if frame[:1] and frame[0] >> 4 == 4 else b""
    if kind == COOKED:
        return frame[16:] if int.from_bytes(frame[14:16], "big") == IPV4 else b""
    if kind == COOKED_2:
        return frame[20:] if int.from_bytes(frame[:2], "big") == IPV4 else b""
    if kind in (NULL, LOOP):
        families = {int.from_bytes(frame[:4], order) for order in ("big", "little")}
        return frame[4:] if INET in families else b""
    raise BadDump(f"the dump has headers of kind {kind}, and this reads Ethernet, Linux cooked, loopback and raw IP")


class Pieces:
    """Packets that were sent in pieces, until all of their pieces came."""

    def __init__(self) -> None:
        self.held: dict[tuple, tuple[dict[int, bytes], int | None]] = {}

    def whole(self, packet: bytes, header: int, length: int) -> bytes | None:
        """What the packet carries after its header, if it is whole by this piece, or None."""
        flags = int.from_bytes(packet[6:8], "big")
        is_last, offset = not flags & 0x2000, 8 * (flags & 0x1FFF)
        data = packet[header:length]
        if is_last and offset == 0:
            return data
        key = packet[4:6], packet[9], packet[12:20]
        pieces, end = self.held.get(key, ({}, None))
        pieces[offset] = data
        self.held[key] = pieces, offset + len(data) if is_last else end
        joined = b""
        while len(joined) in pieces and pieces[len(joined)]:
            joined += pieces[len(joined)]
        if len(joined) != self.held[key][1]:
            return None
        del self.held[key]
        return joined


def datagram_of(packet: bytes, number: int, is_whole: bool, pieces: Pieces) -> Datagram | None:
    """The UDP datagram that is whole by this IPv4 packet, or None."""
    header, length = 4 * (packet[0] & 0xF), int.from_bytes(packet[2:4], "big")
    if packet[9] != UDP:
        return None
    if not is_whole or length > len(packet):
        raise BadDump(f"packet {number} was cut; dump whole packets, as by `tcpdump -s 0`")
    carried = pieces.whole(packet, header, length)
    if carried is None or len(carried) < 8:
        return None
    source, target, count, _ = struct.unpack(">4H", carried[:8])
    ends = [".".join(map(str, packet[at : at + 4])) for at in (12, 16)]
    return Datagram(number, End(ends[0], source), End(ends[1], target), carried[8:count])


def datagrams(data: bytes) -> Iterator[Datagram]:
    """The UDP datagrams over IPv4 in a dump, in its order."""
    pieces = Pieces()
    for kind, number, frame, is_whole in records(data):
        packet = internet_packet(kind, frame)
        if len(packet) >= 20:
            found = datagram_of(packet, number, is_whole, pieces)
            if found:
                yield found
