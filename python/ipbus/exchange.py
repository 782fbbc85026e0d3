"""The exchange of packets over a connection: many go ahead of their answers."""

from __future__ import annotations

from ipbus.errors import ConnectionEnded
from ipbus.frames import Connection
from ipbus.operations import Packet

# bytes of frames and of the longest replies to them that may be under way at once: sockets hold as much
UNDER_WAY = 32_768


def exchange(connection: Connection, packets: list[Packet], deadline: float) -> None:
    """Sends packets and gives each its answer. If it raises, packets say whether they were sent and have the answers
    that came; the connection is of no more use then."""
    waiting: list[bytes] = []
    lengths = [packet.bytes_under_way() for packet in packets]
    answered = under_way = 0
    for sent, packet in enumerate(packets):
        if under_way + lengths[sent] > UNDER_WAY:
            _flush(connection, waiting, deadline)
        while answered < sent and under_way + lengths[sent] > UNDER_WAY:
            _hear(connection, packets[answered], deadline)
            under_way -= lengths[answered]
            answered += 1
        packet.mark_sent()
        waiting.append(packet.frame())
        under_way += lengths[sent]
    _flush(connection, waiting, deadline)
    for packet in packets[answered:]:
        _hear(connection, packet, deadline)


def _flush(connection: Connection, waiting: list[bytes], deadline: float) -> None:
    if waiting:
        connection.send(b"".join(waiting), deadline)
        waiting.clear()


def _hear(connection: Connection, packet: Packet, deadline: float) -> None:
    answer = connection.answer(deadline)
    if answer.board != packet.position:
        raise ConnectionEnded("the hub answered for another board: this may have been executed")
    packet.hear(answer)
