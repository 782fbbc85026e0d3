"""A client of the IPbus hub `ipbus serve`, and what belongs to it: `Hub`, its boards, their nodes and values.

    from ipbus import Hub

    with Hub("session.toml", "127.0.0.1", 5000) as hub:
        value = hub.node("b0:ctrl.gain").read()
        hub.dispatch()
        print(value + 1)

`ipbus.uhal` has the names and calls of uHAL's module.
"""

from ipbus.boards import Board
from ipbus.documents import Document
from ipbus.errors import (
    BadDocument,
    BadLine,
    BitsOutside,
    BusError,
    ConnectionEnded,
    Garbled,
    Interrupted,
    IpbusError,
    LaneFull,
    LinkLost,
    NoAnswerInTime,
    NoBoard,
    NoPacket,
    NoPermission,
    NoReadPermission,
    NotConnected,
    NotDispatched,
    NotRun,
    NotSent,
    NotWhole,
    NoWritePermission,
    PastSize,
    Refused,
    ReplyTooLong,
    Skipped,
    TimedOut,
    TooLong,
    Unanswered,
    UnknownBoard,
    UnknownName,
    Unsent,
    WrongBoard,
    WrongMode,
)
from ipbus.hub import Hub
from ipbus.nodes import Node
from ipbus.registers import Register
from ipbus.values import Block, Result, Value, Written

__version__ = "1.0"

__all__ = [
    "BadDocument",
    "BadLine",
    "BitsOutside",
    "Block",
    "Board",
    "BusError",
    "ConnectionEnded",
    "Document",
    "Garbled",
    "Hub",
    "Interrupted",
    "IpbusError",
    "LaneFull",
    "LinkLost",
    "NoAnswerInTime",
    "NoBoard",
    "NoPacket",
    "NoPermission",
    "NoReadPermission",
    "NoWritePermission",
    "Node",
    "NotConnected",
    "NotDispatched",
    "NotRun",
    "NotSent",
    "NotWhole",
    "PastSize",
    "Refused",
    "Register",
    "ReplyTooLong",
    "Result",
    "Skipped",
    "TimedOut",
    "TooLong",
    "Unanswered",
    "UnknownBoard",
    "UnknownName",
    "Unsent",
    "Value",
    "Written",
    "WrongBoard",
    "WrongMode",
]
