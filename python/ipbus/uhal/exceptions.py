"""The exceptions of uHAL by their names there. Each is one of this package, so both names catch it."""

from __future__ import annotations

from typing import Any

from ipbus.errors import (
    BadDocument,
    BitsOutside,
    BusError,
    IpbusError,
    NoAnswerInTime,
    NoReadPermission,
    NotConnected,
    NotDispatched,
    NoWritePermission,
    PastSize,
    Refused,
    Unanswered,
    UnknownName,
    WrongMode,
)

exception = IpbusError


class ConnectionUIDDoesNotExist(Refused):
    """The connections file has no connection of this id, or the hub's document no board of it."""

    advice = "Take the id of a <connection> that is a board of the session document that the hub serves"


class ProtocolDoesNotExist(Refused):
    """The URI of a connection is neither `ipbusudp-2.0` nor `chtcp-2.0`."""

    advice = "Boards are reached by `ipbusudp-2.0://host:port` and `chtcp-2.0://host:port?target=address:port`"


class NotThere(IpbusError, AttributeError):
    """A name of uHAL that this module does not have."""

    advice = "docs/UHAL.md lists what is there, and what stands in its place"


NoBranchFoundWithGivenUID = UnknownName
ReadAccessDenied = NoReadPermission
WriteAccessDenied = NoWritePermission
BitsSetWhichAreForbiddenByBitMask = BitsOutside
BulkTransferOnSingleRegister = PastSize
BulkTransferRequestedTooLarge = PastSize
BulkTransferOffsetRequestedForSingleRegister = PastSize
BulkTransferOffsetRequestedForFifo = WrongMode
NonValidatedMemory = NotDispatched
CannotOpenFile = BadDocument
IPbusCoreResponseCodeSet = BusError
UdpTimeout = Unanswered
ControlHubTargetTimeout = Unanswered
TcpTimeout = NoAnswerInTime
TcpConnectionFailure = NotConnected


class NamedType(type):
    """The type of a class that raises `NotThere` by name for each call of uHAL that the class does not have."""

    def __getattr__(cls, name: str) -> Any:
        if name.startswith("_"):
            raise AttributeError(name)
        raise NotThere(f"ipbus.uhal has no {cls.__name__}.{name}")


class Named(metaclass=NamedType):
    """What raises `NotThere` by name for each call of uHAL that it does not have."""

    def __getattr__(self, name: str) -> Any:
        if name.startswith("_"):
            raise AttributeError(name)
        raise NotThere(f"ipbus.uhal has no {type(self).__name__}.{name}")
