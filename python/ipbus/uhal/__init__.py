"""The names and calls of uHAL's module in Python, over a hub that serves: a script changes one line.

    import ipbus.uhal as uhal

    manager = uhal.ConnectionManager("file://connections.xml")
    board = manager.getDevice("b0")
    value = board.getNode("ctrl.gain").read()
    board.dispatch()
    print(value)

The hub is at 127.0.0.1:5000, or where the environment variable `IPBUS_HUB` says, as HOST:PORT. It serves a session
document, which is `session.toml` beside the connections file, or the file that `IPBUS_SESSION` names. A connection is
the board of the document with its id as a name, or with its address. `IPBUS_MTU` is the MTU of the boards in bytes,
1500 if it is not set.

A name of uHAL that is not here raises `NotThere`, which says so.
"""

from typing import Any

from ipbus.uhal.enums import BlockReadWriteMode, LogLevel, NodePermission, disableLogging, setLogLevelTo
from ipbus.uhal.exceptions import (
    BitsSetWhichAreForbiddenByBitMask,
    BulkTransferOffsetRequestedForFifo,
    BulkTransferOffsetRequestedForSingleRegister,
    BulkTransferOnSingleRegister,
    BulkTransferRequestedTooLarge,
    CannotOpenFile,
    ConnectionUIDDoesNotExist,
    ControlHubTargetTimeout,
    IPbusCoreResponseCodeSet,
    NoBranchFoundWithGivenUID,
    NonValidatedMemory,
    NotThere,
    ProtocolDoesNotExist,
    ReadAccessDenied,
    TcpConnectionFailure,
    TcpTimeout,
    UdpTimeout,
    WriteAccessDenied,
    exception,
)
from ipbus.uhal.interface import ClientInterface, HwInterface
from ipbus.uhal.manager import ConnectionManager, getDevice
from ipbus.uhal.nodes import Node
from ipbus.values import Block, Value, Written

# the values of uHAL by their names there
ValWord = ValWord_uint32 = Value
ValVector = ValVector_uint32 = Block
ValHeader = Written

__all__ = [
    "BitsSetWhichAreForbiddenByBitMask",
    "BlockReadWriteMode",
    "BulkTransferOffsetRequestedForFifo",
    "BulkTransferOffsetRequestedForSingleRegister",
    "BulkTransferOnSingleRegister",
    "BulkTransferRequestedTooLarge",
    "CannotOpenFile",
    "ClientInterface",
    "ConnectionManager",
    "ConnectionUIDDoesNotExist",
    "ControlHubTargetTimeout",
    "HwInterface",
    "IPbusCoreResponseCodeSet",
    "LogLevel",
    "NoBranchFoundWithGivenUID",
    "Node",
    "NodePermission",
    "NonValidatedMemory",
    "NotThere",
    "ProtocolDoesNotExist",
    "ReadAccessDenied",
    "TcpConnectionFailure",
    "TcpTimeout",
    "UdpTimeout",
    "ValHeader",
    "ValVector",
    "ValVector_uint32",
    "ValWord",
    "ValWord_uint32",
    "WriteAccessDenied",
    "disableLogging",
    "exception",
    "getDevice",
    "setLogLevelTo",
]


def __getattr__(name: str) -> Any:
    if name.startswith("__"):
        raise AttributeError(name)
    raise NotThere(f"ipbus.uhal has no {name}")
