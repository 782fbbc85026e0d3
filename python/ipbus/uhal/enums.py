"""The enumerations of uHAL, and its log, which does nothing here."""

from __future__ import annotations

import enum


class BlockReadWriteMode(enum.Enum):
    """How the words of a node lie: one word, one after another, all at one address, or none of its own."""

    SINGLE = "single"
    INCREMENTAL = "block"
    NON_INCREMENTAL = "port"
    HIERARCHICAL = "hierarchical"


class NodePermission(enum.Enum):
    """What may be done with a node."""

    READ = "r"
    WRITE = "w"
    READWRITE = "rw"


class LogLevel(enum.IntEnum):
    """The levels of uHAL's log. They are taken, and nothing is logged here."""

    FATAL = 0
    ERROR = 1
    WARNING = 2
    NOTICE = 3
    INFO = 4
    DEBUG = 5


def setLogLevelTo(level: LogLevel) -> None:
    """Does nothing: this package writes no log. Standard error of the hub tells of boards."""
    LogLevel(level)


def disableLogging() -> None:
    """Does nothing: this package writes no log."""
