"""Why there is no value. `IpbusError` stands above all that this package raises, and the text of each error ends with
what to do next.

    IpbusError
        Refused             the client refuses: nothing is sent
        BadDocument         a session document that cannot be read
        NotConnected        no connection to the hub; nothing was sent
        WrongBoard          a board that does not show the word that `check` names
        NotDispatched       the value was asked for before its dispatch
        NotSent             the connection ended before this was sent
        ConnectionEnded     it ended while this was under way: it may have been executed
        Unanswered          the hub has no reply of the board, by a code for each cause
        BusError, Skipped   the board replied, and refused an access
        Garbled             the reply is none to what was asked
"""

from __future__ import annotations

BUS_ERRORS = {
    4: "bus error on read",
    5: "bus error on write",
    6: "bus timeout on read",
    7: "bus timeout on write",
}


class IpbusError(Exception):
    """Why there is no value. `what` is what happened, and `advice` what to do next."""

    advice = ""

    def __init__(self, what: str) -> None:
        super().__init__(what)
        self.what = what

    def __str__(self) -> str:
        return f"{self.what}. {self.advice}" if self.advice else self.what

    def about(self, told: str) -> IpbusError:
        """The same error, told of one operation."""
        return type(self)(f"{told}: {self.what}")


# ---- refusals: nothing is sent


class Refused(IpbusError):
    """The client refuses what is asked, by the rule of scripts that has the name of its class."""


class BadLine(Refused):
    """A value is no number of 32 bits, a block has no words, or a text is no line of a script."""

    advice = "Give whole numbers from 0 to 0xffffffff, and for a block one word at least"


class UnknownBoard(Refused):
    """The document has no board of this name."""

    advice = "Take a name of a [[board]] in the session document"


class UnknownName(Refused):
    """The board's table has no register of this name."""

    advice = "`ipbus check TABLE` lists the names, and so do `nodes()` of a board and `getNodes()` of a uhal device"


class NoPermission(Refused):
    """The register is not to be read, or not to be written."""

    advice = "The permission stands in the register table"


class NoReadPermission(NoPermission):
    """The register is not to be read."""


class NoWritePermission(NoPermission):
    """The register is not to be written."""


class WrongMode(Refused):
    """The register is a group of others, or an offset is asked of a port."""

    advice = "Name a register below a group; a port takes no offset"


class PastSize(Refused):
    """The block has more words than the register."""

    advice = "Ask for at most `node.size` words, less the offset"


class BitsOutside(Refused):
    """The value has bits outside the mask."""

    advice = "Give a value of as many bits as the mask has"


class NotWhole(Refused):
    """A block, a sum or a change of bits is asked of a part of a word."""

    advice = "Only read and write take a register with a mask: ask the register of the whole word"


# ---- the document and the connection


class BadDocument(IpbusError):
    """The session document cannot be read."""

    advice = "`ipbus check TABLE < DOCUMENT` says which line is at fault"


class NotConnected(IpbusError):
    """There is no connection to the hub. Nothing was sent."""

    advice = "Start the hub, as by `ipbus serve PORT COUNT < DOCUMENT`, and ask again: that connects anew"


class NotRun(IpbusError):
    """The program `ipbus` ended without a word of the board, as where another hub has it."""

    advice = "Standard error of `ipbus` has the cause. Ask the hub that has this board, or end it first"


class WrongBoard(IpbusError):
    """A board does not show the word that `check` names: the hub serves another document, or another board is there."""

    advice = "Give this client the document that the hub serves"


class NotDispatched(IpbusError):
    """The value was asked for before its dispatch."""

    advice = "Call dispatch() first"


class NotSent(IpbusError):
    """The connection ended before this was sent: it was not executed."""

    advice = "Ask again: that connects anew"


class ConnectionEnded(IpbusError):
    """The connection ended while this was under way: it may have been executed."""

    advice = "Read the register before you write again; the next call connects anew"


class Interrupted(ConnectionEnded):
    """The dispatch was interrupted, as by control-C: this may have been executed."""


class NoAnswerInTime(ConnectionEnded):
    """The hub did not answer within the time-out: this may have been executed."""


# ---- what became of a packet that the board did not reply to: a class for each code of a reply frame


class Unanswered(IpbusError):
    """The hub has no reply of the board to the packet"""

    advice = "docs/FORMATS.md says what the code of a frame means"


class TimedOut(Unanswered):
    """the hub gave up: the board executed this once, or not at all"""

    advice = "Read the register before you write again"


class Unsent(Unanswered):
    """the board is silent, or the hub gave up before this was sent: it was not executed"""

    advice = "Look at the board's power, address and cable, and ask again"


class LinkLost(Unanswered):
    """the hub's link to the board failed: this may have been executed"""

    advice = "Standard error of the hub has the cause; start the hub anew"


class NoPacket(Unanswered):
    """the hub was sent no control packet"""

    advice = "Is that port an `ipbus serve`?"


class NoBoard(Unanswered):
    """the hub has no board at this position: it serves another document"""

    advice = "Give this client the document that the hub serves"


class TooLong(Unanswered):
    """the packet is longer than the board takes: it was not executed"""

    advice = "Say the board's MTU, as Hub(.., mtu=576)"


class ReplyTooLong(Unanswered):
    """the reply would be longer than the board sends: this was not executed"""

    advice = "Say the board's MTU, as Hub(.., mtu=576)"


class LaneFull(Unanswered):
    """the hub takes no more packets for this board: this was not executed"""

    advice = "Start the hub anew"


BY_CODE = dict(enumerate((TimedOut, Unsent, LinkLost, NoPacket, NoBoard, TooLong, ReplyTooLong, LaneFull), 1))


def unanswered(code: int) -> Unanswered:
    """The error of a code of a reply frame, which is not 0."""
    kind = BY_CODE.get(code, Unanswered)
    return kind(f"{kind.__doc__} (code {code})")


# ---- what the board replied


class BusError(IpbusError):
    """The board answered the info code `code` after `done` words of a transaction. The words before stay written."""

    advice = "Look at the address and the permission of the register on the board"

    def __init__(self, what: str, code: int = 0, done: int = 0) -> None:
        super().__init__(what)
        self.code = code
        self.done = done

    @classmethod
    def of(cls, code: int, done: int) -> BusError:
        """The error of an info code after so many words."""
        return cls(f"{BUS_ERRORS.get(code, 'info code')} (error {code} after {done})", code, done)

    def about(self, told: str) -> BusError:
        return BusError(f"{told}: {self.what}", self.code, self.done)


class Skipped(IpbusError):
    """An operation before this one in its packet failed, so this one was not executed."""

    advice = "Ask again, or dispatch between the two"


class Garbled(IpbusError):
    """The words are no reply to the packet, so nothing is known of it: it may have been executed."""

    advice = "Is another hub at this board? One hub belongs to a board at a time"
