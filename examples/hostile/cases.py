"""Hostile inputs, drawn from numbers and bounded in count: changed documents, run, saved and applied, streams of frames,
and datagrams of a board that answers anything. A case takes the words that start the program, a count and the number of the first input. It
gives what is wrong, as texts, and a line that says what was tried."""
import itertools

from hostile.configurations import try_configurations
from hostile.datagrams import try_datagrams
from hostile.documents import try_documents
from hostile.streams import AT_ONCE, try_streams
from net.peers import CASE_SECONDS, within

COUNT = 5000
# boards that are tried first: one that lies at its greeting, and never expects what the hub sends
KEPT = [1001]


def documents(command, count, first):
    return try_documents(command, range(first, first + count))


def configurations(command, count, first):
    return try_configurations(command, range(first, first + count // 2))


def streams(command, count, first):
    """The streams of one hub after another, as many as it serves."""
    faults = []
    for begin in range(first, first + count, AT_ONCE):
        numbers = range(begin, min(begin + AT_ONCE, first + count))
        told = within(CASE_SECONDS, command, lambda peers: try_streams(peers, numbers))
        faults += [f"streams from {begin}: {fault}" for fault in told]
    return faults, f"{count} streams of frames"


def datagrams(command, count, first):
    """Runs over such a board, until it has sent so many strange datagrams."""
    faults, sent = [], []
    for number in itertools.chain(KEPT, itertools.count(first)):
        if sum(sent) >= count or faults:
            break
        told = within(CASE_SECONDS, command, lambda peers: sent.append(try_datagrams(peers, number)))
        faults += [f"datagrams {number}: {fault}" for fault in told]
    return faults, f"{sum(sent)} strange datagrams in {len(sent)} runs"


HOSTILE = {
    "changed documents": documents,
    "changed configurations": configurations,
    "streams of frames": streams,
    "a board that answers anything": datagrams,
}
