"""What the hub of a session sends to its one board and receives from it, as a capture, by the network of the second
program."""
from model.captures import Capture, Caught
from model.network import run_board
from net.packets import (
    READS,
    RMW_BITS,
    RMW_SUM,
    Status,
    control_packet,
    request,
    resend_request,
    status_reply,
    status_request,
    transaction_header,
)


def request_words(body):
    """The words of requests, numbered from 0."""
    return [
        word
        for number, each in enumerate(body)
        for word in request(number, each.kind, each.address, each.count, each.words)
    ]


def reply_words(body, answers):
    """The words of the replies to the first requests of a body."""
    words = []
    for number, (each, (done, code)) in enumerate(zip(body, answers)):
        words.append(transaction_header(number, len(done), each.kind, code))
        words += done if each.kind in (*READS, RMW_BITS, RMW_SUM) else []
    return words


def datagrams(traffic):
    """The bytes of messages between a hub and a board. A reply has the types of the requests with its identifier."""
    asked = {}
    for is_sent, (kind, *told) in traffic:
        if kind == "control":
            identifier, body = told
            asked[identifier] = body
            yield Caught(is_sent, control_packet(identifier, request_words(body)))
        elif kind == "reply":
            identifier, answers = told
            yield Caught(is_sent, control_packet(identifier, reply_words(asked[identifier], answers)))
        elif kind == "status request":
            yield Caught(is_sent, status_request())
        elif kind == "status reply":
            yield Caught(is_sent, status_reply(Status(*told)))
        else:
            yield Caught(is_sent, resend_request(*told))


def recorded(session):
    """The capture of the one board of a session, whose clients run one after another."""
    [board] = session.boards
    return Capture(board.first, list(datagrams(run_board(session, 0).link.traffic)))
