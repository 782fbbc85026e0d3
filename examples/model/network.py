"""Boards behind a simulated network, and a hub that sends to one of them: which bodies get which places and outcomes.

A datagram is what it says, as a tuple; the bytes of packets are not made. Places count from 1.
"""
from collections import deque, namedtuple

from model.session import Bus

IDENTIFIERS = 65_535
LIFETIME = 32_768
STRANGERS = 64

# what became of a body: a timeout with answers is one whose reply came late
Outcome = namedtuple("Outcome", "kind place answers", defaults=(None, None))
Datagram = namedtuple("Datagram", "is_for_board message birth")


def identifier_at(first, place):
    return (first + place - 2) % IDENTIFIERS + 1


class Pcg32:
    """PCG XSH RR 64/32 on a stream: its words, one after another."""

    def __init__(self, seed, stream):
        self.increment = (stream << 1 | 1) & (1 << 64) - 1
        self.state = seed + self.increment
        self.step()

    def step(self):
        self.state = (self.state * 6364136223846793005 + self.increment) & (1 << 64) - 1

    def word(self):
        state = self.state
        self.step()
        shifted = ((state >> 18 ^ state) >> 27) & 0xFFFFFFFF
        turn = state >> 59
        return (shifted >> turn | shifted << (32 - turn)) & 0xFFFFFFFF


class Fates:
    """The fates of datagrams, in the order in which they are sent: those of a text and then all delivered, or drawn."""

    DRAWN = "dddddddddd" "ll" "rr" "2" "5"

    def __init__(self, board):
        self.text = iter(board.fates)
        self.drawn = None if board.noise is None else Pcg32(board.noise, 54)

    def next(self):
        if self.drawn:
            return self.DRAWN[self.drawn.word() % 16]
        return next(self.text, "d")


class SimulatedBoard:
    """Executes each control packet that it expects, once, and keeps its last replies."""

    def __init__(self, board):
        self.board = board
        self.bus = Bus(board.ranges)
        self.executed = []
        self.replies = []

    @property
    def expected(self):
        return identifier_at(self.board.first, len(self.executed) + 1)

    def hear(self, message):
        """What it answers, or None."""
        if message == ("status request",):
            return ("status reply", self.board.mtu, self.board.buffers, self.expected)
        if message[0] == "re-send request":
            held = [reply for reply in self.replies[-self.board.buffers :] if reply[1] == message[1]]
            return held[0] if held else None
        if message[1] != self.expected:
            return None
        reply = ("reply", message[1], self.bus.execute(message[2]))
        self.executed.append(message[2])
        self.replies.append(reply)
        return reply


class Link:
    """The network between a hub and one board: datagrams that wait to be heard, and those that are late. `traffic` is
    what the hub sent and received, in order: whether it sent it, and the message."""

    def __init__(self, board):
        self.board = SimulatedBoard(board)
        self.fates = Fates(board)
        self.queue = deque()
        self.delayed = []
        self.number = 0
        self.first_sends = 0
        self.held = 0
        self.quiets = 0
        self.traffic = []

    def send(self, is_for_board, message):
        first = self.board.board.first
        if is_for_board:
            self.traffic.append((True, message))
        if is_for_board and message[:2] == ("control", identifier_at(first, self.first_sends + 1)):
            self.first_sends += 1
        datagram = Datagram(is_for_board, message, self.first_sends)
        self.number += 1
        fate = self.fates.next()
        if fate == "d":
            self.queue.append(datagram)
        elif fate == "r":
            self.queue.extend([datagram, datagram])
        else:
            self.held += 1
            if fate != "l":
                self.delayed.append((self.number + int(fate), datagram))
        self.queue.extend(late for due, late in self.delayed if due == self.number)
        self.delayed = [each for each in self.delayed if each[0] > self.number]

    def receive(self):
        """The next datagram for the hub, or None where all is quiet."""
        while self.queue:
            datagram = self.queue.popleft()
            if self.first_sends - datagram.birth > LIFETIME:
                self.held += 1
            elif not datagram.is_for_board:
                self.traffic.append((False, datagram.message))
                return datagram.message
            else:
                answer = self.board.hear(datagram.message)
                if answer:
                    self.send(False, answer)
        self.quiets += 1
        return None


def greet(link, rounds):
    """The status that the board tells, or None where it stays silent."""
    for _ in range(rounds):
        link.send(True, ("status request",))
        for _ in range(STRANGERS):
            message = link.receive()
            if message is None:
                break
            if message[0] == "status reply":
                return message
    return None


class Hub:
    """The hub's side of one board. Bodies are known by a tag; `outcomes` has those that were settled, by tag."""

    def __init__(self, status, rounds, window):
        _, _, buffers, self.first = status
        self.rounds = rounds
        self.window = min(window, buffers)
        self.sent = []
        self.queue = deque()
        self.open = set()
        self.waited = {}
        self.timed_out = {}
        self.resends = set()
        self.controls = set()
        self.wants_status = False
        self.round = 0
        self.gave_up = False
        self.outcomes = {}

    @property
    def low(self):
        return min(self.open, default=len(self.sent) + 1)

    def identifier(self, place):
        return identifier_at(self.first, place)

    def waits(self):
        return bool(self.waited or self.queue)

    def offer(self, tag, body):
        self.queue.append((tag, body))
        if self.gave_up:
            self.controls |= self.open
        self.gave_up = False

    def next_send(self):
        if self.wants_status:
            self.wants_status = False
            return ("status request",)
        if self.resends or self.controls:
            place = min(self.resends | self.controls)
            if place in self.resends:
                self.resends.remove(place)
                return ("re-send request", self.identifier(place))
            self.controls.remove(place)
            return ("control", self.identifier(place), self.sent[place - 1])
        place = len(self.sent) + 1
        if not self.queue or place + 1 - self.low > self.window:
            return None
        tag, body = self.queue.popleft()
        self.sent.append(body)
        self.open.add(place)
        self.waited[place] = tag
        return ("control", self.identifier(place), body)

    def hear_reply(self, identifier, answers):
        for place in [place for place in self.open if self.identifier(place) == identifier]:
            self.open.remove(place)
            self.resends.discard(place)
            self.controls.discard(place)
            self.round = 0
            if place in self.waited:
                self.outcomes[self.waited.pop(place)] = Outcome("replied", place, answers)
            else:
                self.outcomes[self.timed_out.pop(place)] = Outcome("timeout", place, answers)

    def hear_status(self, expected):
        if self.round == 0:
            return
        places = range(self.low, len(self.sent) + 2)
        for next_place in [place for place in places if self.identifier(place) == expected]:
            self.resends |= {place for place in self.open if place < next_place}
            self.controls |= {place for place in self.open if place >= next_place}

    def hear_quiet(self):
        if self.round < self.rounds:
            self.round += 1
            self.wants_status = True
            return
        for place, tag in self.waited.items():
            self.outcomes[tag] = Outcome("timeout", place)
        self.timed_out |= self.waited
        for tag, _ in self.queue:
            self.outcomes[tag] = Outcome("unsent")
        self.waited.clear()
        self.queue.clear()
        self.resends.clear()
        self.controls.clear()
        self.wants_status = False
        self.round = 0
        self.gave_up = True

    def pump(self, link):
        """All sends that are wanted, and then one receive."""
        while message := self.next_send():
            link.send(True, message)
        heard = link.receive()
        if heard is None:
            self.hear_quiet()
        elif heard[0] == "reply":
            self.hear_reply(*heard[1:])
        elif heard[0] == "status reply":
            self.hear_status(heard[3])


BoardRun = namedtuple("BoardRun", "outcomes is_silent link")


def run_board(session, place):
    """What becomes of the bodies that the clients ask of the board at this place, one client after another: an
    outcome for each body of each client, and the link as it is left."""
    link = Link(session.boards[place])
    clients = [(client.bodies[place], client.dispatches[place]) for client in session.clients]
    status = greet(link, session.rounds)
    if status is None:
        return BoardRun([[Outcome("unsent")] * len(bodies) for bodies, _ in clients], True, link)
    hub = Hub(status, session.rounds, session.window)
    for number, (bodies, dispatches) in enumerate(clients):
        for dispatch in dispatches:
            for seq in dispatch:
                hub.offer((number, seq), bodies[seq])
            while hub.waits():
                hub.pump(link)
    outcomes = [[hub.outcomes[number, seq] for seq in range(len(each[0]))] for number, each in enumerate(clients)]
    return BoardRun(outcomes, False, link)


def run_session(session):
    return [run_board(session, place) for place in range(len(session.boards))]
