"""What clients of a hub do, and what the hub tells of them at its end."""
import random
import re
import threading
from collections import Counter
from concurrent.futures import ThreadPoolExecutor

from net.frames import ask
from net.packets import READ, RMW_SUM, WRITE, request, transaction_header
from net.peers import require, rest_of
from net.sessions import OWN, SHARED


class Asked:
    """What clients asked of the boards, and what they were answered: by board, the bodies that were replied to and the
    words before each sum at the shared register."""

    def __init__(self, count):
        self.bodies = [[] for _ in range(count)]
        self.sums = [[] for _ in range(count)]
        self.lock = threading.Lock()

    def note(self, board, body):
        with self.lock:
            self.bodies[board].append(body)

    def note_sum(self, board, word):
        with self.lock:
            self.sums[board].append(word)

    def require_sums(self):
        """Each sum of 1 at the shared register was done once: the words before them are 0, 1, 2 and so on."""
        for board, words in enumerate(self.sums):
            require(sorted(words) == list(range(len(words))), f"board {board} counted {sorted(words)}")

    def require_executed(self, boards):
        """Each body was executed once, and nothing else was."""
        for number, board in enumerate(boards):
            executed, asked = Counter(map(tuple, board.executed())), Counter(map(tuple, self.bodies[number]))
            more, less = executed - asked, asked - executed
            require(not more and not less, f"{board.name} executed {more} too much, {less} too little")


def sum_body(number=0):
    return request(number, RMW_SUM, SHARED, 1, [1])


def work(connection, client, boards, asked, rounds=12, cut=None, meet=None):
    """A busy client: it writes and reads a register of its own, counts at one that all share, and checks each answer.
    The answer is how many frames it sent. `cut` gives where a frame of so many bytes is cut. At `meet` it waits in the
    middle until all others were served as far too."""
    draw = random.Random(client)
    frames = 0
    address = OWN + client
    for turn in range(rounds):
        board = draw.randrange(boards)
        is_little = draw.randrange(2) == 1
        identifier = draw.randrange(65_536)
        word = draw.getrandbits(32)
        body = request(5, WRITE, address, 1, [word]) + request(9, READ, address, 1)
        wanted = [transaction_header(5, 1, WRITE, 0), transaction_header(9, 1, READ, 0), word]
        data = ask(board, identifier, body, is_little)
        connection.send_cut(data, cut(len(data)) if cut else [])
        reply = connection.reply(board, identifier, is_little)
        require(reply == wanted, f"client {client} was answered {reply}, wanted {wanted}")
        asked.note(board, body)
        reply = connection.ask(board, identifier, sum_body(turn), is_little)
        header = transaction_header(turn, 1, RMW_SUM, 0)
        require(len(reply) == 2 and reply[0] == header, f"client {client} was answered {reply} to a sum")
        asked.note(board, sum_body(turn))
        asked.note_sum(board, reply[1])
        frames += 2
        if meet and turn == rounds // 2:
            meet.wait(60)
    return frames


def end(connection):
    """A client that is done: the hub answers the end of what it sent by its own."""
    connection.half_close()
    answer = connection.answer()
    require(answer is None, f"{answer} behind the end")
    connection.close()


def line_of(number, frames, ends):
    return rf"connection {number} frames {frames} (?:{'|'.join(ends)})"


def require_served(hub, lines, boards):
    """The hub ends, with these lines of connections and of boards, which are patterns."""
    done = hub.finish()
    wanted = [*lines, *boards]
    given = done.text.splitlines()
    require(rest_of(done.note) == hub.says, f"it says {done.note!r}")
    fits = len(given) == len(wanted) and all(re.fullmatch(*both) for both in zip(wanted, given))
    require(fits and done.text.endswith("\n"), f"text {done.text!r}, wanted {wanted}")
    all_closed = all(line.endswith(" closed") for line in given[: len(lines)])
    require(done.status == (0 if all_closed else 1), f"status {done.status} beside {given}")


def board_line(name, places):
    return f"board {name} places {places} replied {places} timeout 0 lost 0"


def all_at_once(jobs):
    """Runs these functions at once, each in a thread, and answers what each gives."""
    with ThreadPoolExecutor(len(jobs)) as pool:
        return [future.result() for future in [pool.submit(job) for job in jobs]]
