"""The peers of one case on 127.0.0.1: boards on UDP ports, a hub, and connections to it. All end with the case."""
import contextlib
import os
import pathlib
import random
import re
import shutil
import signal
import socket
import subprocess
import sys
import tempfile
import time
from collections import namedtuple

from net.frames import Connection
from net.packets import identifier_after

HERE = pathlib.Path(__file__).resolve().parent
# no case may take longer than it is given, mostly so many seconds, and its peers end so many later at the latest
CASE_SECONDS = 120
SECONDS_MORE = 30

Ended = namedtuple("Ended", "status text note")

# what the hub says of a board that is silent for a while, and what a board told at its greeting
SILENT = re.compile(
    r"ipbus: \S+ \(\S+\) (?:does not answer(?:: it is not asked again until the next start)?|answers again)"
    r"(?:; \d+ lines? (?:was|were) left out)?\n|ipbus: \S+: MTU \d+, \d+ buffers, next \d+\n"
)


class Wrong(Exception):
    """Something is not as it is owed."""


class Skipped(Exception):
    """This machine does not allow the case."""


def require(holds, told):
    if not holds:
        raise Wrong(told)


class Board:
    """A board of a session: its registers and settings, and what is to befall its datagrams. `wait` is how many
    milliseconds a receive from it waits, where that is not as of the other boards."""

    def __init__(self, name, ranges, mtu=1500, buffers=16, first=1, wait=None, **more):
        self.name = name
        self.ranges = ranges
        self.mtu = mtu
        self.buffers = buffers
        self.first = first
        self.wait = wait
        self.more = more
        self.address = "127.0.0.1"
        self.port = None
        self.file = name
        self.log = None
        self.process = None

    def head(self):
        return f'[[board]]\nname = "{self.name}"\ntable = "main"\n'

    def simulated(self):
        """Its table in a document, as a simulated board."""
        text = f"{self.head()}mtu = {self.mtu}\nbuffers = {self.buffers}\nfirst = {self.first}\n"
        for base, size, kind, words in self.ranges:
            text += f'[[board.ranges]]\nbase = {base}\nsize = {size}\nkind = "{kind}"\ninit = {words}\n'
        return text

    def on_network(self, wait):
        """Its table in a document, as a board behind its port. A receive waits for so many milliseconds, if it does not
        say otherwise."""
        return f'{self.head()}link = "udp"\naddress = "{self.address}:{self.port}"\nwait = {self.wait or wait}\n'

    def words(self, log, seconds):
        """The words that start it. It ends after so many seconds."""
        words = ["--mtu", self.mtu, "--buffers", self.buffers, "--first", self.first, "--log", log]
        for base, size, kind, init in self.ranges:
            words += ["--range", f"{base}:{size}:{kind}:{','.join(map(str, init or [0]))}"]
        for name, value in self.more.items():
            words += [f"--{name.replace('_', '-')}"] + ([] if value is True else [value])
        return [str(word) for word in [*words, "--seconds", seconds]]

    def executed(self):
        """The bodies that it executed, in order, by its log: none twice, and the identifiers without a gap."""
        bodies = []
        expected = self.first
        for line in self.log.read_text().splitlines():
            kind, *rest = line.split()
            if kind != "executed":
                continue
            require(int(rest[0]) == expected, f"{self.name} executed {rest[0]} in place of {expected}")
            expected = identifier_after(expected)
            bodies.append([int(word, 16) for word in rest[1:]])
        return bodies

    def require_executed(self, count):
        """It executed as many bodies as a hub has places for, none twice."""
        executed = len(self.executed())
        require(executed == count, f"{self.name} executed {executed} bodies at {count} places")

    def heard(self, kind):
        """How many lines of its log are of this kind."""
        return sum(line.split()[0] == kind for line in self.log.read_text().splitlines())


def greeting(board):
    """What `run` says of a board on the network that tells its status."""
    return f"ipbus: {board.name}: MTU {board.mtu}, {board.buffers} buffers, next {board.first}\n"


def rest_of(note):
    """What is said on standard error but what boards told, and that they are silent and answer again, as they do on a bad
    network."""
    return SILENT.sub("", note)


def require_silences(note, board):
    """A board was silent and answers again: both are said, one after the other, and nothing else. On a busy machine a board
    may be silent more often than the case has it."""
    name = f"{board.name} ({board.address}:{board.port})"
    said = [line.split(";")[0] for line in note.splitlines()]
    both = [f"ipbus: {name} does not answer", f"ipbus: {name} answers again"]
    is_told = said and said == both * (len(said) // 2)
    require(is_told and rest_of(note) == "", f"it says {note!r}, wanted {both}, once or more")


def ended(process):
    """The end of a hub: its status and what it wrote."""
    text, note = process.communicate(timeout=process.seconds)
    return Ended(process.returncode, text.decode(), note.decode())


def stop_while_it_waits(process, board, kind, count):
    """Waits until a board heard so many datagrams of a kind from a hub, then stops the hub and lets it go on, twice."""
    while board.heard(kind) < count:
        require(process.poll() is None, f"the hub ended: {process.poll()}")
        time.sleep(0.005)
    for _ in range(2):
        time.sleep(0.02)
        process.send_signal(signal.SIGSTOP)
        with contextlib.suppress(ChildProcessError):  # it may have ended
            os.waitid(os.P_PID, process.pid, os.WSTOPPED | os.WEXITED | os.WNOWAIT)
        process.send_signal(signal.SIGCONT)


class Hub:
    """A hub that serves: its port, and what it came to."""

    def __init__(self, process, port, count, document):
        self.process = process
        self.port = port
        self.count = count
        self.document = document

    def finish(self):
        """Its end: its status and what it wrote."""
        return ended(self.process)

    @property
    def listens(self):
        """What it says once its port is open."""
        return f"ipbus: listens on port {self.port} for {self.count} connection{'s' * (self.count > 1)}\n"

    @property
    def says(self):
        """What it says by the time that all its connections are there."""
        return f"{self.listens}ipbus: connection {self.count} of {self.count} is the last one: later ones are not answered\n"


def free_port(kind=socket.SOCK_STREAM):
    """A port that nobody has. It is below those that the machine gives away by itself, so nobody is given it before it is
    used, and no connection to it can be one to itself."""
    while True:
        port = random.randrange(20_000, 32_768)
        with contextlib.suppress(OSError), socket.socket(socket.AF_INET, kind) as probe:
            probe.bind(("", port))
            return port


class Network:
    """A network of its own with one more address, to which the route can be taken away. `words` start a program in it."""

    address = "10.73.0.1"

    def __init__(self, holder):
        self.words = ["nsenter", "-t", str(holder.pid), "-n", "-U", "--preserve-credentials"]
        if os.geteuid() == 0:
            self.words = ["nsenter", "-t", str(holder.pid), "-n"]
        self.ip("link", "set", "lo", "up")
        self.give_route(None)

    def ip(self, *words):
        done = subprocess.run([*self.words, "ip", *words], capture_output=True)
        if done.returncode:
            raise Skipped(f"no network of its own: {done.stderr.decode().strip()}")

    def take_route(self, kind):
        """The address is reached no more: it has no route, or one of a kind that refuses."""
        if kind:
            self.ip("route", "add", kind, self.address)
        self.ip("route", "del", "local", self.address, "dev", "lo", "table", "local")

    def give_route(self, kind):
        self.ip("route", "add", "local", self.address, "dev", "lo", "table", "local")
        if kind:
            self.ip("route", "del", kind, self.address)


class Peer(subprocess.Popen):
    """A program that a case starts, which ends after so many seconds at the latest."""

    seconds = CASE_SECONDS + SECONDS_MORE


class Peers:
    """What a case starts. `command` is the hub: the words before `run` and `serve`. A peer ends after so many seconds at
    the latest."""

    def __init__(self, command, seconds=Peer.seconds):
        self.command = [str(word) for word in command]
        self.seconds = seconds
        self.folder = tempfile.TemporaryDirectory()
        self.processes = []
        self.open = []

    def network(self):
        """A network of its own, where the machine allows one."""
        words = ["unshare", "-n"] if os.geteuid() == 0 else ["unshare", "-r", "-n"]
        if not all(shutil.which(name) for name in ("unshare", "nsenter", "ip")):
            raise Skipped("no network of its own: there is no unshare, nsenter or ip")
        holder = self.start([*words, "sh", "-c", f"echo ready; exec sleep {self.seconds}"])
        if holder.stdout.readline() != b"ready\n":
            raise Skipped(f"no network of its own: {holder.stderr.read().decode().strip()}")
        return Network(holder)

    def start(self, words, document=None, note=subprocess.PIPE):
        """Starts a program on a document. Its standard error goes to `note`, a pipe by default."""
        file = tempfile.TemporaryFile()
        file.write(document or b"")
        file.seek(0)
        # a folder of its own for locks: a board of another network may have the same address
        settings = {**os.environ, "XDG_RUNTIME_DIR": self.folder.name, "TMPDIR": self.folder.name}
        process = Peer(words, stdin=file, stdout=subprocess.PIPE, stderr=note, env=settings)
        process.seconds = self.seconds
        file.close()
        self.processes.append(process)
        return process

    def start_board(self, board, network=None, port=0):
        """Starts a board, in a network of its own if there is one, and on this port if it is not 0."""
        board.log = pathlib.Path(self.folder.name) / f"{board.file}.log"
        words = [sys.executable, HERE / "board", "--port", str(port), *board.words(board.log, self.seconds)]
        process = self.start([*(network.words if network else []), *words])
        line = process.stdout.readline().split()
        require(line[:1] == [b"port"], f"{board.name} did not start: {process.stderr.read() if not line else line}")
        board.port = int(line[1])
        board.process = process

    def start_client(self, hub, network, lines):
        """A client of board 0 in a network of its own, which waits for the hub to listen."""
        words = [sys.executable, HERE / "client", "--wait", str(hub.port), "0", *lines]
        return self.start([*network.words, *words])

    def start_boards(self, boards):
        for board in boards:
            self.start_board(board)

    def deaf_port(self):
        """A port on which nobody ever answers."""
        deaf = socket.socket(socket.AF_INET, socket.SOCK_DGRAM)
        deaf.bind(("127.0.0.1", 0))
        self.open.append(deaf)
        return deaf.getsockname()[1]

    def start_run(self, document):
        return self.start([*self.command, "run"], document)

    def run(self, document):
        return ended(self.start_run(document))

    def serve(self, document, count, network=None, limits=()):
        """A hub that serves so many connections, in a network of its own if there is one, under limits of the shell."""
        return self.serve_by(self.command, document, count, network, limits)

    def serve_by(self, command, document, count, network=None, limits=()):
        """The same by another command."""
        port = free_port()
        words = [*command, "serve", str(port), str(count)]
        for limit in limits:
            words = ["bash", "-c", f'ulimit {limit} && exec "$@"', "bash", *words]
        process = self.start([*(network.words if network else []), *words], document)
        return Hub(process, port, count, document)

    def connect(self, hub):
        """A connection to the hub, which may have to begin to listen first."""
        end = time.monotonic() + 60
        while True:
            try:
                connection = Connection(hub.port)
                self.open.append(connection)
                return connection
            except ConnectionRefusedError:
                require(hub.process.poll() is None, f"the hub ended: {hub.process.poll()}")
                require(time.monotonic() < end, "the hub does not listen")
                time.sleep(0.01)

    def close(self):
        for each in self.open:
            each.close()
        for process in self.processes:
            process.kill()
        for process in self.processes:
            process.wait()
            for pipe in filter(None, (process.stdout, process.stderr)):
                pipe.close()
        self.folder.cleanup()


class Late(Exception):
    """A case took longer than it may."""


def within(seconds, command, case):
    """What is wrong in a case, as a list of texts. It ends in its time, and so do all its peers. A case that this machine
    does not allow ends as `Skipped`."""

    def ring(_signal, _frame):
        raise Late(f"it took longer than {seconds} s")

    peers = Peers(command, seconds + SECONDS_MORE)
    before = signal.signal(signal.SIGALRM, ring)
    signal.setitimer(signal.ITIMER_REAL, seconds)
    try:
        case(peers)
        return []
    except Skipped:
        raise
    except Exception as error:
        return [f"{type(error).__name__}: {error}"]
    finally:
        signal.setitimer(signal.ITIMER_REAL, 0)
        signal.signal(signal.SIGALRM, before)
        peers.close()
