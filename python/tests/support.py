"""What the tests of the package start on 127.0.0.1: the built program as a hub, boards on UDP ports, and servers that
answer as they are told. All ends with its test."""

from __future__ import annotations

import contextlib
import os
import pathlib
import random
import signal
import socket
import struct
import subprocess
import sys
import tempfile
import threading
import time
import unittest

sys.dont_write_bytecode = True
PYTHON = pathlib.Path(__file__).resolve().parents[1]
TOP = PYTHON.parent
EXAMPLES = TOP / "examples"
sys.path.insert(0, str(PYTHON))

from ipbus import Hub, IpbusError  # noqa: E402
from ipbus.packets import READ, control_packet, transaction_header  # noqa: E402

HOST = "127.0.0.1"
# no test may take longer, and nothing that it starts outlives that
SECONDS = 300

DOCUMENT = """
[[tables.main]]
id = "id"
permission = "r"
[[tables.main]]
id = "count"
address = 1
tags = "counter"
description = "how many"
[[tables.main]]
id = "a"
address = 8
[[tables.main.nodes]]
id = "top"
mask = 0x80000000
[[tables.main.nodes]]
id = "low"
mask = 0xff
[[tables.main]]
id = "fifo"
address = 9
mode = "port"
[[tables.main]]
id = "mem"
address = 0x100
mode = "block"
size = 600
[[tables.main]]
id = "fixed"
address = 0x1000
[[tables.main]]
id = "slow"
address = 0x2000
[[tables.main]]
id = "ch"
mode = "hierarchical"
module = "channel"
[[tables.channel]]
id = "word"
address = 0x3000
[[tables.channel]]
id = "key"
address = 0x3001
permission = "w"
[[tables.channel]]
id = "pair"
address = 0x3002
mode = "block"
size = 2
"""
RANGES = ("0:16:rw:0xabcd,7", "0x100:600", "0x1000:4:ro:1,2,3,4", "0x2000:1:slow", "0x3000:128")


def program() -> str:
    """The built program: that of the environment variable IPBUS, or of this clone, proved or not."""
    out = TOP / "crates" / "ipbus" / "out"
    for path in (os.environ.get("IPBUS"), out / "ipbus", out / "unproved"):
        if path and os.access(path, os.X_OK):
            return str(path)
    raise FileNotFoundError("no program is built: `bin/ipbus load 1` builds one, or say IPBUS=/path/to/ipbus")


def environment(**more: str) -> dict[str, str]:
    """The environment of what is started: the package on the path."""
    return {**os.environ, "PYTHONPATH": str(PYTHON), "PYTHONDONTWRITEBYTECODE": "1", "IPBUS": program(), **more}


def board_text(name: str = "b0", port: int | None = None, mtu: int = 1500, wait: int = 200) -> str:
    """A board of a document: on a UDP port, or in the program's memory."""
    head = f'[[board]]\nname = "{name}"\ntable = "main"\n'
    if port is not None:
        return f'{head}link = "udp"\naddress = "{HOST}:{port}"\nwait = {wait}\n'
    text = f"{head}mtu = {mtu}\n"
    for each in RANGES:
        base, size, *rest = each.split(":")
        text += f"[[board.ranges]]\nbase = {base}\nsize = {size}\n"
        text += f'kind = "{rest[0]}"\n' if rest else ""
        text += f"init = [{rest[1]}]\n" if len(rest) > 1 else ""
    return text


def free_port() -> int:
    """A TCP port that nobody has."""
    while True:
        port = random.randrange(20_000, 32_768)
        with contextlib.suppress(OSError), socket.socket() as probe:
            probe.bind((HOST, port))
            return port


class Serving:
    """A program that serves a document."""

    def __init__(self, process: subprocess.Popen, port: int, file: pathlib.Path) -> None:
        self.process = process
        self.port = port
        self.file = file
        self.where = f"{HOST}:{port}"

    def end(self) -> list[str]:
        """The lines that it printed at its end."""
        text, _ = self.process.communicate(timeout=SECONDS)
        return text.splitlines()


class Case(unittest.TestCase):
    """A test with a folder, and with what it starts."""

    def setUp(self) -> None:
        folder = tempfile.TemporaryDirectory()
        self.addCleanup(folder.cleanup)
        self.folder = pathlib.Path(folder.name)
        self.logs: list[pathlib.Path] = []
        before = signal.signal(signal.SIGALRM, self._late)
        self.addCleanup(signal.signal, signal.SIGALRM, before)
        signal.alarm(SECONDS)
        self.addCleanup(signal.alarm, 0)
        # what a shell starts in the background ignores a control-C, and so does all that it starts
        heard = signal.signal(signal.SIGINT, signal.default_int_handler)
        self.addCleanup(signal.signal, signal.SIGINT, heard)

    def _late(self, *_: object) -> None:
        raise AssertionError(f"the test took longer than {SECONDS} s")

    def start(self, words: list, **settings: object) -> subprocess.Popen:
        """Starts a process that ends with the test."""
        pipes = {"stdout": subprocess.PIPE, "stderr": subprocess.PIPE, "text": True, "env": environment()}
        process = subprocess.Popen([str(word) for word in words], **{**pipes, **settings})
        self.addCleanup(self._stop, process)
        return process

    def _stop(self, process: subprocess.Popen) -> None:
        process.kill()
        process.communicate()

    def run_command(self, module: str, *words: object, **settings: object) -> subprocess.CompletedProcess:
        """Runs a command of the package to its end."""
        command = [sys.executable, "-m", f"ipbus.{module}", *map(str, words)]
        pipes = {"capture_output": True, "text": True, "timeout": SECONDS, "env": environment()}
        return subprocess.run(command, **{**pipes, **settings})

    def write(self, name: str, text: str) -> pathlib.Path:
        """A file of this folder."""
        file = self.folder / name
        file.write_text(text, encoding="utf-8")
        return file

    def start_board(self, *words: object, port: int = 0) -> int:
        """Starts a board with the registers of the document. Gives its UDP port. Its log is a file of its own."""
        log = self.folder / f"board{len(self.logs)}.log"
        self.logs.append(log)
        ranges = [word for each in RANGES for word in ("--range", each)]
        command = [sys.executable, "-m", "ipbus.board", "--seconds", SECONDS, "--port", port, "--log", log, *ranges]
        process = self.start([*command, *words])
        line = process.stdout.readline().split()
        self.assertEqual(line[:1], ["port"])
        return int(line[1])

    def executed(self, board: int = 0) -> list[str]:
        """The packets that a board executed, by its log. The boards of a test count from 0."""
        return [line for line in self.logs[board].read_text().splitlines() if line.startswith("executed ")]

    def serve(self, boards: str | None = None, count: int = 8, port: int | None = None, **more: str) -> Serving:
        """Starts a hub of these boards, which listens by then."""
        return self.serve_text(DOCUMENT + (board_text() if boards is None else boards), count, port, **more)

    def serve_text(self, text: str, count: int = 8, port: int | None = None, name: str = "session.toml") -> Serving:
        """Starts a hub of this document, which listens by then."""
        file = self.write(name, text)
        port = port or free_port()
        with file.open() as document:
            process = self.start([program(), "serve", port, count], stdin=document)
        while "listens on port" not in (line := process.stderr.readline()):
            self.assertTrue(line, f"the hub ended: {process.poll()}")
        return Serving(process, port, file)

    def hub(self, serving: Serving, **more: object) -> Hub:
        """A client of a hub, which ends with the test."""
        hub = Hub(serving.file, HOST, serving.port, **{"seconds": 60.0, **more})
        self.addCleanup(hub.close)
        return hub

    def stub_hub(self, stub: Stub) -> Hub:
        """A client of a server that answers as it is told, for the document of simulated boards."""
        hub = Hub(self.write("session.toml", DOCUMENT + board_text()), HOST, stub.port)
        self.addCleanup(hub.close)
        return hub

    def raises(self, kind: type, call, *words: object) -> IpbusError:
        """The error of this very kind that a call raises. Its text says what to do next."""
        with self.assertRaises(IpbusError) as caught:
            call(*words)
        error = caught.exception
        self.assertIs(type(error), kind, f"{error!r}")
        self.assertTrue(str(error).startswith(error.what) and error.advice in str(error), str(error))
        return error


# ---- a server that answers as it is told


def replied(*words: int, other: int = 0, board_after: int = 0):
    """The answer of these words, to an identifier or a board that is another one by so much."""

    def answer(board: int, identifier: int, _start: int) -> bytes:
        packet = control_packet((identifier + other) & 0xFFFF, words)
        return struct.pack(">IHH", board + board_after, 0, 0) + packet

    return answer


def read_done(word: int, kind: int = READ, count: int = 1, after: int = 0, info: int = 0):
    """The answer to a packet of one read: this word, under a transaction identifier that is another one by so much."""

    def answer(board: int, identifier: int, start: int) -> bytes:
        return replied(transaction_header((start + after) % 4096, kind, count, info), word)(board, identifier, start)

    return answer


def coded(code: int):
    """The answer of a code."""
    return lambda board, *_: struct.pack(">IHH", board, code, 0)


class Stub:
    """A server that answers each frame by the next function of its board, its identifier and its first transaction
    identifier: the bytes of a reply frame after its length. None ends the connection; `wait` seconds of silence are a
    number. It takes as many connections as it is asked for."""

    def __init__(self, case: Case, *connections: list) -> None:
        self._door = socket.create_server((HOST, 0))
        case.addCleanup(self._door.close)
        self.port = self._door.getsockname()[1]
        self.taken = self.heard = 0
        threading.Thread(target=self._serve, args=(connections,), daemon=True).start()

    def _serve(self, connections: tuple) -> None:
        for answers in connections:
            with contextlib.suppress(OSError, struct.error):
                connection, _ = self._door.accept()
                self.taken += 1
                with connection:
                    self._answer(connection, answers)

    def _answer(self, connection: socket.socket, answers: list) -> None:
        for make in answers:
            (length,) = struct.unpack(">I", connection.recv(4, socket.MSG_WAITALL))
            frame = connection.recv(length, socket.MSG_WAITALL)
            self.heard += 1
            if isinstance(make, (int, float)):
                time.sleep(make)
                continue
            board, header, first = struct.unpack(">III", frame[:12])
            answer = make(board, header >> 8 & 0xFFFF, first >> 16 & 0xFFF)
            if answer is None:
                return
            connection.sendall(struct.pack(">I", len(answer)) + answer)
        connection.recv(1)
