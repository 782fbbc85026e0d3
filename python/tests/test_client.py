"""The command `ipbus-client`: by names, by numbers, and words of a board without a hub."""

import re
import signal
import socket
import sys
import time
import unittest

from support import HOST, Case, board_text, free_port


class ByNames(Case):
    def test_lines(self):
        serving = self.serve(count=1)
        lines = ["read b0:id", "write b0:a.low 5", "dispatch", "rmwsum b0:count 1", "readblock b0:mem 2"]
        done = self.run_command("client", "--document", serving.file, serving.where, *lines)
        self.assertEqual((done.returncode, done.stderr), (0, ""))
        wanted = ["read b0:id: 0x0000abcd", "write b0:a.low 5: done", "rmwsum b0:count 1: 0x00000007"]
        self.assertEqual(done.stdout.splitlines(), [*wanted, "readblock b0:mem 2: 0x00000000 0x00000000"])
        self.assertEqual(serving.end()[0], "connection 1 frames 2 closed")

    def test_refused(self):
        """What is refused costs no connection."""
        serving = self.serve(count=1)
        for line, status, told in (
            ("read b0:none", 1, "UnknownName: b0 has no register none"),
            ("write b0:id 1", 1, "NoWritePermission: write b0:id"),
            ("peek b0:id", 2, "peek is none of read, write,"),
            ("write b0:a", 2, "is no line of a script"),
        ):
            done = self.run_command("client", "--document", serving.file, serving.where, line)
            self.assertEqual((done.returncode, done.stdout), (status, ""), line)
            self.assertIn(told, done.stderr)
            self.assertNotIn("Traceback", done.stderr)
        done = self.run_command("client", "--document", self.folder / "none", serving.where, "read b0:id")
        self.assertIn("BadDocument", done.stderr)
        done = self.run_command("client", "--document", serving.file, serving.where, "read b0:id")
        self.assertEqual((done.returncode, serving.end()[0]), (0, "connection 1 frames 1 closed"))

    def test_no_hub(self):
        serving = self.serve(count=1)
        done = self.run_command("client", "--document", serving.file, f"{HOST}:{free_port()}", "read b0:id")
        self.assertEqual(done.returncode, 1)
        self.assertIn("NotConnected", done.stdout + done.stderr)
        self.assertIn("Start the hub", done.stdout + done.stderr)


class ByNumbers(Case):
    def test_lines(self):
        serving = self.serve(count=1)
        lines = ["read 0", "write 8 1 2", "read 8 2", "rmwbits 8 0 5", "rmwsum 0x8 1"]
        lines += ["writeport 9 3 4", "readport 9 2"]
        done = self.run_command("client", serving.port, 0, *lines, "read 0x5000")
        self.assertEqual(done.returncode, 1)
        wanted = ["0x0000abcd", "done", "0x00000001 0x00000002", "0x00000001", "0x00000005"]
        wanted += ["done", "0x00000004 0x00000004"]
        wanted = [f"{line}: {told}" for line, told in zip([*lines, "read 0x5000"], [*wanted, "error 4 after 0"])]
        self.assertEqual(done.stdout.splitlines(), wanted)
        self.assertEqual(serving.end()[0], "connection 1 frames 8 closed")

    def test_typing_errors(self):
        """A word that is none is told with the usage, without a traceback, and costs no connection."""
        serving = self.serve(count=1)
        of_board = [["0", line] for line in ("peek 4", "read", "read x", "write 4", "")]
        for words in (*of_board, ["x", "read 4"], ["0"]):
            done = self.run_command("client", serving.port, *words)
            self.assertEqual((done.returncode, done.stdout), (2, ""), words)
            self.assertRegex(done.stderr, "usage: ipbus-client(.|\n)*error: ")
            self.assertNotIn("Traceback", done.stderr)
        done = self.run_command("client", serving.where, 0, "read 0")
        self.assertEqual((done.returncode, serving.end()[0]), (0, "connection 1 frames 1 closed"))

    def test_waits_for_the_hub(self):
        port = free_port()
        client = self.start([sys.executable, "-m", "ipbus.client", "--wait", port, 0, "read 0"])
        self.serve(port=port)
        self.assertEqual(client.communicate(timeout=60)[0], "read 0: 0x0000abcd\n")


class Peek(Case):
    def test_peek_and_poke(self):
        board = f"{HOST}:{self.start_board()}"
        done = self.run_command("client", "peek", board, "0x0")
        self.assertEqual((done.returncode, done.stdout, done.stderr), (0, "0x0000abcd\n", ""))
        done = self.run_command("client", "poke", board, "0x8", "1", "0x2")
        self.assertEqual((done.returncode, done.stdout), (0, "done\n"))
        done = self.run_command("client", "peek", board, "8", "2")
        self.assertEqual((done.returncode, done.stdout), (0, "0x00000001 0x00000002\n"))

    def test_what_is_not_done(self):
        board = self.start_board()
        done = self.run_command("client", "peek", f"{HOST}:{board}", "0x5000")
        self.assertEqual((done.returncode, done.stdout), (1, ""))
        self.assertIn("BusError: 127.0.0.1", done.stderr)
        with socket.socket(socket.AF_INET, socket.SOCK_DGRAM) as deaf:
            deaf.bind((HOST, 0))
            done = self.run_command("client", "peek", f"{HOST}:{deaf.getsockname()[1]}", "0")
        self.assertEqual((done.returncode, done.stdout), (1, ""))
        self.assertIn("Look at the board's power, address and cable", done.stderr)
        for words in (["peek"], ["peek", "b0", "0"], ["peek", f"{HOST}:1", "x"], ["poke", f"{HOST}:1", "0"]):
            done = self.run_command("client", *words)
            self.assertEqual(done.returncode, 2)
            self.assertIn("usage: ipbus-client p", done.stderr)

    def test_a_board_of_another_hub(self):
        """Peek is a hub as long as it runs: it says that another one has the board, and what to do."""
        port = self.start_board()
        self.serve(board_text(port=port))
        done = self.run_command("client", "peek", f"{HOST}:{port}", "0")
        self.assertEqual((done.returncode, done.stdout), (1, ""))
        self.assertIn("belongs to a hub that runs", done.stderr)
        self.assertIn("NotRun: 127.0.0.1", done.stderr)
        self.assertIn("Ask the hub that has this board", done.stderr)

    def test_without_the_program(self):
        done = self.run_command("client", "peek", f"{HOST}:1", "0", env={"PYTHONPATH": sys.path[0], "IPBUS": "/none"})
        self.assertEqual(done.returncode, 1)
        self.assertIn("/none cannot be run", done.stderr)
        self.assertNotIn("Traceback", done.stderr)


class Watch(Case):
    def test_whoever_reads_has_gone(self):
        serving = self.serve()
        words = [sys.executable, "-m", "ipbus.client", "watch", serving.where, serving.file, "b0:id", "--every", "0.05"]
        client = self.start(words)
        self.assertIn("b0:id", client.stdout.readline())
        client.stdout.close()
        client.stdout = None
        self.assertEqual((client.wait(60), client.stderr.read()), (1, ""))

    def test_watch(self):
        serving = self.serve()
        words = [serving.where, serving.file, "b0:count", "b0:a.low"]
        began = time.monotonic()
        done = self.run_command("client", "watch", *words, "--every", "0.2", "--count", "3")
        self.assertGreater(time.monotonic() - began, 0.4)
        self.assertEqual((done.returncode, done.stderr), (0, ""))
        lines = [re.sub(r"^\d\d:\d\d:\d\d ", "", line) for line in done.stdout.splitlines()]
        self.assertEqual(lines, ["b0:count 0x00000007 7", "b0:a.low 0x00000000 0"] * 3)

    def test_goes_on_until_a_control_c(self):
        """Once a second, also where the hub went away meanwhile."""
        serving = self.serve(board_text())
        client = self.start([sys.executable, "-m", "ipbus.client", "watch", serving.where, serving.file, "b0:count"])
        times = []
        for _ in range(2):
            self.assertIn("b0:count 0x00000007 7", client.stdout.readline())
            times.append(time.monotonic())
        self.assertGreater(times[1] - times[0], 0.5)
        serving.process.kill()
        serving.process.wait()
        self.assertRegex(client.stdout.readline(), "ConnectionEnded|NotConnected")
        client.send_signal(signal.SIGINT)
        _, said = client.communicate(timeout=60)
        self.assertEqual((client.returncode, said), (0, ""))

    def test_what_is_refused(self):
        serving = self.serve(count=1)
        done = self.run_command("client", "watch", serving.where, serving.file, "b0:none")
        self.assertEqual(done.returncode, 1)
        self.assertIn("UnknownName", done.stderr)
        done = self.run_command("client", "watch", serving.where, serving.file, "b0:id", "--count", "1")
        self.assertEqual((done.returncode, serving.end()[0]), (0, "connection 1 frames 1 closed"))


if __name__ == "__main__":
    unittest.main()
