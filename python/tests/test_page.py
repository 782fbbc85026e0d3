"""The page for the shift: its interface over HTTP, over a real hub and boards on UDP ports, one behind a bad network."""

from __future__ import annotations

import concurrent.futures
import http.client
import json
import subprocess
import sys
import time
import urllib.parse

import support
from support import DOCUMENT, HOST, board_text


class PageCase(support.Case):
    """A page over a hub of three boards: b0 and b1 on UDP ports, b1 behind a bad network, and b2 at a port that is silent."""

    document = DOCUMENT

    def begin(self, *words: str) -> None:
        """Starts boards, hub and page."""
        first = self.start_board()
        second = self.start_board("--seed", "7")
        with support.contextlib.closing(support.socket.socket(support.socket.AF_INET, support.socket.SOCK_DGRAM)) as probe:
            probe.bind((HOST, 0))
            nobody = probe.getsockname()[1]
        boards = board_text("b0", first, wait=50) + board_text("b1", second, wait=50) + board_text("b2", nobody, wait=20)
        self.start_page(self.serve_text(self.document + boards, count=40), *words)

    def start_page(self, serving: support.Serving, *words: str) -> None:
        """Starts a page over a hub."""
        self.serving = serving
        self.process = self.start([sys.executable, "-m", "ipbus.page", serving.file, serving.where, "--port", "0", *words])
        self.address = self.process.stdout.readline().strip()
        parts = urllib.parse.urlsplit(self.address)
        self.host, self.root = parts.netloc, parts.path
        self.assertTrue(self.root.strip("/"), self.address)

    def stop_board(self) -> None:
        """Ends b0: the boards are started first, and it is the first of them."""
        board = next(words[0] for call, words, _ in self._cleanups if call.__name__ == "_stop")
        board.kill()
        board.wait()

    def ask(self, path: str, given: object = None, root: str | None = None, **headers: str) -> tuple[int, dict]:
        """The status and the JSON of a request; a POST where something is given."""
        connection = http.client.HTTPConnection(self.host, timeout=60)
        method = "GET" if given is None else "POST"
        body = given if given is None or isinstance(given, str) else json.dumps(given)
        told = {"Host": self.host, **({"Origin": f"http://{self.host}"} if given is not None else {}), **headers}
        connection.request(method, (self.root if root is None else root) + path, body, {name: value for name, value in told.items() if value})
        answer = connection.getresponse()
        content = answer.read()
        connection.close()
        self.headers = answer.headers
        return answer.status, json.loads(content) if answer.headers["Content-Type"] == "application/json" else {"text": content.decode()}

    def sample(self, path: str) -> list:
        """What one read of a register shows."""
        status, given = self.ask("api/read", {"paths": [path]})
        self.assertEqual(status, 200, given)
        return given["samples"][path]


class Asking(PageCase):
    """What the page tells and does."""

    def test_files_have_a_strict_policy(self) -> None:
        self.begin()
        for name in ("", "page.css", "main.js", "tree.js", "plot.js", "cards.js", "writing.js", "registers.js", "api.js"):
            status, given = self.ask(name)
            self.assertEqual(status, 200, name)
            self.assertNotIn("<script>", given["text"])
        policy = self.headers["Content-Security-Policy"]
        self.assertIn("default-src 'none'", policy)
        self.assertNotIn("unsafe", policy)
        self.assertEqual(self.headers["Referrer-Policy"], "no-referrer")

    def test_the_document_has_all_registers(self) -> None:
        self.begin()
        _, given = self.ask("api/document")
        self.assertFalse(given["mayWrite"])
        self.assertEqual([board["name"] for board in given["boards"]], ["b0", "b1", "b2"])
        rows = {row[0]: row[1:] for row in given["boards"][0]["registers"]}
        self.assertEqual(rows["a.low"], [8, 0xFF, "rw", "single", 1, ""])
        self.assertEqual(rows["ch.pair"][3:5], ["block", 2])

    def test_reads_show_words_blocks_and_why_not(self) -> None:
        self.begin()
        at, value, error, _ = self.sample("b0:id")
        self.assertEqual((value, error), (0xABCD, ""))
        self.assertLess(abs(at - time.time()), 30)
        self.assertEqual(self.sample("b0:mem")[1], [0] * 600)
        self.assertEqual(self.sample("b0:slow")[2], "BusError")
        self.assertEqual(self.sample("b2:id")[1:3], [None, "Unsent"])

    def test_a_bad_network_costs_no_value(self) -> None:
        self.begin()
        for _ in range(20):
            self.assertEqual(self.sample("b1:id")[1], 0xABCD)

    def test_lamps_tell_how_boards_stand(self) -> None:
        self.begin()
        self.assertEqual(self.ask("api/state?browser=x")[1]["boards"]["b0"]["state"], "not asked yet")
        self.sample("b0:id")
        self.sample("b2:id")
        boards = self.ask("api/state?browser=x")[1]["boards"]
        self.assertEqual((boards["b0"]["state"], boards["b2"]["state"]), ("answers", "silent"))

    def test_lamps_of_a_board_that_went_away_and_began_anew(self) -> None:
        """At the third timeout in a row the lamp asks whether the board was reset. It goes on saying so of one that was."""
        port = self.start_board()
        serving = self.serve(board_text("b0", port, wait=20))
        self.start_page(serving)
        self.sample("b0:id")
        self.stop_board()
        states = []
        for number in range(4):
            if number == 3:
                self.start_board(port=port)
            self.sample("b0:id")
            states.append(self.ask("api/state?browser=x")[1]["boards"]["b0"]["state"])
        self.assertEqual(states, ["timing out", "timing out", "reset or off", "reset or off"])

    def test_a_watch_is_read_again_and_again(self) -> None:
        self.begin()
        self.assertEqual(self.ask("api/watch", {"browser": "x", "rates": {"b0:count": 10, "b2:id": 1}})[0], 200)
        first = self.state_once("x", 0, lambda samples: len(samples.get("b0:count", [])) >= 5 and "b2:id" in samples)
        self.assertEqual(first["samples"]["b2:id"][0][1:3], [None, "Unsent"])
        second = self.state_once("x", first["last"], lambda samples: samples.get("b0:count"))
        self.assertGreater(second["samples"]["b0:count"][0][0], first["samples"]["b0:count"][-1][0])
        self.assertEqual(self.ask("api/state?browser=y&since=0")[1]["samples"], {})

    def test_ten_browsers_are_one_reader(self) -> None:
        self.begin()
        began, rate = time.monotonic(), 5
        for number in range(10):
            self.ask("api/watch", {"browser": str(number), "rates": {"b0:count": rate}})
        for number in range(10):
            self.state_once(str(number), 0, lambda samples: len(samples.get("b0:count", [])) >= 4)
        reads = len(self.executed())
        self.assertGreaterEqual(reads, 4)
        # as often as one browser asks, and not ten times that
        self.assertLessEqual(reads, 2 * rate * (time.monotonic() - began + 1))
        with concurrent.futures.ThreadPoolExecutor(10) as pool:
            states = list(pool.map(lambda number: self.ask_apart(f"api/state?browser={number}"), range(10)))
        self.assertTrue(all(len(state["samples"]["b0:count"]) >= 4 for state in states))

    def state_once(self, browser: str, since: int, holds) -> dict:
        """What a browser is told of its watches, once this holds of the samples."""
        end = time.monotonic() + 60
        while True:
            _, state = self.ask(f"api/state?browser={browser}&since={since}")
            if holds(state["samples"]):
                return state
            self.assertLess(time.monotonic(), end, state)
            time.sleep(0.1)

    def ask_apart(self, path: str) -> dict:
        """A request of another thread."""
        connection = http.client.HTTPConnection(self.host, timeout=60)
        connection.request("GET", self.root + path)
        given = json.loads(connection.getresponse().read())
        connection.close()
        return given

    def test_writes_are_done_once(self) -> None:
        self.begin("--write")
        self.assertEqual(self.ask("api/write", {"path": "b0:a.low", "words": [0x2A]}), (200, {"done": True}))
        self.assertEqual(self.sample("b0:a")[1], 0x2A)
        status, given = self.ask("api/write", {"path": "b2:a", "words": [1]})
        self.assertEqual((status, given["done"], given["error"], given["uncertain"]), (200, False, "Unsent", False))

    def test_a_block_that_is_written_in_part_may_have_been_executed(self) -> None:
        """The last word is outside the board's registers; those before it are written."""
        self.document = DOCUMENT.replace("size = 600", "size = 601")
        self.begin("--write")
        _, given = self.ask("api/write", {"path": "b0:mem", "words": [7] * 601})
        self.assertEqual((given["done"], given["error"], given["uncertain"]), (False, "BusError", True))

    def test_a_write_at_a_board_that_went_away_may_have_been_executed(self) -> None:
        self.begin("--write")
        self.sample("b0:id")
        self.stop_board()
        _, given = self.ask("api/write", {"path": "b0:a", "words": [1]})
        self.assertEqual((given["done"], given["error"], given["uncertain"]), (False, "TimedOut", True))


class Refusing(PageCase):
    """What the page refuses, with a sentence, and nothing is sent."""

    def refused(self, status: int, path: str, given: object = None, **more: str) -> str:
        found, told = self.ask(path, given, **more)
        self.assertEqual(found, status, told)
        return told["refused"]

    def test_who_has_no_token_gets_nothing(self) -> None:
        self.begin()
        for root in ("/", "/x/", self.root[:-2] + "/", "//"):
            self.assertIn("token", self.refused(403, "api/document", root=root))

    def test_other_pages_and_other_names_are_refused(self) -> None:
        self.begin("--write")
        write = {"path": "b0:a", "words": [1]}
        self.assertIn("another page", self.refused(403, "api/write", write, Origin="http://evil.example"))
        self.assertIn("Origin", self.refused(403, "api/write", write, Origin=""))
        self.assertIn("host name", self.refused(403, "api/document", Host="evil.example"))
        self.assertEqual(self.sample("b0:a")[1], 0)

    def test_a_page_that_only_reads_writes_nothing(self) -> None:
        self.begin()
        self.assertIn("--write", self.refused(403, "api/write", {"path": "b0:a", "words": [1]}))
        self.assertEqual(self.sample("b0:a")[1], 0)

    def test_requests_out_of_form(self) -> None:
        self.begin("--write")
        for given in ("{", "[]", "null", "[" * 5000):
            self.assertIn("JSON", self.refused(400, "api/read", given))
        for given in ({}, {"paths": []}, {"paths": "b0:id"}, {"paths": ["b0:id"] * 1001}, {"paths": [7]}, {"paths": ["b9:id"]}, {"paths": ["b0:zz"]}):
            self.refused(400, "api/read", given)
        for words in (None, [], [-1], [1 << 32], [True], ["1"], [1, 2], [1.5]):
            self.refused(400, "api/write", {"path": "b0:a", "words": words})
        self.assertIn("mask", self.refused(400, "api/write", {"path": "b0:a.low", "words": [256]}))
        self.refused(404, "api/nothing")
        self.refused(404, "../../../etc/passwd")
        self.refused(413, "api/read", " " * 70_000)

    def test_a_refused_body_is_no_request(self) -> None:
        """A refusal that did not read the body ends the connection, so that nobody takes the body for a request."""
        self.begin()
        place, _, port = self.host.partition(":")
        for path in (f"{self.root}api/nothing", "/x/api/read"):
            head = f"POST {path} HTTP/1.1\r\nHost: {self.host}\r\nOrigin: http://{self.host}\r\nContent-Length: 2\r\n\r\n{{}}"
            with support.socket.create_connection((place, int(port)), timeout=60) as connection:
                connection.sendall(head.encode() + f"GET {self.root}api/state HTTP/1.1\r\nHost: {self.host}\r\n\r\n".encode())
                answers = b"".join(iter(lambda: connection.recv(65_536), b""))
            self.assertEqual(answers.count(b"HTTP/1.1 "), 1, answers)
            self.assertIn(b"Connection: close", answers)

    def test_numbers_of_any_length(self) -> None:
        self.begin()
        self.assertEqual(self.ask(f"api/state?browser=x&since={'9' * 5000}")[0], 200)
        self.refused(413, "api/read", {}, **{"Content-Length": "9" * 5000})

    def test_a_thousand_watches(self) -> None:
        self.begin()
        rates = {f"b0:zz{number}": 1 for number in range(1000)}
        self.assertIn("64 is the most", self.refused(400, "api/watch", {"browser": "x", "rates": rates}))
        for given in ({"b0:id": 0}, {"b0:id": 11}, {"b9:id": 1}, {"b0:zz": 1}, {"b0:mem": 1}, {"b0:fifo": 1}, {"b0:ch": 1}):
            self.refused(400, "api/watch", {"browser": "x", "rates": given})


class Starting(support.Case):
    """The words of the command line."""

    def test_refusals_are_sentences(self) -> None:
        document = self.write("session.toml", DOCUMENT + board_text())
        for words in (["nothing.toml", "127.0.0.1:5000"], [document, "127.0.0.1:5000", "--port", "1", "--listen", "192.0.2.1"]):
            ran = self.run_command("page", *words)
            self.assertNotEqual(ran.returncode, 0)
            self.assertNotIn("Traceback", ran.stderr)
            self.assertTrue(ran.stderr.startswith("ipbus-page: "), ran.stderr)
        self.assertIn("HOST:PORT", self.run_command("page", document, "5000").stderr)

    def test_boards_of_a_small_mtu(self) -> None:
        """Blocks are read in packets of the MTU that the command line says; one that no board has is refused."""
        serving = self.serve(board_text("b0", self.start_board("--mtu", 92)))
        page = [sys.executable, "-m", "ipbus.page", serving.file, serving.where, "--port", "0"]
        for words, error in (([], "ReplyTooLong"), (["--mtu", "92"], "")):
            process = self.start([*page, *words])
            parts = urllib.parse.urlsplit(process.stdout.readline().strip())
            connection = http.client.HTTPConnection(parts.netloc, timeout=60)
            connection.request("POST", parts.path + "api/read", json.dumps({"paths": ["b0:mem"]}), {"Origin": f"http://{parts.netloc}"})
            given = json.loads(connection.getresponse().read())
            connection.close()
            self.assertEqual(given["samples"]["b0:mem"][2], error, given)
        ran = self.run_command("page", serving.file, serving.where, "--mtu", "9")
        self.assertEqual((ran.returncode, ran.stderr[:11]), (1, "ipbus-page:"), ran.stderr)

    def test_no_hub_is_told_at_the_read(self) -> None:
        document = self.write("session.toml", DOCUMENT + board_text())
        process = self.start([sys.executable, "-m", "ipbus.page", document, f"{HOST}:{support.free_port()}", "--port", "0"])
        parts = urllib.parse.urlsplit(process.stdout.readline().strip())
        connection = http.client.HTTPConnection(parts.netloc, timeout=60)
        connection.request("POST", parts.path + "api/read", json.dumps({"paths": ["b0:id"]}), {"Origin": f"http://{parts.netloc}"})
        given = json.loads(connection.getresponse().read())
        connection.close()
        self.assertEqual(given["samples"]["b0:id"][1:3], [None, "NotConnected"])


if __name__ == "__main__":
    support.unittest.main()
