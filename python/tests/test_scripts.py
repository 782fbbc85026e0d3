"""The lines of scripts, asked of a hub: those that the program refuses are refused by the same rule, and the others
give what `ipbus run` prints of them."""

import re
import unittest

from support import EXAMPLES, HOST, Case, board_text

from ipbus import BadLine, BusError, Hub, IpbusError, NoPermission, Refused, Skipped
from ipbus.documents import toml_module
from ipbus.scripts import read_line, run_lines, shown

REFUSED = re.compile(r"refused: script (\d+) (\d+) (\w+)\n")
# rules of a whole session, which one line does not break
OF_SESSIONS = ("TooMany",)
RESULT = re.compile(r"\d+ (\S+ \S+) (?:= |was )?(.*?)(?: @[0-9.,]+)?")


def session_of(file):
    return toml_module().loads(file.read_text())


def ask(hub: Hub, text: str) -> None:
    line = read_line(text)
    if line is not None:
        line.ask(hub)


def rule_of(error: IpbusError) -> str:
    return NoPermission.__name__ if isinstance(error, NoPermission) else type(error).__name__


def printed(result) -> str:
    """What the transcript shows of a result, without its places."""
    error = result.error
    if isinstance(error, BusError):
        return f"error {error.code} after {error.done}"
    return "skipped" if isinstance(error, Skipped) else shown(result)


class Scripts(Case):
    def test_scripts_that_are_refused(self):
        """Each line of the refused scripts is taken up to the one that the program refuses, which breaks that rule."""
        tried = 0
        for file in sorted((EXAMPLES / "refused" / "script").glob("*.toml")):
            client, line, rule = REFUSED.fullmatch(file.with_suffix(".out").read_text()).groups()
            if rule in OF_SESSIONS:
                continue
            hub = Hub(file, connect=False)
            scripts = [each["script"] for each in session_of(file)["client"]][: int(client)]
            before = [text for script in scripts[:-1] for text in script] + scripts[-1][: int(line) - 1]
            for text in before:
                ask(hub, text)
            with self.assertRaises(Refused, msg=file.stem) as caught:
                ask(hub, scripts[-1][int(line) - 1])
            self.assertEqual(rule_of(caught.exception), rule, file.stem)
            tried += 1
        self.assertGreater(tried, 20)

    def test_scripts_of_run(self):
        """The lines of documents with one client have the results that `run` prints when they are asked of a hub."""
        tried = 0
        for file in sorted((EXAMPLES / "run").glob("*.toml")):
            session = session_of(file)
            if len(session.get("client", [])) != 1 or "policy" in session:
                continue
            serving = self.serve_text(file.read_text(), 1)
            with Hub(file, HOST, serving.port) as hub:
                results = run_lines(hub, session["client"][0]["script"])
            serving.end()
            lines = [line for line in file.with_suffix(".out").read_text().splitlines() if line[0].isdigit()]
            wanted = [RESULT.fullmatch(line).groups() for line in lines]
            given = [(" ".join(line.split()[:2]), printed(result)) for line, result in results]
            self.assertEqual(given, wanted, file.stem)
            tried += 1
        self.assertGreater(tried, 20)

    def test_lines(self):
        """Each line has its result, and where one of them is refused nothing is sent."""
        serving = self.serve(board_text(), 1)
        hub = self.hub(serving)
        lines = ["write b0:a.low 0x12", "# nothing", "dispatch", "readblock b0:ch.pair 2", "read b0:slow"]
        lines.append("rmwsum b0:count 1")
        told = [f"{line}: {shown(result)}" for line, result in run_lines(hub, lines)]
        self.assertEqual(told[:2], ["write b0:a.low 0x12: done", "readblock b0:ch.pair 2: 0x00000000 0x00000000"])
        self.assertRegex(told[2], "^read b0:slow: BusError: read b0:slow: bus timeout on read .error 6 after 0.. ")
        self.assertRegex(told[3], "^rmwsum b0:count 1: Skipped: rmwsum b0:count: an operation before it in its packet")
        self.raises(BadLine, run_lines, hub, ["write b0:count 1", "dispatch", "write b0:count"])
        hub.close()
        self.assertEqual(serving.end()[0], "connection 1 frames 2 closed")


if __name__ == "__main__":
    unittest.main()
