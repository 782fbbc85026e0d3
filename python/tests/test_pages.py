"""The pages for users do what they show: each command of docs/UHAL.md is run, in their order, but for those that
install the package; and the program by names of docs/SESSIONS.md prints what stands below it."""

import os
import pathlib
import re
import shutil
import subprocess
import sys
import unittest

from support import EXAMPLES, SECONDS, TOP, Case, environment, free_port, program

COMMANDS = ("client", "board", "table", "session", "capture", "timeline")
# commands that go on, of which the first line is shown, and those that are not run here
SERVE = ("ipbus-board ", "../../../bin/ipbus serve ")
LEFT_OUT = ("python3 -m venv ", ". ~/ipbus-env/", "pip install ", "export ")
SHOWN = re.compile(r"^    \$ (.*)\n((?:    (?!\$).*\n)*)", re.MULTILINE)


class Pages(Case):
    def setUp(self):
        super().setUp()
        self.page = (TOP / "docs" / "UHAL.md").read_text()
        shutil.copytree(EXAMPLES / "uhal", self.folder / "examples" / "uhal")
        here = self.folder / "bin"
        here.mkdir()
        for name in COMMANDS:
            self.script(here / f"ipbus-{name}", f'exec "{sys.executable}" -m ipbus.{name} "$@"')
        self.script(here / "ipbus", f'exec "{program()}" "$@"')
        self.environment = environment(PATH=f"{here}{os.pathsep}{os.environ['PATH']}")
        self.where = self.folder / "examples" / "uhal" / "connections"
        self.ports = {"50001": str(free_port()), "5000": str(free_port())}
        for file in self.where.glob("*.xml"):
            file.write_text(self.with_ports(file.read_text()))
        self.environment["IPBUS_HUB"] = f"127.0.0.1:{self.ports['5000']}"

    @staticmethod
    def script(file: pathlib.Path, line: str) -> None:
        file.write_text(f"#!/bin/sh\n{line}\n")
        file.chmod(0o755)

    def with_ports(self, text: str) -> str:
        return re.sub(r"\b50001\b|\b5000\b", lambda found: self.ports[found[0]], text)

    def run_shown(self, command: str) -> str:
        settings = {"cwd": self.where, "env": self.environment, "timeout": SECONDS}
        done = subprocess.run(["bash", "-c", command], capture_output=True, text=True, **settings)
        self.assertEqual((done.returncode, done.stderr), (0, ""), command)
        return done.stdout

    def first_line(self, command: str) -> str:
        settings = {"cwd": self.where, "env": self.environment, "stderr": subprocess.STDOUT}
        return self.start(["bash", "-c", f"exec {command}"], **settings).stdout.readline()

    def test_from_xml_to_a_running_script(self):
        ran = 0
        for command, lines in SHOWN.findall(self.page.partition("\n## Where the script")[0]):
            if command.startswith(("cd ", *LEFT_OUT)):
                continue
            shown = self.with_ports("".join(line[4:] + "\n" for line in lines.splitlines()))
            command = self.with_ports(command)
            given = self.first_line(command) if command.startswith(SERVE) else self.run_shown(command)
            self.assertEqual(given, shown, command)
            ran += 1
        self.assertEqual(ran, 8)

    def test_a_table_alone(self):
        (command,) = re.findall(r"^    \$ (ipbus-table --document .*)", self.page, re.MULTILINE)
        self.where = self.folder / "examples" / "uhal" / "tables"
        text = self.run_shown(command.replace("bin/ipbus", "ipbus"))
        self.assertIn("ctrl.gain 0x00000001 0x000000f0 rw single 1\n", text)

    def test_the_script_is_shown(self):
        shown = (EXAMPLES / "uhal" / "first.py").read_text()
        self.assertIn(f"\n```python\n{shown}```\n", self.page)
        printed = "".join(f"    {line}\n" for line in (EXAMPLES / "uhal" / "first.txt").read_text().splitlines())
        self.assertIn(f"    $ python3 ../first.py\n{printed}", self.page)

    def test_a_program_by_names(self):
        """The one that docs/SESSIONS.md shows, which `examples/check` compares with the page."""
        self.first_line(self.with_ports("ipbus-board --port 50001 --range 0:64:rw:0xabcd"))
        self.run_shown("ipbus-session here.xml > session.toml")
        self.first_line(self.with_ports("../../../bin/ipbus serve 5000 1 < session.toml"))
        text = self.with_ports((EXAMPLES / "guide" / "by_names.py").read_text())
        (self.where / "by_names.py").write_text(text)
        self.assertEqual(self.run_shown("python3 by_names.py"), (EXAMPLES / "guide" / "by_names.txt").read_text())


if __name__ == "__main__":
    unittest.main()
