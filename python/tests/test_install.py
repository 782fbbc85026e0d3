"""The package by itself: installed, copied beside modules of common names, and under each Python from 3.9 on that is
here."""

import ast
import os
import pathlib
import shutil
import subprocess
import sys
import unittest

from support import PYTHON, SECONDS, Case, environment

VERSIONS = ("3.9", "3.10", "3.11", "3.12", "3.13")
COMMANDS = ("client", "board", "table", "session", "capture", "timeline", "page")
PROGRAM = """
import sys
from ipbus import Hub
import ipbus.uhal
hub = Hub(sys.argv[1], "127.0.0.1", int(sys.argv[2]))
value = hub.node("b0:id").read()
hub.dispatch()
print(value + 1, value == 0xABCD, value & 0xFF)
"""


def interpreters() -> dict[str, str]:
    """The interpreters of these versions that are here, by their versions: on the path, and those of pyenv."""
    root = pathlib.Path(os.environ.get("PYENV_ROOT", pathlib.Path.home() / ".pyenv")) / "versions"
    found = {}
    for version in VERSIONS:
        places = [str(path) for path in sorted(root.glob(f"{version}.*/bin/python3"))]
        by_path = shutil.which(f"python{version}")
        for place in [*places, by_path]:
            told = place and subprocess.run([place, "-c", "import sys; print(*sys.version_info[:2], sep='.')"], **TEXT)
            if told and told.stdout.strip() == version:
                found[version] = place
    return found


TEXT = {"capture_output": True, "text": True, "timeout": SECONDS}


class Installed(Case):
    def pip(self, *words: str) -> None:
        copy = self.folder / "source"
        if not copy.exists():
            leave_out = shutil.ignore_patterns("build", "*.egg-info", "__pycache__", "tests")
            shutil.copytree(PYTHON, copy, ignore=leave_out)
        offline = ["--no-build-isolation", "--no-index", "--no-deps", "--disable-pip-version-check", "--quiet"]
        done = subprocess.run([sys.executable, "-m", "pip", "install", *offline, *words, copy], **TEXT)
        self.assertEqual(done.returncode, 0, done.stderr)

    def test_pip_install(self):
        """`pip install ./python` works offline, and each command answers."""
        place = self.folder / "place"
        self.pip("--target", str(place))
        clean = {key: value for key, value in os.environ.items() if key != "PYTHONPATH"}
        serving = self.serve(count=2)
        words = [sys.executable, "-c", PROGRAM, serving.file, str(serving.port)]
        done = subprocess.run(words, cwd=self.folder, env={**clean, "PYTHONPATH": str(place)}, **TEXT)
        self.assertEqual((done.stdout, done.stderr), ("43982 True 205\n", ""))
        for command in COMMANDS:
            words = [place / "bin" / f"ipbus-{command}", "--help"]
            done = subprocess.run(words, cwd=self.folder, env={**clean, "PYTHONPATH": str(place)}, **TEXT)
            self.assertEqual((done.returncode, done.stderr), (0, ""))
            self.assertIn(f"usage: ipbus-{command} ", done.stdout)
        # what the page shows is no module, and comes along all the same
        shown = sorted(file.name for file in (PYTHON / "ipbus" / "page" / "static").iterdir())
        self.assertEqual(sorted(file.name for file in (place / "ipbus" / "page" / "static").iterdir()), shown)

    def test_modules_answer(self):
        for command in COMMANDS:
            done = self.run_command(command, "--help")
            self.assertEqual((done.returncode, done.stderr), (0, ""))
            self.assertIn(f"usage: ipbus-{command} ", done.stdout)

    def test_beside_modules_of_common_names(self):
        """The folder `ipbus` alone is all that is needed, and a user's own modules stay his."""
        shutil.copytree(PYTHON / "ipbus", self.folder / "ipbus", ignore=shutil.ignore_patterns("__pycache__"))
        names = [path.stem for path in PYTHON.glob("ipbus/*.py") if path.stem != "__init__"]
        for name in ("model", "net", *names):
            self.write(f"{name}.py", f'raise SystemExit("{name} of the user was taken")\n')
        serving = self.serve(count=1)
        clean = {key: value for key, value in os.environ.items() if key != "PYTHONPATH"}
        words = [sys.executable, "-B", "-c", PROGRAM, serving.file, str(serving.port)]
        done = subprocess.run(words, cwd=self.folder, env=clean, **TEXT)
        self.assertEqual((done.stdout, done.stderr), ("43982 True 205\n", ""))


class Versions(Case):
    def tomli(self) -> str:
        """A folder with `tomli`, as Python before 3.11 needs it: the one that pip has in itself."""
        self.write("tomli.py", "from pip._vendor.tomli import *\nfrom pip._vendor.tomli import TOMLDecodeError\n")
        return str(self.folder)

    def test_each_python(self):
        found = interpreters()
        self.assertIn("{}.{}".format(*sys.version_info), found)
        serving = self.serve(count=len(found))
        for version, python in found.items():
            with self.subTest(version):
                path = os.pathsep.join([str(PYTHON), self.tomli()])
                words = [python, "-B", "-W", "error", "-c", PROGRAM, serving.file, str(serving.port)]
                done = subprocess.run(words, env={**environment(), "PYTHONPATH": path}, **TEXT)
                self.assertEqual((done.stdout, done.stderr), ("43982 True 205\n", ""))

    def test_old_python_without_tomli(self):
        """What is missing is told with what to do."""
        old = [python for version, python in interpreters().items() if version in ("3.9", "3.10")]
        if not old:
            self.skipTest("no Python before 3.11 is here")
        words = [old[0], "-B", "-S", "-c", PROGRAM, self.write("session.toml", "rounds = 1"), "1"]
        done = subprocess.run(words, env={**environment(), "PYTHONPATH": str(PYTHON)}, **TEXT)
        self.assertIn("reads no TOML by itself: `pip install tomli` adds that", done.stderr)

    def test_syntax_of_the_first_version(self):
        files = sorted(PYTHON.rglob("*.py"))
        self.assertGreater(len(files), 40)
        for file in files:
            ast.parse(file.read_text(), str(file), feature_version=(3, 9))

    def test_nothing_but_the_standard_library(self):
        """The package imports itself and the standard library, and nothing of the tests."""
        own = {"ipbus", "tomli"}
        for file in sorted((PYTHON / "ipbus").rglob("*.py")):
            for node in ast.walk(ast.parse(file.read_text())):
                names = [each.name for each in node.names] if isinstance(node, ast.Import) else []
                names += [node.module or ""] if isinstance(node, ast.ImportFrom) else []
                for name in names:
                    top = name.split(".")[0]
                    self.assertTrue(top in own or top in sys.stdlib_module_names, f"{file.name} imports {name}")

    def test_modules_are_short(self):
        for file in sorted((PYTHON / "ipbus").rglob("*.py")):
            self.assertLess(len(file.read_text().splitlines()), 300, file.name)


if __name__ == "__main__":
    unittest.main()
