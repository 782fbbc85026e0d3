"""Scripts in the style of the uHAL guide run unchanged, but for their line `import uhal`, over a hub and two boards."""

import os
import pathlib
import subprocess
import sys
import unittest

from support import HOST, SECONDS, TOP, Case, environment

from ipbus import IpbusError, uhal
from ipbus.uhal import manager as manager_module

SCRIPTS = pathlib.Path(__file__).resolve().parent / "uhal_scripts"
NAMES = sorted(file.stem for file in SCRIPTS.glob("*.py"))
IMPORT, OURS = "\nimport uhal\n", "\nimport ipbus.uhal as uhal\n"
REGISTERS = ("--range", "0:16:rw:0xabcd", "--range", "0x100:0x201", "--range", "0x300:0x20")
TABLE = "file://dummy.xml"


class Scripts(Case):
    def setUp(self):
        super().setUp()
        self.ports = [self.start_board(*REGISTERS) for _ in range(2)]
        for file in SCRIPTS.glob("*.xml"):
            text = file.read_text()
            for number, port in enumerate(self.ports, 50_001):
                text = text.replace(f"127.0.0.1:{number}", f"{HOST}:{port}")
            (self.folder / file.name).write_text(text)
        made = self.run_command("session", self.folder / "connections.xml")
        self.assertEqual(made.returncode, 0, made.stderr)
        self.serving = self.serve_text(made.stdout, 16)

    def run_script(self, name: str, *words: str, **more: str) -> subprocess.CompletedProcess:
        text = "\n" + (SCRIPTS / f"{name}.py").read_text()
        self.assertEqual(text.count(IMPORT), 1)
        script = self.write(f"{name}.py", text.replace(IMPORT, OURS))
        settings = {"cwd": self.folder, "env": environment(IPBUS_HUB=self.serving.where, **more)}
        command = [sys.executable, script, *words]
        return subprocess.run(command, capture_output=True, text=True, timeout=SECONDS, **settings)

    def test_ten_scripts(self):
        self.assertEqual(len(NAMES), 10)
        for name in NAMES:
            with self.subTest(name):
                words = [f"ipbusudp-2.0://{HOST}:{self.ports[0]}", TABLE] if name == "without_a_file" else []
                done = self.run_script(name, *words)
                wanted = (SCRIPTS / f"{name}.txt").read_text().replace("50001", str(self.ports[0]))
                self.assertEqual((done.stdout, done.stderr, done.returncode), (wanted, "", 0))

    def test_connections_are_boards_by_address(self):
        """A connection whose id the hub does not have is the board at its address; one at another address is none."""
        file = self.folder / "connections.xml"
        text = file.read_text()
        file.write_text(text.replace('"dummy.udp.0"', '"other"'))
        os.environ["IPBUS_HUB"] = self.serving.where
        self.addCleanup(os.environ.pop, "IPBUS_HUB")
        manager_module._hubs.clear()
        manager = uhal.ConnectionManager(f"file://{file}")
        value = manager.getDevice("other").getNode("ID").read()
        self.assertFalse(value.valid())
        device = manager.getDevice("dummy.controlhub.0")
        device.getNode("REG").write(77)
        value = device.getNode("REG").read()
        device.dispatch()
        self.assertEqual(value, 77)
        file.write_text(text.replace(f"{HOST}:{self.ports[0]}", "10.99.0.1:50001"))
        manager = uhal.ConnectionManager(str(file))
        error = self.raises(uhal.ConnectionUIDDoesNotExist, manager.getDevice, "dummy.udp.0")
        self.assertIn("dummy_udp_0 at", str(error))
        file.write_text(text.replace("ipbusudp-2.0", "ipbuspcie-2.0"))
        manager = uhal.ConnectionManager(str(file))
        self.raises(uhal.ProtocolDoesNotExist, manager.getDevice, "dummy.udp.0")
        for hub in manager_module._hubs.values():
            hub.close()

    def test_without_a_document(self):
        """The document that the hub serves is never guessed."""
        (self.folder / "session.toml").rename(self.folder / "served.toml")
        done = self.run_script("first_read")
        self.assertEqual(done.returncode, 1)
        self.assertIn("ipbus-session connections.xml > session.toml", done.stderr)
        done = self.run_script("first_read", IPBUS_SESSION="served.toml")
        self.assertEqual((done.stdout, done.returncode), ("ID = 0xabcd\n", 0))


class Names(unittest.TestCase):
    def test_what_is_not_there_raises_by_name(self):
        node = uhal.Node.__new__(uhal.Node)
        manager = uhal.ConnectionManager, "clearAddressFileCache"
        for thing, name in ((uhal, "HttpClient"), (uhal, "setLogLevelFrom"), (node, "getAncestor"), manager):
            with self.assertRaises(uhal.NotThere) as caught:
                getattr(thing, name)
            self.assertIn(name, str(caught.exception))
            self.assertIn("docs/UHAL.md", str(caught.exception))
            self.assertFalse(hasattr(thing, name))

    def test_exceptions_are_those_of_the_package(self):
        for name in uhal.__all__:
            thing = getattr(uhal, name)
            if isinstance(thing, type) and issubclass(thing, Exception):
                self.assertTrue(issubclass(thing, IpbusError), name)
                self.assertTrue(issubclass(thing, uhal.exception), name)

    def test_the_page_names_all(self):
        page = (TOP / "docs" / "UHAL.md").read_text()
        missing = [name for name in uhal.__all__ if f"`{name}`" not in page and f"`{name}(" not in page]
        self.assertEqual(missing, [])


if __name__ == "__main__":
    unittest.main()
