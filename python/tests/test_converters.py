"""What `ipbus-table` and `ipbus-session` make of files of uHAL. The files of `examples/uhal` are tried by
`examples/check`; these are the cases that hurt users."""

import re
import subprocess
import unittest

from support import SECONDS, Case, environment, program

TABLE = '<node>\n  <node id="id" address="0x0" permission="r"/>\n  <node id="a" address="0x1"/>\n</node>\n'


class Tables(Case):
    def test_a_table_alone_is_listed(self):
        """`check` takes what --document prints, and lists the table."""
        file = self.write("front_end.xml", TABLE)
        document = self.run_command("table", "--document", file).stdout
        done = subprocess.run(
            [program(), "check", "front_end"], input=document, capture_output=True, text=True, timeout=SECONDS
        )
        listed = ["a 0x00000001 0xffffffff rw single 1", "id 0x00000000 0xffffffff r single 1"]
        self.assertEqual((done.returncode, done.stdout.splitlines()), (0, listed))
        alone = self.run_command("table", file).stdout
        self.assertTrue(document.startswith(alone) and "[[board]]" not in alone)

    def test_environment_variables_in_paths(self):
        """As in uHAL `~` and `${NAME}` are replaced in the path of a module."""
        self.write("inner.xml", TABLE)
        for path in ("${IPBUS_TABLES}/inner.xml", "~/inner.xml"):
            file = self.write("outer.xml", f'<node><node id="m" module="file://{path}"/></node>\n')
            there = {"IPBUS_TABLES": str(self.folder), "HOME": str(self.folder)}
            done = self.run_command("table", file, env=environment(**there))
            self.assertEqual((done.returncode, done.stderr), (0, ""), path)
            self.assertIn("[[tables.inner]]", done.stdout)

    def test_many_parameters_are_one_line(self):
        modules = "".join(
            f'  <node id="m{number}" address="{number}" class="C" parameters="n={number}" fwinfo="endpoint;width=0"/>\n'
            for number in range(500)
        )
        done = self.run_command("table", self.write("many.xml", f"<node>\n{modules}</node>\n"))
        self.assertEqual(done.returncode, 0)
        (line,) = done.stderr.splitlines()
        told = "many.xml:2: left out here and below: fwinfo of 500, class of 500, parameters of 500 nodes"
        self.assertTrue(line.endswith(told), line)
        self.assertEqual(done.stdout.count("[[tables.many]]"), 500)

    def test_what_is_refused(self):
        for text, told in (("<node><node/></node>", ":1: a node has no id"), ("<node>", ":1: no XML")):
            done = self.run_command("table", self.write("bad.xml", text))
            self.assertEqual((done.returncode, done.stdout), (3, ""))
            self.assertIn(told, done.stderr)
        done = self.run_command("table", self.folder / "none.xml")
        self.assertEqual((done.returncode, done.stdout), (3, ""))
        self.assertIn("No such file", done.stderr)


class Sessions(Case):
    def session(self, *uris: str, words: tuple = ()):
        self.write("table.xml", TABLE)
        lines = "".join(
            f'  <connection id="c{number}" uri="{uri}" address_table="file://table.xml"/>\n'
            for number, uri in enumerate(uris)
        )
        file = self.write("connections.xml", f"<connections>\n{lines}</connections>\n")
        return self.run_command("session", *words[:1], file, *words[1:])

    def addresses(self, text: str) -> list:
        return re.findall('name = "(.*)"\ntable = "table"\nlink = "udp"\naddress = "(.*)"\n', text)

    def test_targets_of_a_control_hub(self):
        """The target is the board; the control hub is left out, with a line."""
        done = self.session("chtcp-2.0://hub.local:10203?target=10.0.0.1:50001", "ipbusudp-2.0://10.0.0.2:50001")
        self.assertEqual(done.returncode, 0)
        self.assertEqual(self.addresses(done.stdout), [("c0", "10.0.0.1:50001"), ("c1", "10.0.0.2:50001")])
        self.assertRegex(done.stderr, "^.*connections.xml:2: the control hub hub.local:10203 of c0 is left out\n$")
        for rest in (":10203", ":10203?target=10.0.0.1", "?target=10.0.0.1:1"):
            done = self.session(f"chtcp-2.0://hub{rest}")
            self.assertEqual((done.returncode, done.stdout), (3, ""))
            self.assertRegex(done.stderr, "connection c0: .*target")

    def test_two_connections_with_one_target(self):
        """They are refused by their names, or the first is taken where --first asks for that."""
        first, other = (f"ipbusudp-2.0://10.0.0.{number}" for number in (1, 3))
        uris = f"{first}:50001", "chtcp-2.0://hub:10203?target=10.0.0.1:50001", f"{other}:1"
        done = self.session(*uris)
        self.assertEqual((done.returncode, done.stdout), (3, ""))
        told = "refused: .*:3: the connection c1 leads to 10.0.0.1:50001, as c0 does, .* say --first"
        self.assertRegex(done.stderr, told)
        done = self.session(*uris, words=("--first",))
        self.assertEqual(done.returncode, 0)
        self.assertEqual(self.addresses(done.stdout), [("c0", "10.0.0.1:50001"), ("c2", "10.0.0.3:1")])
        self.assertRegex(done.stderr, ":3: the connection c1 leads to 10.0.0.1:50001, as c0 does: it is left out")
        done = self.session(*uris, words=("--first", "c1"))
        self.assertEqual(self.addresses(done.stdout), [("c1", "10.0.0.1:50001")])


if __name__ == "__main__":
    unittest.main()
