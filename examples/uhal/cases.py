"""What `table` and `session` make of the XML files of this folder.

`tables/` has address tables with each feature of uHAL's, each beside the tables that it gives; `refused/` files
that cannot be meant, each beside the line that says why; `connections/` two connections files. What is left out stands
in the `.notes` of a file.
"""
import pathlib
import subprocess
import sys
from xml.etree import ElementTree

HERE = pathlib.Path(__file__).resolve().parent
TABLES = sorted(HERE.glob("tables/*.xml"))
REFUSED = sorted(HERE.glob("refused/*.xml"))
CRATE = HERE / "connections" / "crate.xml"
MIXED = HERE / "connections" / "mixed.xml"
# connections that are refused, each with a part of the reason
REFUSED_CONNECTIONS = {
    "no_target": "has no ?target=ADDRESS:PORT of its board",
    "old": "ipbusudp-1.3 is not ipbusudp-2.0 or chtcp-2.0",
    "card": "ipbuspcie-2.0 is not ipbusudp-2.0 or chtcp-2.0",
    "no_port": "is not ipbusudp-2.0://host:port",
    "port_0": "the port 0 is not 1 to 65535",
    "no_table": "a connection has no address_table",
    "lost_table": "connections/lost.xml cannot be read",
    "direct": "the board direct stands there already",
    "none": "no connection has the id none",
}
SECONDS = 60


def run(name, *words):
    """A command of this folder, started here."""
    command = [sys.executable, HERE / name, *words]
    return subprocess.run(command, cwd=HERE, capture_output=True, timeout=SECONDS, text=True)


def beside(file, suffix):
    other = file.with_suffix(suffix)
    return other.read_text() if other.exists() else ""


def names_of(file):
    """The names of all registers of an address table, by another reader of XML."""
    names = []
    for node in ElementTree.parse(file).getroot().findall("node"):
        names += names_below(node, file, node.get("id"))
    return names


def names_below(node, file, path):
    module = node.get("module")
    if module:
        below = names_of(file.parent / module.removeprefix("file://"))
        return [path, *(f"{path}.{name}" for name in below)]
    names = [path]
    for child in node.findall("node"):
        names += names_below(child, file, f"{path}.{child.get('id')}")
    return names


def compare(wanted, given):
    return [f"{what} {given[what]!r}, wanted {wanted[what]!r}" for what in wanted if given[what] != wanted[what]]


def told(done):
    return {"status": done.returncode, "text": done.stdout, "note": done.stderr}


def listing_faults(answer, file, name, document):
    """The program lists the table, with every node of the file and no other register."""
    done = answer(["check", name], document.encode())
    lines = done.stdout.decode().splitlines()
    listed = [line.split()[0] for line in lines if not line.startswith("overlap ")]
    faults = [] if done.returncode == 0 else [f"check {name}: status {done.returncode}, {lines[-1:]}"]
    return faults + ([] if listed == sorted(names_of(file)) else [f"check {name} lists {listed}"])


def uhal_cases(answer):
    """The name of each case and what is wrong in it. `answer` runs the program with words and an input."""
    for file in TABLES:
        done = run("table", f"tables/{file.name}")
        faults = compare({"status": 0, "text": beside(file, ".toml"), "note": beside(file, ".notes")}, told(done))
        document = f'{done.stdout}[[board]]\nname = "b0"\ntable = "{file.stem}"\n'
        yield f"uhal table {file.stem}", faults + listing_faults(answer, file, file.stem, document)
    done = run("table", "tables/dummy.xml", "modules")
    wanted = beside(HERE / "tables" / "dummy.xml", ".toml").replace("tables.dummy", "tables.modules")
    yield "uhal table of another name", compare({"status": 0, "text": wanted, "note": ""}, told(done))
    for file in REFUSED:
        done = run("table", f"refused/{file.name}")
        yield f"uhal refused {file.stem}", compare({"status": 3, "text": "", "note": beside(file, ".err")}, told(done))
    yield from connection_cases(answer)


def connection_cases(answer):
    done = run("session", "connections/crate.xml")
    faults = compare({"status": 0, "text": beside(CRATE, ".toml"), "note": beside(CRATE, ".notes")}, told(done))
    for name in ("modules", "dummy"):
        faults += listing_faults(answer, HERE / "tables" / f"{name}.xml", name, done.stdout)
    yield "uhal session", faults
    done = run("session", "connections/crate.xml", "fe1")
    is_alone = done.returncode == 0 and done.stdout.count("[[board]]") == 1 and 'name = "fe1"' in done.stdout
    yield "uhal session of one connection", [] if is_alone else [done.stdout]
    done = run("session", "connections/mixed.xml", "hub")
    is_its_target = done.returncode == 0 and 'address = "127.0.0.1:50001"' in done.stdout
    yield "uhal session of a control hub", [] if is_its_target else [f"{told(done)}"]
    for name, why in REFUSED_CONNECTIONS.items():
        done = run("session", "connections/mixed.xml", name)
        is_refused = done.returncode == 3 and not done.stdout and why in done.stderr
        yield f"uhal connection {name}", [] if is_refused else [f"{told(done)}"]
