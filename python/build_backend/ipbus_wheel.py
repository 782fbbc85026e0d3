"""Builds the wheel of the package, for pip: offline, with nothing but the standard library.

A wheel is an archive of the modules and of four files about them. What these say stands in `pyproject.toml`, whose
lines are simple enough for `configparser`, since Python before 3.11 reads no TOML by itself."""

from __future__ import annotations

import ast
import base64
import configparser
import hashlib
import pathlib
import tarfile
import zipfile

FOLDER = pathlib.Path(__file__).resolve().parents[1]
PACKAGE = FOLDER / "ipbus"
# the earliest time that an archive has: the same sources make the same wheel
TIME = (1980, 1, 1, 0, 0, 0)


def _modules() -> list[pathlib.Path]:
    """The files of the package."""
    return sorted(file for file in PACKAGE.rglob("*") if file.is_file() and "__pycache__" not in file.parts)


def _project() -> tuple[dict, dict]:
    """The tables `project` and `project.scripts`."""
    parser = configparser.ConfigParser(interpolation=None)
    parser.optionxform = str
    parser.read(FOLDER / "pyproject.toml", encoding="utf-8")
    project, scripts = (
        {key: ast.literal_eval(value) for key, value in parser[name].items()} for name in ("project", "project.scripts")
    )
    return project, scripts


def _texts(project: dict, scripts: dict) -> dict[str, str]:
    """The files about the package."""
    head = {
        "Metadata-Version": "2.1",
        "Name": project["name"],
        "Version": project["version"],
        "Summary": project["description"],
        "Requires-Python": project["requires-python"],
        "Description-Content-Type": "text/markdown",
    }
    lines = [f"{key}: {value}" for key, value in head.items()]
    lines += [f"Requires-Dist: {each}" for each in project["dependencies"]]
    readme = (FOLDER / project["readme"]).read_text("utf-8")
    commands = "".join(f"{name} = {call}\n" for name, call in scripts.items())
    return {
        "METADATA": "\n".join(lines) + "\n\n" + readme,
        "WHEEL": "Wheel-Version: 1.0\nGenerator: ipbus_wheel\nRoot-Is-Purelib: true\nTag: py3-none-any\n",
        "entry_points.txt": f"[console_scripts]\n{commands}",
    }


def _add(archive: zipfile.ZipFile, record: list[str], name: str, data: bytes) -> None:
    info = zipfile.ZipInfo(name, TIME)
    info.external_attr = 0o644 << 16
    archive.writestr(info, data, zipfile.ZIP_DEFLATED)
    digest = base64.urlsafe_b64encode(hashlib.sha256(data).digest()).rstrip(b"=").decode()
    record.append(f"{name},sha256={digest},{len(data)}")


def _write(folder: str, modules: dict[str, bytes]) -> str:
    """Writes a wheel of these modules. Gives the name of its file."""
    project, scripts = _project()
    stem = f"{project['name']}-{project['version']}"
    record: list[str] = []
    with zipfile.ZipFile(pathlib.Path(folder) / f"{stem}-py3-none-any.whl", "w") as archive:
        for name, data in modules.items():
            _add(archive, record, name, data)
        for name, text in _texts(project, scripts).items():
            _add(archive, record, f"{stem}.dist-info/{name}", text.encode())
        names = "".join(f"{line}\n" for line in [*record, f"{stem}.dist-info/RECORD,,"])
        _add(archive, [], f"{stem}.dist-info/RECORD", names.encode())
    return f"{stem}-py3-none-any.whl"


def build_wheel(wheel_directory: str, config_settings: object = None, metadata_directory: object = None) -> str:
    """The wheel of the package, as pip asks for it."""
    return _write(wheel_directory, {file.relative_to(FOLDER).as_posix(): file.read_bytes() for file in _modules()})


def build_editable(wheel_directory: str, config_settings: object = None, metadata_directory: object = None) -> str:
    """A wheel that leads to the modules where they stand, for `pip install --editable`."""
    return _write(wheel_directory, {"ipbus.pth": f"{FOLDER}\n".encode()})


def build_sdist(sdist_directory: str, config_settings: object = None) -> str:
    """The sources, as pip asks for them."""
    project, _ = _project()
    stem = f"{project['name']}-{project['version']}"
    with tarfile.open(pathlib.Path(sdist_directory) / f"{stem}.tar.gz", "w:gz") as archive:
        about = [FOLDER / "pyproject.toml", FOLDER / project["readme"], pathlib.Path(__file__).resolve()]
        for file in [*about, *_modules()]:
            archive.add(file, f"{stem}/{file.relative_to(FOLDER)}")
    return f"{stem}.tar.gz"
