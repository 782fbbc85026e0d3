"""The tree of a Debian package: the files below usr/, the units below lib/, and what dpkg is told of it."""
import hashlib
import os
import pathlib
from typing import List

from packaging import facts, layout

POST_INSTALL = """#!/bin/sh
set -e
if [ "$1" = configure ] && [ -d /run/systemd/system ]; then
    systemd-sysusers ipbus.conf
    systemctl daemon-reload
fi
"""


def file_name() -> str:
    """The name of the package's file."""
    return f"ipbus_{facts.version()}_amd64.deb"


def place_of(path: str) -> str:
    """Where a file stands below the root: units below lib/, all else below usr/."""
    return path if path.startswith(("lib/systemd/", "lib/sysusers.d/")) else f"usr/{path}"


def control(size: int) -> str:
    """The control file."""
    return f"""Package: ipbus
Version: {facts.version()}
Architecture: amd64
Maintainer: the ipbus developers <ipbus@localhost>
Installed-Size: {(size + 1023) // 1024}
Depends: libc6 (>= 2.34)
Recommends: python3 (>= 3.9)
Section: science
Priority: optional
Description: control hub for boards that speak IPbus 2.0
 Reads a session document, runs its scripts on boards over UDP or a simulated
 network, or serves clients over TCP. What it prints is proved.
"""


def put(root: pathlib.Path, path: str, content: bytes, mode: int) -> None:
    """Writes a file of the tree."""
    to = root / path
    to.parent.mkdir(parents=True, exist_ok=True)
    to.write_bytes(content)
    os.chmod(to, mode)


def write_tree(root: pathlib.Path, files: List[layout.Placed]) -> None:
    """Writes the tree of the package."""
    os.chmod(root, 0o755)
    sums = []
    for placed in files:
        if placed.path == layout.LIST:
            # dpkg keeps its own list
            continue
        path = place_of(placed.path)
        put(root, path, placed.content, placed.mode)
        sums.append(f"{hashlib.md5(placed.content).hexdigest()}  {path}\n")
    put(root, "DEBIAN/control", control(sum(len(placed.content) for placed in files)).encode(), 0o644)
    put(root, "DEBIAN/md5sums", "".join(sums).encode(), 0o644)
    put(root, "DEBIAN/postinst", POST_INSTALL.encode(), 0o755)
