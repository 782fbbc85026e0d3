"""A headless Chromium, driven by chromedriver over HTTP, for tests of the page. Nothing but the standard library."""

from __future__ import annotations

import base64
import json
import pathlib
import shutil
import subprocess
import time
import urllib.request
from typing import Any

CHROMIUM = shutil.which("chromium") or shutil.which("chromium-browser")
DRIVER = shutil.which("chromedriver")
ELEMENT = "element-6066-11e4-a52e-4f735466cecf"
OPTIONS = ["--headless=new", "--no-sandbox", "--disable-gpu", "--disable-dev-shm-usage", "--hide-scrollbars"]


class Browser:
    """One window of Chromium. `width` and `height` are in pixels."""

    def __init__(self, width: int = 1024, height: int = 768, dark: bool = False) -> None:
        self._driver = subprocess.Popen([DRIVER, "--port=0"], stdout=subprocess.PIPE, stderr=subprocess.DEVNULL, text=True)
        port = next(line.split()[-1].rstrip(".") for line in self._driver.stdout if "on port" in line and "successfully" in line)
        self._base = f"http://127.0.0.1:{port}/session"
        words = [*OPTIONS, f"--window-size={width},{height}", *(["--force-dark-mode", "--blink-settings=preferredColorScheme=0"] if dark else [])]
        asked = {"capabilities": {"alwaysMatch": {"goog:chromeOptions": {"binary": CHROMIUM, "args": words}}}}
        self._base += "/" + self._call("", asked)["sessionId"]

    def _call(self, path: str, given: Any = None, method: str = "POST") -> Any:
        body = None if method != "POST" else json.dumps(given or {}).encode()
        request = urllib.request.Request(self._base + path, body, {"Content-Type": "application/json"}, method=method)
        with urllib.request.urlopen(request, timeout=60) as answer:
            return json.load(answer)["value"]

    def open(self, address: str) -> None:
        """Opens an address."""
        self._call("/url", {"url": address})

    def run(self, script: str, *words: object) -> Any:
        """What a script in the page returns."""
        return self._call("/execute/sync", {"script": script, "args": list(words)})

    def type(self, selector: str, text: str) -> None:
        """Types into the first element of a selector."""
        found = self._call("/element", {"using": "css selector", "value": selector})[ELEMENT]
        self._call(f"/element/{found}/value", {"text": text})

    def click(self, selector: str) -> None:
        """Clicks on the first element of a selector."""
        found = self._call("/element", {"using": "css selector", "value": selector})[ELEMENT]
        self._call(f"/element/{found}/click")

    def keys(self, text: str) -> None:
        """Presses keys, wherever the window has its focus; U+E007 is Enter."""
        pressed = [{"type": kind, "value": key} for key in text for kind in ("keyDown", "keyUp")]
        self._call("/actions", {"actions": [{"type": "key", "id": "keyboard", "actions": pressed}]})

    def await_true(self, script: str, seconds: float = 10) -> None:
        """Waits until a script returns something true. `AssertionError` after so many seconds."""
        ends = time.monotonic() + seconds
        while not self.run(script):
            if time.monotonic() > ends:
                raise AssertionError(f"{script} was not true within {seconds} s")
            time.sleep(0.05)

    def picture(self, file: pathlib.Path) -> None:
        """A picture of the window, as a PNG."""
        file.parent.mkdir(parents=True, exist_ok=True)
        file.write_bytes(base64.b64decode(self._call("/screenshot", method="GET")))

    def close(self) -> None:
        """Ends the browser."""
        self._call("", method="DELETE")
        self._driver.terminate()
        self._driver.communicate()
