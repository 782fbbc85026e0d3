"""The page for the shift in headless Chromium, where there is one with its chromedriver: what a person sees and does.

With IPBUS_PICTURES=FOLDER each case leaves a picture there."""

from __future__ import annotations

import os
import pathlib
import threading
import time
import unittest

import browser
import support
from test_page import PageCase

IS_THERE = browser.CHROMIUM is not None and browser.DRIVER is not None


@unittest.skipUnless(IS_THERE, "there is no chromium with a chromedriver here")
class Looking(PageCase):
    """One window over a hub of three boards."""

    def look(self, *words: str, width: int = 1024, height: int = 768, dark: bool = False) -> browser.Browser:
        """A window on a page that was started with these words."""
        self.begin(*words)
        window = browser.Browser(width, height, dark)
        self.addCleanup(window.close)
        window.open(self.address)
        window.await_true("return document.querySelectorAll('#lamps li').length == 3")
        return window

    def picture(self, window: browser.Browser, name: str) -> None:
        folder = pathlib.Path(os.environ.get("IPBUS_PICTURES") or self.folder)
        window.picture(folder / f"page_{name}.png")
        self.assertGreater((folder / f"page_{name}.png").stat().st_size, 10_000)

    def search(self, window: browser.Browser, text: str) -> list[str]:
        """The names that a search shows."""
        window.run("const box = document.getElementById('search'); box.value = arguments[0]; box.dispatchEvent(new Event('input'))", text)
        return window.run("return [...document.querySelectorAll('#tree .register code')].map((name) => name.textContent)")

    def text(self, window: browser.Browser, selector: str) -> str:
        return window.run("return document.querySelector(arguments[0]).textContent", selector)

    def count_up(self) -> None:
        """A counter of b0 and b1 that goes up and down, by another client of the hub."""
        hub = self.hub(self.serving)
        ended = threading.Event()

        def run() -> None:
            for step in range(10_000):
                if ended.wait(0.1):
                    return
                hub.node("b0:count").write(40 + (step * 7) % 60)
                hub.node("b1:count").write(20 + step % 50)
                hub.dispatch()

        thread = threading.Thread(target=run)
        thread.start()
        self.addCleanup(thread.join)
        self.addCleanup(ended.set)

    def test_search_and_folds(self) -> None:
        window = self.look()
        self.assertEqual(self.search(window, "a.low"), ["b0:a.low", "b1:a.low", "b2:a.low"])
        self.assertEqual(self.search(window, "b1 CH pair"), ["b1:ch.pair"])
        self.assertEqual(self.text(window, "#count"), "1 found")
        self.picture(window, "search")
        self.assertEqual(self.search(window, ""), [])
        window.click("#tree summary")
        window.await_true("return document.querySelectorAll('#tree .register').length > 3")
        self.assertEqual(window.run("return [...document.querySelectorAll('#tree button, .card button')].filter((it) => it.textContent == 'Write').length"), 0)

    def test_values_with_their_fields(self) -> None:
        window = self.look("--write")
        self.assertEqual(self.ask("api/write", {"path": "b0:a", "words": [0x8000002A]})[1], {"done": True})
        self.search(window, "b0:a")
        window.click('button[aria-label="Read b0:a"]')
        window.await_true("return document.querySelector('.card .number')")
        card = self.text(window, ".card")
        for shown in ("0x8000002a", "2147483690", "1000 0000", "low42 (0x2a)", "top1 (0x1)"):
            self.assertIn(shown, card)

    def test_watched_registers_are_curves(self) -> None:
        window = self.look()
        self.count_up()
        self.search(window, "count")
        for board in ("b0", "b1", "b2"):
            window.click(f'button[aria-label="Watch {board}:count"]')
        window.await_true("return document.querySelectorAll('#legend li').length == 3")
        time.sleep(float(os.environ.get("IPBUS_PICTURES_AFTER", 3)))
        window.await_true("return document.querySelector('.card p.wrong')?.textContent.includes('silent')")
        self.assertEqual(window.run("return [...document.querySelectorAll('#lamps li')].map((lamp) => lamp.dataset.kind)"), ["good", "good", "bad"])
        self.picture(window, "watch")

    def test_a_block_is_a_table_and_a_plot(self) -> None:
        window = self.look("--write")
        self.ask("api/write", {"path": "b0:mem", "words": [(n * n) % 97 for n in range(600)]})
        self.search(window, "b0:mem")
        window.click('button[aria-label="Read b0:mem"]')
        window.await_true("return document.querySelectorAll('.words tr').length == 600")
        self.picture(window, "block")

    def test_a_write_has_a_question(self) -> None:
        window = self.look("--write")
        self.search(window, "b0:a.low")
        window.click('button[aria-label="Write b0:a.low"]')
        window.await_true("return document.getElementById('writing').open")
        self.assertIn("0 to 255", self.text(window, "#writing-range"))
        self.assertIn("Now 0x00000000", self.text(window, "#writing-now"))
        window.type("#writing-value", "300")
        window.click("#writing-go")
        self.assertIn("does not fit", self.text(window, "#writing-wrong"))
        self.picture(window, "write")
        window.run("document.getElementById('writing-value').value = ''")
        window.type("#writing-value", "0x2a")
        window.click("#writing-go")
        window.await_true("return document.getElementById('log').textContent.includes('write b0:a.low 0x2a: done')")
        self.assertEqual(self.sample("b0:a")[1], 0x2A)

    def test_a_cancelled_write_sends_nothing(self) -> None:
        window = self.look("--write")
        self.search(window, "b0:a.low")
        window.click('button[aria-label="Write b0:a.low"]')
        window.await_true("return document.getElementById('writing').open")
        window.type("#writing-value", "7")
        window.click("#writing-cancel")
        window.await_true("return !document.getElementById('writing').open")
        self.assertEqual(self.sample("b0:a")[1], 0)

    def test_a_lost_server_is_told_within_two_seconds(self) -> None:
        window = self.look()
        self.search(window, "b0:count")
        window.click('button[aria-label="Watch b0:count"]')
        window.await_true("return document.querySelector('.card .number')")
        self.process.kill()
        window.await_true("return !document.getElementById('lost').hidden && document.body.classList.contains('old')", 2.5)
        self.picture(window, "lost")

    def test_a_window_that_slept_watches_on(self) -> None:
        """The server forgets a window that says nothing for ten seconds. The window tells its watches again."""
        window = self.look()
        self.search(window, "b0:count")
        window.click('button[aria-label="Watch b0:count"]')
        window.await_true("return document.querySelector('.card .number')")
        window.run("const end = Date.now() + 12000; while (Date.now() < end);")
        hub = self.hub(self.serving)
        hub.node("b0:count").write(77)
        hub.dispatch()
        window.await_true("return document.querySelector('.card .number').textContent.includes('77')")

    def test_a_phone_in_the_dark(self) -> None:
        window = self.look(width=500, height=900, dark=True)
        self.search(window, "b0:id")
        window.click('button[aria-label="Watch b0:id"]')
        window.await_true("return document.querySelector('.card .number')")
        self.assertLessEqual(window.run("return document.documentElement.scrollWidth - document.documentElement.clientWidth"), 0)
        self.picture(window, "phone")

    def test_texts_of_documents_are_never_markup(self) -> None:
        self.document = support.DOCUMENT.replace("how many", "<img src=x onerror=document.title='caught'><b>many</b>")
        window = self.look()
        self.search(window, "count")
        self.assertIn("<img", window.run("return document.querySelector('#tree .register').title"))
        self.assertEqual(window.run("return document.querySelectorAll('#tree img, #tree b').length"), 0)
        self.assertEqual(window.run("return document.title"), "session.toml, read-only")

    def test_it_works_by_keyboard_alone(self) -> None:
        window = self.look("--write")
        self.search(window, "b0:a.low")
        window.run("document.querySelector('button[aria-label=\"Write b0:a.low\"]').focus()")
        window.keys("\ue007")
        window.await_true("return document.getElementById('writing').open && document.activeElement.id == 'writing-value'")
        window.keys("9\ue007")
        window.await_true("return document.getElementById('log').textContent.includes('write b0:a.low 0x9: done')")


if __name__ == "__main__":
    support.unittest.main()
