"""What the tests of the page share: the page in a browser, the native program, and the examples."""
from __future__ import annotations

import base64
import json
import os
import pathlib
import re
import subprocess
import tempfile
import unittest

from tests.browser import Browser

TOP = pathlib.Path(__file__).resolve().parents[2]
IDLE = "document.getElementById('stage').getAttribute('aria-busy') === 'false'"


def example(name: str) -> str:
    """The text of an example."""
    return (TOP / "examples" / name).read_text(encoding="utf-8")


def native(words: str, data: bytes) -> tuple[int, bytes, str]:
    """The status, the output and the note of the native program."""
    ran = subprocess.run([os.environ["MODELLER"], *words.split()], input=data, capture_output=True)
    return ran.returncode, ran.stdout, ran.stderr.decode()


def bytes_in_page(data: bytes) -> str:
    """An expression of the page that has these bytes as its value."""
    return f"Uint8Array.from(atob('{base64.b64encode(data).decode()}'), (it) => it.charCodeAt(0))"


def address() -> str:
    """Where the page is: a file, unless PAGE names a server."""
    page = os.environ["PAGE"]
    return page if "://" in page else pathlib.Path(page).resolve().as_uri()


class PageTest(unittest.TestCase):
    """Tests on one page. At the end of each, nothing stands on the console, and nothing was fetched but the page.

    The page begins with the example `first`, or with its own where that is empty.
    """

    browser: Browser
    first = "disc.vm"
    loads = 0

    @classmethod
    def setUpClass(cls) -> None:
        cls.folder = tempfile.TemporaryDirectory()
        cls.browser = Browser("chromium")
        cls.browser.save_to(cls.folder.name)

    @classmethod
    def tearDownClass(cls) -> None:
        cls.browser.close()
        cls.folder.cleanup()

    def setUp(self) -> None:
        self.browser.size(1280, 800)
        self.begin(self.first)

    def tearDown(self) -> None:
        self.assertEqual(self.browser.console, [])
        others = {re.split("[?#]", it)[0] for it in self.browser.fetched if not it.startswith(("data:", "blob:"))}
        self.assertEqual(others - {address()}, set())

    def begin(self, name: str) -> None:
        """Opens the page anew, with an example."""
        PageTest.loads += 1  # what is asked for differs, since another fragment of one page would not load it again
        self.browser.open(f"{address()}?{PageTest.loads}#{name}")
        self.idle()

    def idle(self, seconds: float = 300) -> None:
        """Waits until nothing runs."""
        self.browser.wait(IDLE, seconds)

    def value(self, name: str) -> str:
        """The value of a field."""
        return self.browser.run(f"document.getElementById({json.dumps(name)}).value")

    def said(self, name: str) -> str:
        """The text of an element."""
        return self.browser.run(f"document.getElementById({json.dumps(name)}).textContent")

    def choose(self, name: str) -> None:
        """Chooses an example in the list."""
        self.put("examples", name)

    def put(self, name: str, value: str) -> None:
        """Puts a value into a field, as one who types it and goes on."""
        self.browser.run(
            f"(() => {{ const it = document.getElementById({json.dumps(name)}); it.value = {json.dumps(value)};"
            " it.dispatchEvent(new Event('change')); })()"
        )
        self.idle()

    def write(self, text: str) -> None:
        """Writes a text in place of what stands in the editor."""
        self.browser.run("(() => { const it = document.getElementById('area'); it.focus(); it.select(); })()")
        if text:
            self.browser.type(text)
        else:
            self.browser.run("document.execCommand('delete')")
        self.idle()

    def look(self, view: str) -> None:
        """Clicks on the tab of a view."""
        self.browser.click(f"#tab-{view}")
        self.idle()

    def page_run(self, words: str, data: bytes, more: str = "{}") -> tuple[int, bytes, str]:
        """The status, the output and the note of a run of the page's module."""
        answer = self.browser.run(
            f"modeller.run({json.dumps(words.split())}, {bytes_in_page(data)}, {more})"
            ".then(({ status, output, note, died }) => { if (died) throw new Error(died); let text = '';"
            " for (let at = 0; at < output.length; at += 32768) text += String.fromCharCode(...output.subarray(at, at + 32768));"
            " return { status, note, output: btoa(text) }; })"
        )
        return answer["status"], base64.b64decode(answer["output"]), answer["note"]

    def saved(self, kind: str, name: str) -> bytes:
        """What the page saves by one of its buttons."""
        path = pathlib.Path(self.folder.name, name)
        self.browser.click("#saving summary")
        self.browser.click(f"#save [data-save={kind}]")
        self.idle()
        self.browser.run("new Promise((done) => setTimeout(done, 100))")
        for _ in range(100):
            if path.exists() and not list(path.parent.glob("*.crdownload")):
                break
            self.browser.run("new Promise((done) => setTimeout(done, 50))")
        data = path.read_bytes()
        path.unlink()
        return data
