"""Headless Chromium, by its DevTools protocol over a pipe."""
from __future__ import annotations

import base64
import contextlib
import json
import os
import select
import shutil
import subprocess
import tempfile
import time
from typing import Any

_ARGUMENTS = (
    "--headless=new", "--no-sandbox", "--hide-scrollbars", "--remote-debugging-pipe", "--no-first-run",
    "--disable-background-networking", "--disable-component-update", "--disable-extensions",
    "--use-angle=swiftshader", "--enable-unsafe-swiftshader", "about:blank",
)
_KEYS = {
    "Tab": 9, "Enter": 13, "Escape": 27, "Home": 36, "End": 35,
    "ArrowLeft": 37, "ArrowUp": 38, "ArrowRight": 39, "ArrowDown": 40,
}


class Browser:
    """A page in Chromium. What it says on the console, and what it fetches, is kept."""

    def __init__(self, chromium: str) -> None:
        self._folder = tempfile.mkdtemp(prefix="page-")
        to_read, to_write = os.pipe()
        from_read, from_write = os.pipe()
        # Chromium reads its commands from descriptor 3 and writes its answers to 4
        shell = f'exec "$0" "$@" 3<&{to_read} 4>&{from_write}'
        self._process = subprocess.Popen(
            ["bash", "-c", shell, chromium, f"--user-data-dir={self._folder}", *_ARGUMENTS],
            pass_fds=(to_read, from_write), stdout=subprocess.DEVNULL, stderr=subprocess.DEVNULL,
        )
        os.close(to_read)
        os.close(from_write)
        self._to, self._from = to_write, from_read
        self._rest = b""
        self._numbers = 0
        self._session: str | None = None
        self.console: list[str] = []
        self.fetched: list[str] = []
        pages = [it for it in self._ask("Target.getTargets")["targetInfos"] if it["type"] == "page"]
        attached = self._ask("Target.attachToTarget", targetId=pages[0]["targetId"], flatten=True)
        self._session = attached["sessionId"]
        for domain in ("Page", "Runtime", "Network", "Log", "DOM"):
            self._ask(f"{domain}.enable")

    def close(self) -> None:
        """Ends the browser, and removes what it kept."""
        with contextlib.suppress(Exception):
            self._session = None
            self._ask("Browser.close")
        try:
            self._process.wait(10)
        except subprocess.TimeoutExpired:
            self._process.kill()
            self._process.wait()
        os.close(self._to)
        os.close(self._from)
        shutil.rmtree(self._folder, ignore_errors=True)

    def open(self, address: str) -> None:
        """Opens a page, and waits until it has loaded."""
        self._loaded = False
        self._ask("Page.navigate", url=address)
        self._until(lambda: self._loaded, 300, "the page loads")

    def size(self, width: int, height: int, *, dark: bool = False) -> None:
        """Gives the window a size, and a scheme of colours."""
        self._ask("Emulation.setDeviceMetricsOverride", width=width, height=height, deviceScaleFactor=1, mobile=width < 600)
        self._ask("Emulation.setEmulatedMedia", features=[{"name": "prefers-color-scheme", "value": "dark" if dark else "light"}])

    def run(self, script: str) -> Any:
        """The value of an expression of the page; a promise is awaited."""
        answer = self._ask("Runtime.evaluate", expression=script, awaitPromise=True, returnByValue=True, userGesture=True)
        if "exceptionDetails" in answer:
            details = answer["exceptionDetails"]
            raise AssertionError(details.get("exception", {}).get("description") or details["text"])
        return answer["result"].get("value")

    def wait(self, script: str, seconds: float = 300) -> Any:
        """Waits until an expression is true of the page, and returns its value."""
        end = time.monotonic() + seconds
        while True:
            value = self.run(script)
            if value:
                return value
            if time.monotonic() > end:
                raise AssertionError(f"in {seconds} s it did not come to {script}")
            time.sleep(0.03)

    def press(self, key: str, *, shift: bool = False, control: bool = False) -> None:
        """Presses a key, as a person would."""
        modifiers = (8 if shift else 0) + (2 if control else 0)
        more: dict[str, Any] = {"text": key} if len(key) == 1 and not control else {}
        code = _KEYS.get(key) or ord(key.upper())
        event = {"key": key, "windowsVirtualKeyCode": code, "modifiers": modifiers}
        self._ask("Input.dispatchKeyEvent", type="keyDown", **event, **more)
        self._ask("Input.dispatchKeyEvent", type="keyUp", **event)

    def type(self, text: str) -> None:
        """Types a text where the cursor stands."""
        self._ask("Input.insertText", text=text)

    def click(self, selector: str) -> None:
        """Clicks the middle of an element with the mouse."""
        x, y = self.middle(selector)
        for kind in ("mousePressed", "mouseReleased"):
            self.mouse(kind, x, y)

    def middle(self, selector: str) -> tuple[float, float]:
        """The middle of an element, which is scrolled into sight."""
        place = self.run(
            f"(() => {{ const it = document.querySelector({json.dumps(selector)}); it.scrollIntoView({{block: 'nearest'}});"
            " const box = it.getBoundingClientRect(); return [box.x + box.width / 2, box.y + box.height / 2]; })()"
        )
        return place[0], place[1]

    def mouse(self, kind: str, x: float, y: float) -> None:
        """An event of the mouse: mousePressed, mouseMoved or mouseReleased."""
        pressed = kind != "mouseReleased"
        self._ask("Input.dispatchMouseEvent", type=kind, x=x, y=y, button="left", buttons=int(pressed), clickCount=1)

    def choose_file(self, selector: str, path: str) -> None:
        """Chooses a file in a field for files."""
        root = self._ask("DOM.getDocument")["root"]["nodeId"]
        node = self._ask("DOM.querySelector", nodeId=root, selector=selector)["nodeId"]
        self._ask("DOM.setFileInputFiles", nodeId=node, files=[path])

    def save_to(self, folder: str) -> None:
        """Puts what the page saves into a folder."""
        session, self._session = self._session, None
        self._ask("Browser.setDownloadBehavior", behavior="allow", downloadPath=folder)
        self._session = session

    def picture(self, path: str) -> None:
        """Writes a picture of the window as a PNG file."""
        data = self._ask("Page.captureScreenshot", format="png")["data"]
        with open(path, "wb") as file:
            file.write(base64.b64decode(data))

    def tree(self) -> list[tuple[str, str]]:
        """What a screen reader finds: the role and the name of each element."""
        nodes = self._ask("Accessibility.getFullAXTree")["nodes"]
        return [(it.get("role", {}).get("value", ""), it.get("name", {}).get("value", "")) for it in nodes if not it.get("ignored")]

    def _ask(self, method: str, **parameters: Any) -> dict[str, Any]:
        self._numbers += 1
        number = self._numbers
        message: dict[str, Any] = {"id": number, "method": method, "params": parameters}
        if self._session:
            message["sessionId"] = self._session
        left = memoryview(json.dumps(message).encode() + b"\0")
        while left:
            left = left[os.write(self._to, left):]
        answers: list[dict[str, Any]] = []
        self._until(lambda: bool(answers), 600, f"Chromium answers {method}", lambda it: answers.append(it) if it.get("id") == number else None)
        if "error" in answers[0]:
            raise AssertionError(f"{method}: {answers[0]['error']['message']}")
        return answers[0]["result"]

    def _until(self, done: Any, seconds: float, what: str, seen: Any = None) -> None:
        end = time.monotonic() + seconds
        while not done():
            if not select.select([self._from], [], [], max(0.0, end - time.monotonic()))[0]:
                raise AssertionError(f"in {seconds} s it did not come to this: {what}")
            part = os.read(self._from, 1 << 20)
            if not part:
                raise AssertionError("Chromium ended")
            *messages, self._rest = (self._rest + part).split(b"\0")
            for message in map(json.loads, messages):
                self._note(message)
                if seen:
                    seen(message)

    def _note(self, message: dict[str, Any]) -> None:
        method, parameters = message.get("method"), message.get("params", {})
        if method == "Page.loadEventFired":
            self._loaded = True
        elif method == "Runtime.consoleAPICalled":
            self.console.append(" ".join(str(it.get("value", it.get("description"))) for it in parameters["args"]))
        elif method == "Runtime.exceptionThrown":
            details = parameters["exceptionDetails"]
            self.console.append(details.get("exception", {}).get("description") or details["text"])
        elif method == "Log.entryAdded":
            self.console.append(parameters["entry"]["text"])
        elif method == "Network.requestWillBeSent":
            self.fetched.append(parameters["request"]["url"])
