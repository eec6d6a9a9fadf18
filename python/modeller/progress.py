"""One line on a terminal that says what takes so long."""
from __future__ import annotations

import shutil
import sys
import time

SILENT_SECONDS = 1.0


class Progress:
    """A line on standard error, from the first second on and only where that is a terminal.

    Used by `with`; the line is gone at its end, so that nothing of it stands among a script's own output.
    """

    def __init__(self, doing: str) -> None:
        self.doing = doing
        self.begun = time.monotonic()
        self.width = 0

    def __enter__(self) -> "Progress":
        return self

    def __exit__(self, *_: object) -> None:
        self._show("")

    def tick(self, more: str = "") -> None:
        """Writes the line anew, with the seconds since the beginning and what the caller knows besides."""
        seconds = time.monotonic() - self.begun
        if seconds >= SILENT_SECONDS:
            self._show(f"modeller: {self.doing}, {seconds:.0f} s{', ' + more if more else ''}")

    def _show(self, text: str) -> None:
        if not (text or self.width) or sys.stderr is None or not sys.stderr.isatty():
            return
        text = text[: shutil.get_terminal_size().columns - 1]  # a longer one would begin a line that no return clears
        padding = " " * (self.width - len(text))
        sys.stderr.write(f"\r{text}{padding}" + ("" if text else "\r"))
        sys.stderr.flush()
        self.width = len(text)
