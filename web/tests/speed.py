"""How long the page's runs take beside those of the native program, and how often it redraws while a slider is dragged."""
from __future__ import annotations

import json
import os
import subprocess
import time

from tests.browser import Browser
from tests.support import IDLE, address, bytes_in_page, example, native

ENDS = "x0=-32 x1=32 y0=-22 y1=22 z0=-1 z1=21"
TIMES = 20
SECONDS = 4

RUNS = (
    ("shade of the enclosure", "enclosure.solid", f"shade {ENDS} w=480 h=330"),
    ("mesh of the enclosure, cells of 0.5", "enclosure.solid", f"mesh {ENDS} nx=128 ny=88 nz=44"),
    ("mesh of the bracket, n=128", "bracket.vm", "mesh n=128"),
    ("redraw of the enclosure at half size", "enclosure.solid", f"shade {ENDS} w=240 h=165"),
)

# Moves a slider once a frame, and answers how often the page has drawn, a second. What was drawn before, which is larger,
# is waited for.
DRAG = """
(async () => {
  for (let frame = 0; frame < 3; frame++) await new Promise(requestAnimationFrame);
  const slider = document.getElementById('slider-3');
  let drawn = 0;
  new MutationObserver(() => { drawn += 1; }).observe(document.getElementById('status'), { childList: true });
  const began = performance.now();
  const [low, high] = [0.8 * slider.value, 1.0 * slider.value];
  for (let step = 0; performance.now() - began < SECONDS * 1000; step++) {
    slider.value = low + (high - low) * (step % 50) / 50;
    slider.dispatchEvent(new Event('input'));
    await new Promise(requestAnimationFrame);
  }
  return drawn / SECONDS;
})()"""


def table() -> str:
    """The times as a table in Markdown."""
    browser = Browser("chromium")
    try:
        browser.size(1280, 800)
        browser.open(address() + "#enclosure.solid")
        browser.wait(IDLE)
        rows = [row(browser, *it) for it in RUNS]
        redraws = [f"Redraws a second while a slider of the enclosure is dragged: {dragged(browser, it)}" for it in ("shade", "mesh")]
    finally:
        browser.close()
    head = ["| Run | Native | Page | Times as long |", "|---|---|---|---|"]
    return "\n".join([*head, *rows, "", *redraws])


def row(browser: Browser, title: str, name: str, words: str) -> str:
    """A run of the native program and of the page, in milliseconds, each the least of several."""
    text = example(name).encode()
    data = native("solid", text)[1] if name.endswith(".solid") else text
    there = min(native_time(words, data) for _ in range(TIMES))
    script = f"modeller.run({json.dumps(words.split())}, {bytes_in_page(data)}).then((it) => it.milliseconds)"
    browser.run(script)  # the first one is compiled while it runs
    here = min(browser.run(script) for _ in range(TIMES))
    return f"| {title} | {there:.0f} ms | {here:.0f} ms | {here / there:.2f} |"


def native_time(words: str, data: bytes) -> float:
    """The milliseconds of a run of the native program."""
    began = time.perf_counter()
    subprocess.run([os.environ["MODELLER"], *words.split()], input=data, stdout=subprocess.PIPE, check=True)
    return 1000 * (time.perf_counter() - began)


def dragged(browser: Browser, view: str) -> str:
    """How often the page draws a view, a second, while a slider is dragged."""
    browser.click(f"#tab-{view}")
    browser.wait(IDLE)
    return f"{browser.run(DRAG.replace('SECONDS', str(SECONDS))):.0f} ({view})"
