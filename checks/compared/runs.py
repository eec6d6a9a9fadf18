"""Runs of this program and of others: what each is asked for, how long it takes, and how much memory."""
from __future__ import annotations

import math
import os
import pathlib
import subprocess
from dataclasses import dataclass, field

LONG = 30  # seconds of processor time: what takes longer runs once
PACKAGES = {  # what has to be installed; the version is that of the first one
    "OpenSCAD": ("openscad",), "scikit-image": ("python3-skimage",), "VTK": ("python3-vtk9",),
    "numpy": ("python3-numpy",), "POV-Ray": ("povray",), "CGAL": ("libcgal-dev", "g++"),
    "PrusaSlicer": ("prusa-slicer",),
}


@dataclass
class Run:
    """A command that draws something into a file, and the least that it took."""

    what: str  # the name of what is drawn
    by: str  # the program
    how: str  # by cells or sides of which length or number
    fine: int  # runs of as fine ones are compared with each other
    command: list[str]
    out: pathlib.Path
    source: pathlib.Path | None = None  # its standard input; then it writes to standard output
    seconds: float = math.inf  # of the processor
    memory: int = 0  # bytes that it held at once
    found: dict[str, object] = field(default_factory=dict)  # what was measured of its output

    def is_rival(self, other: Run) -> bool:
        """Whether another run drew the same as finely, or is this one."""
        return (self.what, self.fine) == (other.what, other.fine)

    def name(self) -> str:
        return f"the {self.what}" + (" more finely" if self.fine else "")

    def go(self) -> None:
        """Runs it once more. GNU time tells the memory, since what Python starts is charged with Python's."""
        if self.memory and self.seconds > LONG:
            return
        told = self.out.with_suffix(".memory")
        command = ["time", "-f", "%M", "-o", told, *self.command]
        into = self.out if self.source else os.devnull
        with open(self.source or os.devnull, "rb") as source, open(into, "wb") as out:
            process = subprocess.Popen(command, stdin=source, stdout=out, stderr=subprocess.PIPE)
            said = process.stderr.read()
            _, status, used = os.wait4(process.pid, 0)
            process.returncode = os.waitstatus_to_exitcode(status)
        if status or not self.out.exists() or not self.out.stat().st_size:
            raise SystemExit(f"checks/compare: {self.by}, {self.what}: {said.decode(errors='replace')}")
        self.seconds = min(self.seconds, used.ru_utime + used.ru_stime)
        self.memory = max(self.memory, 1024 * int(told.read_text().split()[-1]))


def in_turns(runs: list[Run], rounds: int) -> bool:
    """Runs each once in each round, so that what else loads the machine is felt by all. It tells whether anything does:
    the runs themselves keep one processor busy at a time."""
    for _ in range(rounds):
        for run in runs:
            run.go()
    return os.getloadavg()[0] > 1.5


def versions() -> dict[str, str]:
    """The versions of the packages that are installed, by the names of what they have."""
    found = {name: [_version(it) for it in packages] for name, packages in PACKAGES.items()}
    return {name: versions[0] for name, versions in found.items() if all(versions)}


def _version(package: str) -> str:
    """The version of a package of Debian, and nothing where it is not installed."""
    words = ["dpkg-query", "-W", "-f", "${db:Status-Status} ${Version}", package]
    status, _, version = subprocess.run(words, capture_output=True, text=True).stdout.partition(" ")
    return version if status == "installed" else ""


def machine() -> str:
    """What the machine has: how many processors, their name, and the speed that the system tells."""
    lines = [line.partition(":") for line in pathlib.Path("/proc/cpuinfo").read_text().splitlines()]
    names = [value.strip() for key, _, value in lines if key.strip() == "model name"]
    speeds = [float(value) for key, _, value in lines if key.strip() == "cpu MHz"]
    speed = f" at {max(speeds) / 1000:.1f} GHz" if speeds else ""
    return f"{len(names)} processors of the name {names[0]}{speed}"
