"""The page of what was measured. Which program is the better one is told by the figures, and by nothing else."""
from __future__ import annotations

import textwrap
from collections.abc import Callable, Iterable
from dataclasses import dataclass
from decimal import Decimal

from . import parts
from .drawings import OURS
from .meshes import MARGIN
from .runs import LONG, PACKAGES, Run

ALIKE = 1.1  # how many times as much is still as good
TRUE = 1e-4  # mm: what is nearer than that is as good as true
ASKED = {
    "OpenSCAD": "the parts by constructive solid geometry",
    "scikit-image": "the parts by `measure.marching_cubes`, over a field that numpy evaluates",
    "VTK": "the parts by `vtkMarchingCubes` and by `vtkFlyingEdges3D`, over the same field",
    "numpy": "these fields, a picture and a height map, clause by clause over whole arrays, in floating point",
    "POV-Ray": "a part as an isosurface, seen from above, in one thread",
    "CGAL": "whether a mesh is a closed manifold, whether it cuts itself, and how far true edges are from it",
    "PrusaSlicer": "whether it calls a mesh a manifold",
}


@dataclass(frozen=True)
class Measure:
    """Something of a run of which less is better, and what is said of whoever has less. Up to `least` all is alike."""

    words: str
    of: Callable[[Run], float | None]
    least: float = 0.0

    def is_less(self, left: float, right: float) -> bool:
        """Whether one run has clearly less than another."""
        return max(left, self.least) * ALIKE < max(right, self.least)


def found(name: str) -> Callable[[Run], float | None]:
    """What was measured of a run under a name."""
    return lambda run: run.found.get(name)


def differs(name: str, wanted: str) -> Callable[[Run], float | None]:
    """1 where something that was found of a run does not begin as is wanted, 0 where it does."""
    return lambda run: None if run.found.get(name, "-") == "-" else float(not run.found[name].startswith(wanted))


SECONDS = Measure("takes less time for", lambda run: run.seconds)
MEMORY = Measure("takes less memory for", lambda run: run.memory / 1e6)
TRIANGLES = Measure("draws fewer triangles for", found("triangles"))
OPEN = Measure("alone draws what CGAL calls a closed manifold for", differs("closed", "yes"))
LOOSE = Measure("alone draws what PrusaSlicer calls a manifold for", differs("manifold", "yes"))
CUT = Measure("alone draws a mesh that does not cut itself for", differs("cut", "no"))
EDGES = Measure("has truer edges for", found("edges"), TRUE)
FLATS = Measure("has truer flats for", found("flats"), TRUE)
WALL = Measure("has a truer wall for", found("wall"), TRUE)
MEASURES = SECONDS, MEMORY, TRIANGLES, OPEN, LOOSE, CUT, EDGES, FLATS, WALL
SHORT = (
    ("Time for the cylinder, s", parts.CYLINDER, SECONDS),
    ("Time for the plate with 24 holes, s", parts.PLATE, SECONDS),
    ("Memory for the plate, MB", parts.PLATE, MEMORY),
    ("Triangles of the block", parts.BLOCK, TRIANGLES),
    ("Triangles of the plate", parts.PLATE, TRIANGLES),
    ("The block's edges are off by, mm", parts.BLOCK, EDGES),
    ("The block's flats are off by, mm", parts.BLOCK, FLATS),
    ("The cylinder's wall is off by, mm", parts.CYLINDER, WALL),
)
COUNTED = (
    ("Closed manifolds, CGAL says", OPEN), ("Manifolds, PrusaSlicer says", LOOSE),
    ("Meshes that do not cut themselves, CGAL says", CUT),
)


def figure(value: float | None) -> str:
    """A number by its first two digits, or whole from a hundred on; what is missing is a stroke."""
    if value is None or value != value:
        return "-"
    if value >= 100 or value == int(value):
        return f"{value:,.0f}"
    return f"{Decimal(f'{value:.2g}'):f}" if value >= 1e-6 else "under 0.000001"


def between(values: list[float]) -> str:
    """The least and the greatest of numbers, or the one figure that both have."""
    return " to ".join(dict.fromkeys(map(figure, (min(values), max(values)))))


def cell(run: Run, runs: list[Run], measure: Measure) -> str:
    """The figure of a run, in bold where no other run that drew the same as finely has clearly less."""
    rivals = [it for it in map(measure.of, (it for it in runs if it.is_rival(run))) if it is not None]
    value = measure.of(run)
    best = value is not None and len(rivals) > 1 and not any(measure.is_less(it, value) for it in rivals)
    return f"**{figure(value)}**" if best else figure(value)


def cells(run: Run, runs: list[Run], measures: Iterable[Measure]) -> list[str]:
    return [cell(run, runs, it) for it in measures]


def table(head: list[str], rows: Iterable[list[str]]) -> str:
    """A table in Markdown."""
    return "".join(f"| {' | '.join(row)} |\n" for row in [head, *rows]).replace("\n", f"\n|{'---|' * len(head)}\n", 1)


def filled(text: str, indent: str = "") -> str:
    """A paragraph in lines of the width that the pages have."""
    return textwrap.fill(text, 120, subsequent_indent=indent, break_long_words=False, break_on_hyphens=False)


def listed(words: list[str]) -> str:
    return " and ".join([", ".join(words[:-1]), words[-1]] if len(words) > 1 else words)


def programs(runs: list[Run]) -> list[str]:
    """The programs that drew something, in the order in which they did."""
    return list(dict.fromkeys(it.by for it in runs))


def short(meshes: list[Run]) -> str:
    """The table of a few figures, a column a program."""
    names = programs(meshes)
    rows = []
    for words, part, measure in SHORT:
        runs = {it.by: it for it in meshes if it.what == part.name and not it.fine}
        rows.append([words, *(cell(runs[by], meshes, measure) for by in names)])
    for words, measure in COUNTED:
        values = ([measure.of(it) for it in meshes if it.by == by] for by in names)
        rows.append([words, *map(share, values)])
    return table(["", *names], rows)


def share(values: list[float | None]) -> str:
    """How many are 0, of how many that are known, and a stroke where none is."""
    known = [it for it in values if it is not None]
    return f"{known.count(0)} of {len(known)}" if known else "-"


def sides(runs: list[Run]) -> str:
    """A line for each other program: what it does better than this one, and what this one does better."""
    return "\n".join(_side(runs, other) for other in programs(runs) if other != OURS)


def _side(runs: list[Run], other: str) -> str:
    theirs = [it for it in runs if it.by == other]
    pairs = [(it, next(own for own in runs if own.by == OURS and own.is_rival(it))) for it in theirs]
    better: dict[str, list[str]] = {other: [], OURS: []}
    for measure in MEASURES:
        told = [(measure.of(left), measure.of(right), left.name()) for left, right in pairs]
        told = [it for it in told if None not in it]
        for winner, names in (
            (other, [name for left, right, name in told if measure.is_less(left, right)]),
            (OURS, [name for left, right, name in told if measure.is_less(right, left)]),
        ):
            if names:
                better[winner].append(f"{measure.words} {'all' if len(names) == len(told) > 1 else listed(names)}")
    sentences = (f"**{it}** {'; '.join(points) or 'does nothing better'}." for it, points in better.items())
    return filled("- " + " ".join(sentences), "  ")


def _versions(versions: dict[str, str], own: str) -> str:
    rows = [[OURS, "-", own, "all of it: meshes by marching tetrahedra, without floating point"]]
    rows += ([it, f"`{PACKAGES[it][0]}`", versions[it], asked] for it, asked in ASKED.items() if it in versions)
    left_out = [name for name in ASKED if name not in versions]
    note = filled(f"Not installed were {listed(left_out)}, which are left out.") + "\n" if left_out else ""
    return table(["Program", "Package", "Version", "What it draws or says"], rows) + ("\n" + note if note else "")


def _starts(meshes: list[Run], starts: list[Run]) -> str:
    """What goes by until Python has loaded its libraries, and whether most of the time of each mesh goes into that."""
    before = {it.by: it.seconds for it in starts}
    if not before:
        return ""
    told = listed([f"{figure(seconds)} s for {by}" for by, seconds in before.items()])
    said = f"Those over a field include that Python loads its libraries: {told}"
    least = min(before[it.by] / it.seconds for it in meshes if it.by in before)
    return f"{said}. That is most of the time of each of their meshes." if least > 0.5 else f"{said}."


def _run(meshes: list[Run], part: parts.Part, by: str) -> Run:
    return next(it for it in meshes if (it.what, it.by, it.fine) == (part.name, by, 0))


def fineness(meshes: list[Run]) -> str:
    """Which cells and sides are as fine."""
    if "OpenSCAD" not in programs(meshes):
        return ""
    own = dict.fromkeys((it.fine, it.how) for it in meshes if it.by == OURS)
    theirs = {it.fine: it.how for it in meshes if it.by == "OpenSCAD"}
    return f"Rounds of {', and rounds of '.join(f'{theirs[fine]} are set beside {how}' for fine, how in own)}."


def reasons(meshes: list[Run], versions: dict[str, str]) -> str:
    """Why the figures are as they are, for those programs that were run. Each number in it is one of them."""
    others = [it for it in programs(meshes) if it not in (OURS, "OpenSCAD")]
    paragraphs = [_ours(meshes)]
    if "OpenSCAD" in versions:
        paragraphs.insert(0, _openscad(meshes, versions["OpenSCAD"]))
    if others:
        paragraphs.insert(-1, _fields(meshes, others))
    if "POV-Ray" in versions:
        paragraphs.append(
            "POV-Ray follows a ray for each pixel, and can light what it finds in many more ways: with shadows, colours"
            f" and lamps anywhere, of which {OURS} has none."
        )
    return "\n\n".join(map(filled, paragraphs))


def _openscad(meshes: list[Run], version: str) -> str:
    theirs, own = (_run(meshes, parts.BLOCK, it) for it in ("OpenSCAD", OURS))
    plate = _run(meshes, parts.PLATE, "OpenSCAD")
    said = (
        "OpenSCAD computes the planes of a part and where they meet. It draws the block by "
        f"{figure(theirs.found['triangles'])} triangles, where {OURS} draws it by {figure(own.found['triangles'])}"
    )
    if "edges" in theirs.found:
        off = (figure(it.found["edges"]) for it in (theirs, own))
        said += "; the edges are off by {} mm there, and by {} mm here".format(*off)
    said += (
        ". A round is a prism of as many sides as are asked for. Each cut of one body by another is computed for "
        f"itself: the block takes {figure(theirs.seconds)} s, the plate with its 24 holes {figure(plate.seconds)} s."
    )
    if version < "2023":
        said += " Versions since 2023 have a faster kernel, Manifold, which this one lacks."
    return said


def _fields(meshes: list[Run], others: list[str]) -> str:
    blocks = [_run(meshes, parts.BLOCK, it) for it in (*others, OURS)]
    said = (
        f"{OURS}, like {listed(others)}, sees a part at the corners of cells alone. A flat is cut into triangles of "
        "about a cell, as a round is, and an edge that lies on no plane of the grid is broken off"
    )
    off = [it.found["edges"] for it in blocks if "edges" in it.found]
    if off:
        said += f": those of the block by {between(off)} mm, with {blocks[0].how}"
    return (
        f"{said}. {OURS} cuts each cell into six tetrahedra: it draws {_times_as_many(meshes, others)} times as many "
        "triangles as they do. For a field, numpy evaluates each clause at each corner."
    )


def _times_as_many(meshes: list[Run], others: list[str]) -> str:
    """How many times as many triangles this program draws as others over fields do."""
    own = {(it.what, it.fine): it.found["triangles"] for it in meshes if it.by == OURS}
    return between([own[it.what, it.fine] / it.found["triangles"] for it in meshes if it.by in others])


def _ours(meshes: list[Run]) -> str:
    own = [it for it in meshes if it.by == OURS]
    said = (
        f"{OURS} asks first which boxes of cells can have a surface, and evaluates clauses there alone. Its mesh, as "
        "the PLY file that it writes, is proved to be a closed manifold"
    )
    values = [it.of(run) for it in (OPEN, LOOSE) for run in own]
    if all(it == 0 for it in values):
        return said + ", and CGAL and PrusaSlicer say so of each STL file that was made of one."
    if any(values):
        return said + ". The STL files that were made of it have fewer digits, and not each of them is one."
    return said + "."


def _meshes(meshes: list[Run]) -> str:
    head = ["Part", "Program", "How fine", "s", "MB", "Triangles", "Closed manifold (CGAL)", "Cuts itself (CGAL)"]
    said, measures = ("closed", "cut", "manifold"), (SECONDS, MEMORY, TRIANGLES)
    return table([*head, "Manifold (PrusaSlicer)"], (
        [it.what, it.by, it.how, *cells(it, meshes, measures), *(it.found.get(of, "-") for of in said)]
        for it in meshes
    ))


def _stl(meshes: list[Run]) -> str:
    took = [it.found["stl"] for it in meshes if "stl" in it.found]
    return filled(
        "A triangle two corners of which fall on one place is a line; CGAL looks at the others. A run ends with a file,"
        f" PLY by {OURS} and STL by the others. The Python package writes such a PLY file as STL in {between(took)} s "
        "more."
    )


def _truth(meshes: list[Run]) -> str:
    measured = [it for it in meshes if {"flats", "wall"} & it.found.keys()]
    head = ["Part", "Program", "How fine", "Edges", "Flats", "Wall"]
    return table(head, ([it.what, it.by, it.how, *cells(it, measured, (EDGES, FLATS, WALL))] for it in measured))


def _pictures(pictures: list[Run]) -> str:
    return table(["Picture", "Program", "How fine", "s", "MB", "Pixels otherwise"], (
        [it.what, it.by, it.how, *cells(it, pictures, (SECONDS, MEMORY)), figure(it.found.get("otherwise"))]
        for it in pictures
    ))


def page(
    meshes: list[Run], pictures: list[Run], starts: list[Run], versions: dict[str, str], own: str, machine: str,
    rounds: int, shared: bool,
) -> str:
    """The page, of what was drawn, and of what goes by before others draw, on a machine by programs of versions."""
    intro = filled(
        f"`checks/compare` draws the same parts and pictures by {OURS} and by other programs, in turns on one machine, "
        "and writes this page. Each figure comes from that run, and so does each sentence that says which program is "
        f"better. The machine has {machine}. The others are Debian's packages:"
    )
    busy = "Other work shared the machine meanwhile. " if shared else ""
    costs = filled(
        "Times are seconds of the processor, the user's and the system's, from the start of a command to its end, the "
        f"least of {rounds} rounds; what takes more than {LONG} s runs once. {_starts(meshes, starts)} {busy}Memory is "
        "the most that was resident at once. Bold is the least of those that draw the same, as finely, with what is "
        f"within a tenth of it. Lengths up to {figure(TRUE)} mm count as alike. {fineness(meshes)}"
    )
    return f"""# Beside other programs

{intro}

{_versions(versions, own)}
The parts, in millimetres: a cylinder of radius 10, 10 high; a block of 30 x 20 x 10, turned about two axes; a sieve,
which is a ball of radius 15 with three bores of radius 6; a plate of 60 x 40 x 6 with 24 holes of radius 3.

{costs}

## In short

{short(meshes)}
Differences of up to a tenth are left out here:

{sides(meshes + pictures)}

{reasons(meshes, versions)}

## Meshes

{_meshes(meshes)}
{_stl(meshes)}

## Edges, flats and walls

How far the true edges of a part are from its mesh at most, and how far the mesh is from the true sides of the block and
from the true wall of the cylinder, {MARGIN:g} mm and more from an edge; in millimetres.

{_truth(meshes)}
## Pictures

Pixels are otherwise than by {OURS} where they have another number, or in the shaded picture where only one of the two
shows the part.

{_pictures(pictures)}"""
