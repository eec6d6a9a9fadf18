"""A model over arrays of numpy, in floating point, and what others make of it: `fields.py WORK MODEL OUT ENDS COUNTS`,
where the ends are those of the view along each axis, and the counts its cells, or its columns, rows and layers.

    render   the picture at z = 0, by numpy alone
    height   the height map, by numpy alone, layer by layer
    skimage  the mesh, as binary STL, by scikit-image's marching cubes
    vtk      by those of VTK
    flying   by its flying edges
"""
from __future__ import annotations

import sys
from collections.abc import Callable

import numpy

OPERATIONS: dict[str, Callable] = {
    "neg": numpy.negative, "abs": numpy.abs, "floor": numpy.floor, "square": numpy.square,
    "sqrt": lambda a: numpy.sqrt(numpy.maximum(a, 0)), "add": numpy.add, "sub": numpy.subtract,
    "mul": numpy.multiply, "div": numpy.divide, "min": numpy.minimum, "max": numpy.maximum,
}


def value(text: str, x, y, z):
    """The value of a model at places, whose arrays go together. The array of a clause is kept up to its last use."""
    clauses = [line.split() for line in text.splitlines() if line.strip() and not line.lstrip().startswith("#")]
    last = {operand: at for at, clause in enumerate(clauses) for operand in clause[2:]}
    values = {}
    for at, (name, operation, *operands) in enumerate(clauses):
        if operation == "const":
            values[name] = float(operands[0])
        elif operation.startswith("var-"):
            values[name] = {"x": x, "y": y, "z": z}[operation[4:]]
        else:
            values[name] = OPERATIONS[operation](*(values[it] for it in operands))
            for it in {it for it in operands if last[it] == at}:
                del values[it]
    return values[clauses[-1][0]]


def axes(ends, counts):
    """The places of samples along each axis, so that they go together as a field."""
    places = (numpy.linspace(-end, end, count) for end, count in zip(ends, counts))
    return numpy.meshgrid(*places, indexing="ij", sparse=True)


def render(text: str, ends, counts):
    x, y, _ = axes(ends, counts)
    return numpy.where(numpy.broadcast_to(value(text, x[..., 0], y[..., 0], 0.0), (x.size, y.size)) < 0, 255, 0)


def height(text: str, ends, counts):
    """The number of the highest layer that is inside, from 1 on, or 0."""
    x, y, z = axes(ends, counts)
    tops = numpy.zeros((x.size, y.size))
    for layer, at in enumerate(z.flat, 1):
        tops[numpy.broadcast_to(value(text, x[..., 0], y[..., 0], at), tops.shape) < 0] = layer
    return tops


def save_picture(name: str, values) -> None:
    """A PGM file of values by columns and rows, with the greatest y in the first row."""
    with open(name, "wb") as file:
        file.write(b"P5\n%d %d\n255\n" % values.shape)
        file.write(values.T[::-1].astype(numpy.uint8).tobytes())


def field(text: str, ends, cells):
    """The values at the corners of cells."""
    x, y, z = axes(ends, [it + 1 for it in cells])
    return numpy.broadcast_to(value(text, x, y, z), (x.size, y.size, z.size)).astype(numpy.float32)


def skimage(values, cell, first):
    from skimage.measure import marching_cubes

    points, faces, _, _ = marching_cubes(values, 0, spacing=cell, gradient_direction="ascent")
    return (points + first)[faces]


def vtk(values, cell, first, flying: bool):
    from vtkmodules.util.numpy_support import numpy_to_vtk, vtk_to_numpy
    from vtkmodules.vtkCommonDataModel import vtkImageData
    from vtkmodules.vtkFiltersCore import vtkFlyingEdges3D, vtkMarchingCubes

    image = vtkImageData()
    image.SetDimensions(values.shape)
    image.SetSpacing(cell)
    image.SetOrigin(first)
    image.GetPointData().SetScalars(numpy_to_vtk(values.ravel(order="F")))
    cubes = vtkFlyingEdges3D() if flying else vtkMarchingCubes()
    cubes.SetInputData(image)
    cubes.SetValue(0, 0)
    cubes.ComputeNormalsOff()
    cubes.ComputeGradientsOff()
    cubes.ComputeScalarsOff()
    cubes.Update()
    mesh = cubes.GetOutput()
    return vtk_to_numpy(mesh.GetPoints().GetData())[vtk_to_numpy(mesh.GetPolys().GetData()).reshape(-1, 4)[:, 1:]]


def save_mesh(name: str, triangles) -> None:
    """A binary STL file of triangles, turned so that the volume is above 0."""
    if numpy.einsum("ni,ni", triangles[:, 0], numpy.cross(triangles[:, 1], triangles[:, 2])) < 0:
        triangles = triangles[:, ::-1]
    rows = numpy.zeros(len(triangles), [("normal", "<3f4"), ("corners", "<9f4"), ("spare", "<u2")])
    rows["corners"] = triangles.reshape(-1, 9)
    with open(name, "wb") as file:
        file.write(bytes(80) + numpy.uint32(len(rows)).tobytes())
        file.write(rows.tobytes())


def main(work: str, model: str, out: str, *numbers: str) -> None:
    with open(model) as file:
        text = file.read()
    ends, counts = [float(it) for it in numbers[:3]], [int(it) for it in numbers[3:]]
    if work in ("render", "height"):
        save_picture(out, {"render": render, "height": height}[work](text, ends, counts))
        return
    values, first = field(text, ends, counts), [-it for it in ends]
    cell = [2 * end / count for end, count in zip(ends, counts)]
    save_mesh(out, skimage(values, cell, first) if work == "skimage" else vtk(values, cell, first, work == "flying"))


if __name__ == "__main__":
    main(*sys.argv[1:])
