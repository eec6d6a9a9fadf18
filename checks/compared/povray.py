"""A model as a scene of POV-Ray, whose isosurface it is, seen along z as the program's height maps are."""
from __future__ import annotations

from .parts import Ends

FORMS = {
    "neg": "-({})", "abs": "abs({})", "floor": "floor({})", "square": "pow({}, 2)", "sqrt": "sqrt(max({}, 0))",
    "add": "({} + {})", "sub": "({} - {})", "mul": "({} * {})", "div": "({} / {})", "min": "min({}, {})",
    "max": "max({}, {})",
}
SCENE = """#version 3.7;
global_settings {{ assumed_gamma 1 }}
background {{ rgb 0 }}
camera {{ orthographic location <0, 0, {above}> direction <0, 0, -1> right <{width}, 0, 0> up <0, {depth}, 0> }}
light_source {{ <0, 0, 1000000> rgb 1 parallel point_at 0 }}
isosurface {{
    function {{ {formula} }}
    contained_by {{ box {{ <-{ends[0]}, -{ends[1]}, -{ends[2]}>, <{ends[0]}, {ends[1]}, {ends[2]}> }} }}
    accuracy {accuracy}
    max_gradient 1.1
    pigment {{ rgb 1 }}
    finish {{ ambient 0.1 diffuse 0.9 }}
}}
"""


def scene(text: str, ends: Ends, pixels: int, accuracy: float) -> str:
    """The scene of a model whose value changes by no more than the way that is gone, for a square picture, whose first
    and last pixels have their middles at the ends."""
    formulas: dict[str, str] = {}
    for line in text.splitlines():
        if not line.strip() or line.lstrip().startswith("#"):
            continue
        name, operation, *operands = line.split()
        if operation == "const":
            formulas[name] = f"({operands[0]})"
        elif operation.startswith("var-"):
            formulas[name] = operation[4:]
        else:
            formulas[name] = FORMS[operation].format(*(formulas[it] for it in operands))
    width, depth = (2 * end * pixels / (pixels - 1) for end in ends[:2])
    return SCENE.format(
        formula=formulas[name], ends=ends, accuracy=accuracy, above=2 * ends[2], width=width, depth=depth
    )
