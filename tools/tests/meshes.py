"""Meshes for the tests: read from mesh files, generated, or written here. Coordinates are whole multiples of 10^-10."""
from dataclasses import dataclass, field
from fractions import Fraction

from diagram import points_of

UNIT = 10 ** 10
ELEMENTS = {1: (1, 2), 2: (2, 3), 3: (2, 4), 4: (3, 4), 5: (3, 8), 15: (0, 1)}


@dataclass
class Mesh:
    """Cells by their vertex lists, marks (dimension, vertices, value), names, and data by place."""
    dim: int
    at: list
    cells: list
    marks: list = field(default_factory=list)
    names: list = field(default_factory=list)
    data: list = field(default_factory=list)
    counts: tuple = (0, 0, 0)


def grid(kind, n):
    """The generated mesh of a kind and a size: grid points and grid cells, x fastest."""
    wide = n + 1
    high = wide if kind in ("tet", "hex") else 1
    at = [(x * UNIT, y * UNIT, z * UNIT) for z in range(high) for y in range(wide) for x in range(wide)]
    flat = (0, 1, wide + 1, wide)
    cube = flat + tuple(v + wide * wide for v in flat)
    cuts = {
        "tri": [(0, 1, 2), (0, 2, 3)], "quad": [(0, 1, 2, 3)], "hex": [tuple(range(8))],
        "tet": [(0, 1, 2, 6), (0, 1, 5, 6), (0, 3, 2, 6), (0, 3, 7, 6), (0, 4, 5, 6), (0, 4, 7, 6)],
    }[kind]
    cells = []
    for z in range(max(high - 1, 1)):
        for y in range(n):
            for x in range(n):
                first = (z * wide + y) * wide + x
                cells += [tuple(first + cube[k] for k in cut) for cut in cuts]
    return Mesh(3 if high > 1 else 2, at, cells)


def plain(dim, at, cells):
    """A mesh without names, marks and data, with whole coordinates."""
    return Mesh(dim, [tuple(x * UNIT for x in (*p, 0, 0)[:3]) for p in at], cells)


def fixed(word):
    """A number of a mesh file in units of 10^-10, rounded half away from zero."""
    value = Fraction(word) * UNIT
    whole = (2 * abs(value.numerator) + value.denominator) // (2 * value.denominator)
    return whole if value >= 0 else -whole


def sections(lines):
    """The sections of a mesh file: names with the lines between their header lines."""
    found, body = [], []
    for line in lines:
        if line.startswith("$End"):
            found[-1] = (found[-1], body)
        elif line.startswith("$"):
            found.append(line[1:])
            body = []
        else:
            body.append(line)
    return found


def read_mesh(path):
    """The mesh of a right mesh file, one node, element or row on each line."""
    with open(path, encoding="utf-8") as file:
        parts = sections(file.read().splitlines())
    nodes, elements, names, data = {}, [], [], []
    for name, body in parts:
        if name == "PhysicalNames":
            for line in body[1:]:
                dim, number, text = line.split(maxsplit=2)
                names.append((int(dim), int(number), text.strip()[1:-1]))
        elif name == "Nodes":
            for number, *at in map(str.split, body[1:]):
                nodes[int(number)] = tuple(map(fixed, at))
        elif name == "Elements":
            for line in body[1:]:
                number, kind, tags, *rest = map(int, line.split())
                elements.append((number, ELEMENTS[kind][0], rest[0] if tags else 0, tuple(rest[tags:])))
        elif name.endswith("Data"):
            data.append((name[:-4].lower(), *data_rows(body)))
    return accepted(nodes, elements, names, data)


def data_rows(body):
    """Name, components and rows of a data section."""
    strings = int(body[0])
    name = body[1].strip()[1:-1] if strings else ""
    place = 1 + strings
    place += 1 + int(body[place])
    comps = int(body[place + 2])
    rows = body[place + 1 + int(body[place]):]
    return name, comps, [(int(row.split()[0]), [fixed(x) for x in row.split()[1:]]) for row in rows]


def accepted(nodes, elements, names, data):
    """The mesh of the elements of greatest dimension; lower ones mark its points."""
    dim = max(element[1] for element in elements)
    used = {node for element in elements if element[1] == dim for node in element[3]}
    numbers = [node for node in nodes if node in used]
    place = {node: k for k, node in enumerate(numbers)}
    seen, cells, merged, marks, loose = {}, [], 0, [], []
    for _, d, tag, corners in elements:
        key = d, frozenset(corners)
        merged += key in seen
        if key not in seen and d == dim:
            cells.append(tuple(place[node] for node in corners))
        if key not in seen and d < dim:
            loose.append(key)
        seen[key] = True
        if tag:
            marks.append((d, frozenset(place.get(node, -1) for node in corners), tag))
    mesh = Mesh(dim, [nodes[node] for node in numbers], cells, marks, names)
    points = points_of(mesh)
    mesh.marks = [mark for mark in marks if mark[:2] in points]
    lost = sum((d, frozenset(place.get(node, -1) for node in on)) not in points for d, on in loose)
    mesh.counts = len(nodes) - len(numbers), lost, merged
    mesh.data = [(on, name, comps, placed(on, rows, elements, place, mesh)) for on, name, comps, rows in data]
    return mesh


def placed(on, rows, elements, place, mesh):
    """The last row of each vertex or cell."""
    if on == "node":
        return {place[number]: values for number, values in rows if number in place}
    cells = {frozenset(cell): c for c, cell in enumerate(mesh.cells)}
    first = {}
    for number, _, _, corners in elements:
        first.setdefault(number, frozenset(place.get(node, -1) for node in corners))
    return {cells[first[number]]: values for number, values in rows if first[number] in cells}
