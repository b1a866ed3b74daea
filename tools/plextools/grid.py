"""What of a text goes into an unstructured grid: points, cells and arrays, of one rank or of all owned points."""
from dataclasses import dataclass, field

from .whole import STRATA

SHAPES = {"vertex": 1, "segment": 3, "triangle": 5, "quadrilateral": 9, "tetrahedron": 10, "hexahedron": 12}
"""The numbers of VTK for shapes. Its corners of a hexahedron are in the order of the tables here."""

OWN = ("owner", "number", "key", "local", "label", "dimension", "vtkGhostType")
"""Names of arrays that no field gets."""


@dataclass
class Array:
    """A named array with so many components for each point or cell, of one of VTK's types; of a field, its place."""
    name: str
    type: str
    comps: int
    values: list = field(default_factory=list)
    place: int | None = None


@dataclass
class Piece:
    """A grid: places of its points, its cells by places of points, and arrays on points and on cells."""
    at: list
    cells: list
    shapes: list
    on_points: list
    on_cells: list


class Layout:
    """Which arrays every piece has, from all points of a step, so that the pieces of all ranks have the same."""

    def __init__(self, text, whole, has_local, with_all):
        self.text, self.whole, self.has_local = text, whole, has_local
        self.letters = [letter for letter in STRATA if letter != "v"][:3 if with_all else 1]
        self.dims = {whole.diagram.dimension(tag) for tag in whole.points if tag[0] in self.letters}
        labelled = [(tag[0], len(known.tail.labels)) for tag, known in whole.points.items()]
        self.most = {True: max(count for letter, count in labelled if letter == "v"),
                     False: max(count for letter, count in labelled if letter in self.letters)}

    def arrays(self, on_points):
        """The arrays on points or on cells, without values."""
        dims = {0} if on_points else self.dims
        found = [Array("owner", "Int32", 1), Array("number", "Int64", 1), Array("key", "Int64", 1)]
        found += [Array("local", "Int32", 1), Array("vtkGhostType", "UInt8", 1)] if self.has_local else []
        found += [Array("dimension", "UInt8", 1)] if len(dims) > 1 else []
        found += [Array("label", "Int32", self.most[on_points])] if self.most[on_points] else []
        return found + self.fields(dims)

    def fields(self, dims):
        """The arrays of the fields that have words on points of these dimensions."""
        found, names = [], set(OWN)
        for place, section in enumerate(self.text.sections):
            if section.place == "dofs":
                comps = max(section.counts[dim] for dim in dims)
            else:
                comps = section.counts[0] if (0 if section.place == "node" else self.text.dim) in dims else 0
            if comps:
                name = section.name if section.name and section.name not in names else f"{section.name} d{place}".strip()
                names.add(name)
                found.append(Array(name, "Float64", comps, place=place))
        return found

    def fill(self, arrays, tag, local, rank):
        """Adds the values of one point to all arrays; `rank` is the one that holds it."""
        owner, tail = self.whole.owner[tag], self.whole.points[tag].tail
        own = {"owner": [owner], "number": [self.whole.number[tag]], "key": [int(tag[1:])], "local": [local],
               "vtkGhostType": [int(owner != rank)], "dimension": [self.whole.diagram.dimension(tag)],
               "label": [value for _, value in tail.labels]}
        for array in arrays:
            values = own[array.name] if array.place is None else [float(word) for word in tail.data.get(array.place, ())]
            filler = 0 if array.place is None else float("nan")
            array.values += values + [filler] * (array.comps - len(values))

    def piece(self, held, rank):
        """The grid of points (tag, local number) that a rank holds, in this order."""
        vertices = [(tag, local) for tag, local in held if tag[0] == "v"]
        cells = [(tag, local) for letter in self.letters for tag, local in held if tag[0] == letter]
        place = {tag: k for k, (tag, _) in enumerate(vertices)}
        found = Piece([self.whole.points[tag].tail.at for tag, _ in vertices], [], [], self.arrays(True), self.arrays(False))
        for tag, local in vertices:
            self.fill(found.on_points, tag, local, rank)
        for tag, local in cells:
            self.fill(found.on_cells, tag, local, rank)
            found.cells.append([place[vertex] for vertex in self.whole.diagram.corners(tag)])
            found.shapes.append(SHAPES[self.whole.diagram.shape(tag)])
        return found
