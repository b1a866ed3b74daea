"""Polytopes by tables, and the diagram of some points: which shape each has, and its corners by its cone.

A segment has two corners. A polygon has its corners in cyclic order, and its edges run from each corner to
the next. The faces of a tetrahedron and of a hexahedron are listed by corners in `FACETS`. Under the
orientation o >= 0 a polygon begins at its corner o; under o < 0 it begins at its corner -(o + 1) and runs
back. Under -1 a segment is turned round.
"""
FACETS = {
    "segment": ((0,), (1,)),
    "triangle": ((0, 1), (1, 2), (2, 0)),
    "quadrilateral": ((0, 1), (1, 2), (2, 3), (3, 0)),
    "tetrahedron": ((0, 2, 1), (0, 1, 3), (1, 2, 3), (0, 3, 2)),
    "hexahedron": ((0, 3, 2, 1), (4, 5, 6, 7), (0, 1, 5, 4), (1, 2, 6, 5), (2, 3, 7, 6), (3, 0, 4, 7)),
}
EDGES = {
    "triangle": FACETS["triangle"],
    "quadrilateral": FACETS["quadrilateral"],
    "tetrahedron": ((0, 1), (1, 2), (2, 0), (0, 3), (1, 3), (2, 3)),
    "hexahedron": ((0, 1), (1, 2), (2, 3), (3, 0), (4, 5), (5, 6), (6, 7), (7, 4), (0, 4), (1, 5), (2, 6), (3, 7)),
}
CORNERS = {"vertex": 1, "segment": 2, "triangle": 3, "quadrilateral": 4, "tetrahedron": 4, "hexahedron": 8}
SHAPES = {(0, 0): "vertex", (1, 2): "segment", (2, 3): "triangle", (2, 4): "quadrilateral",
          (3, 4): "tetrahedron", (3, 6): "hexahedron"}
# Of a vertex, a segment, a triangle and a quadrilateral, by the number of corners.
ORIENTATIONS = {1: range(0, 1), 2: range(-1, 1), 3: range(-3, 3), 4: range(-4, 4)}


def turned(corners, o):
    """The corners of a vertex, segment or polygon under an orientation of it; None where it has no such one."""
    n = len(corners)
    if o not in ORIENTATIONS[n]:
        return None
    if n == 2:
        return corners if o == 0 else corners[::-1]
    if o >= 0:
        return tuple(corners[(k + o) % n] for k in range(n))
    return tuple(corners[(-o - 1 - k) % n] for k in range(n))


def facets(shape, corners):
    """The facets of a shape on these corners, in the order of its table."""
    return [tuple(corners[k] for k in facet) for facet in FACETS.get(shape, ())]


class Unclosed(Exception):
    """Why a cone does not close."""


class Diagram:
    """Points by tag, each with its cone by tags, and what the cones say of shapes and corners."""

    def __init__(self, dim, cones):
        self.dim, self.cones, self.known = dim, cones, {}

    def dimension(self, tag):
        """The dimension of a point by the letter of its tag."""
        return {"c": self.dim, "f": 2, "e": 1, "v": 0}[tag[0]]

    def shape(self, tag):
        """The name of a point's shape, by its dimension and the length of its cone."""
        found = SHAPES.get((self.dimension(tag), len(self.cones[tag])))
        if found is None:
            raise Unclosed(f"a cone of {len(self.cones[tag])} entries is of no shape")
        return found

    def corners(self, tag):
        """The vertices of a point in the order that its cone gives it."""
        if tag not in self.known:
            self.known[tag] = self.find_corners(tag)
        return self.known[tag]

    def find_corners(self, tag):
        """Puts what each cone entry shows at its places, and refuses two vertices at one place."""
        shape = self.shape(tag)
        if shape == "vertex":
            return (tag,)
        found = [None] * CORNERS[shape]
        for table, entry in zip(FACETS[shape], self.cones[tag]):
            seen = self.seen(tag, *entry)
            if len(seen) != len(table):
                raise Unclosed(f"its entry {entry[0]} has another number of corners")
            for place, vertex in zip(table, seen):
                if found[place] not in (None, vertex):
                    raise Unclosed(f"its entry {entry[0]} under {entry[1]} does not meet those before it")
                found[place] = vertex
        if len(set(found)) < len(found):
            raise Unclosed("a vertex stands twice in it")
        return tuple(found)

    def seen(self, tag, point, o):
        """The corners of a cone entry as the cone shows them."""
        if point not in self.cones:
            raise Unclosed(f"its entry {point} is not shown")
        if self.dimension(point) + 1 != self.dimension(tag):
            raise Unclosed(f"its entry {point} has not one dimension less")
        shown = turned(self.corners(point), o)
        if shown is None:
            raise Unclosed(f"its entry {point} has no orientation {o}")
        return shown

    def closure(self, tag):
        """All that a point reaches, level by level, each point once as it is first met, with its orientation."""
        found, level = {tag: 0}, [(tag, self.corners(tag))]
        while level:
            below = []
            for point, listed in level:
                on = {frozenset(self.corners(q)): q for q, _ in self.cones[point]}
                for facet in facets(self.shape(point), listed):
                    q = on[frozenset(facet)]
                    if q not in found:
                        found[q] = orientation(self.corners(q), facet)
                        below.append((q, facet))
            level = below
        return list(found.items())

    def sights(self, cell):
        """What a cell sees: the key of each of its places, and the vertices there. A solid sees faces."""
        corners, index = self.corners(cell), 64 * int(cell[1:])
        shape = self.shape(cell)
        faces = facets(shape, corners) if self.dim == 3 else []
        edges = [tuple(corners[k] for k in edge) for edge in EDGES[shape]]
        return [(index + 1 + k, face) for k, face in enumerate(faces)] + \
            [(index + 8 + k, edge) for k, edge in enumerate(edges)]


def orientation(corners, listed):
    """The orientation under which the corners of a vertex, segment or polygon are listed so."""
    return next(o for o in ORIENTATIONS[len(corners)] if turned(corners, o) == tuple(listed))


def dimension_of(listed):
    """The dimension of what a cell sees on these vertices: two are an edge, more a face."""
    return 1 if len(listed) == 2 else 2
