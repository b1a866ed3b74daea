"""The diagram of a mesh by its definitions, over all cells at once: points, keys, arrangements, cones, closures.

Nothing here is taken from the tools or the program: it is what their text is compared with.
A point is a pair of a dimension and a set of vertices.
"""
FACES = {
    4: ((0, 2, 1), (0, 1, 3), (1, 2, 3), (0, 3, 2)),
    8: ((0, 3, 2, 1), (4, 5, 6, 7), (0, 1, 5, 4), (1, 2, 6, 5), (2, 3, 7, 6), (3, 0, 4, 7)),
}
SOLID_EDGES = {
    4: ((0, 1), (1, 2), (2, 0), (0, 3), (1, 3), (2, 3)),
    8: ((0, 1), (1, 2), (2, 3), (3, 0), (4, 5), (5, 6), (6, 7), (7, 4), (0, 4), (1, 5), (2, 6), (3, 7)),
}


def pick(corners, places):
    return tuple(corners[k] for k in places)


def ring(corners):
    """The edges of a polygon."""
    return [pick(corners, (k, (k + 1) % len(corners))) for k in range(len(corners))]


def seen_faces(dim, corners):
    return [pick(corners, face) for face in FACES[len(corners)]] if dim == 3 else []


def seen_edges(dim, corners):
    return [pick(corners, edge) for edge in SOLID_EDGES[len(corners)]] if dim == 3 else ring(corners)


def facets(dim, corners):
    """The facets of a point of this dimension, listed so, in the order of its table."""
    if dim == 1:
        return [(v,) for v in corners]
    return ring(corners) if dim == 2 else seen_faces(3, corners) if dim == 3 else []


def act(o, corners):
    """The corners of a vertex, a segment or a polygon under an orientation."""
    n = len(corners)
    if n <= 2:
        return corners if o == 0 else corners[::-1]
    start = o if o >= 0 else -(o + 1)
    return tuple(corners[(start + k if o >= 0 else start - k) % n] for k in range(n))


def relative(first, then):
    """The orientation that leads from one list to another; None where there is none."""
    n = len(first)
    for o in range(*{1: (0, 1), 2: (-1, 1)}.get(n, (-n, n))):
        if act(o, first) == then:
            return o
    return None


def sights(mesh, c):
    """What cell c sees: key, dimension and list, of itself, its faces and its edges."""
    corners = mesh.cells[c]
    yield 64 * c, mesh.dim, corners
    for f, face in enumerate(seen_faces(mesh.dim, corners)):
        yield 64 * c + 1 + f, 2, face
    for e, edge in enumerate(seen_edges(mesh.dim, corners)):
        yield 64 * c + 8 + e, 1, edge


def points_of(mesh):
    """Every point with its key and arrangement, and the cells that contain it."""
    points = {(0, frozenset([v])): (v, (v,), []) for v in range(len(mesh.at))}
    for c, cell in enumerate(mesh.cells):
        for key, dim, corners in sights(mesh, c):
            points.setdefault((dim, frozenset(corners)), (key, corners, []))[2].append(c)
        for v in cell:
            points[0, frozenset([v])][2].append(c)
    return points


class Diagram:
    """Points of a mesh with their keys, arrangements, cells, cones and names in a text."""

    def __init__(self, mesh):
        self.mesh = mesh
        self.points = points_of(mesh)
        self.cones = {p: self.cone_of(p) for p in self.points}

    def key(self, p):
        return self.points[p][0]

    def arrangement(self, p):
        return self.points[p][1]

    def cells(self, p):
        return self.points[p][2]

    def stratum(self, p):
        """Cells, vertices, faces, edges."""
        return 0 if p[0] == self.mesh.dim else {0: 1, 2: 2, 1: 3}[p[0]]

    def place(self, p):
        """What charts are sorted by."""
        return self.stratum(p), self.key(p)

    def tag(self, p):
        number = self.key(p) // 64 if self.stratum(p) == 0 else self.key(p)
        return f"{'cvfe'[self.stratum(p)]}{number}"

    def cone(self, p):
        return self.cones[p]

    def cone_of(self, p):
        """Points and orientations; an orientation None is a twist."""
        found = []
        for facet in facets(p[0], self.arrangement(p)):
            q = p[0] - 1, frozenset(facet)
            found.append((q, relative(self.arrangement(q), facet)))
        return found

    def twist(self):
        """The least key of a face that a cell sees under no orientation, or None."""
        keys = [key for c in range(len(self.mesh.cells)) for key, dim, listed in sights(self.mesh, c)
                if dim < self.mesh.dim and relative(self.arrangement((dim, frozenset(listed))), listed) is None]
        return min(keys, default=None)

    def contained(self, c):
        """All points that cell c contains."""
        return {(dim, frozenset(listed)) for _, dim, listed in sights(self.mesh, c)} | \
            {(0, frozenset([v])) for v in self.mesh.cells[c]}

    def closure(self, p):
        """The closure under orientation 0: level by level, each point once."""
        found, level = [(p, 0)], [(p[0], self.arrangement(p))]
        while level:
            following = []
            for dim, listed in level:
                for facet in facets(dim, listed):
                    q = dim - 1, frozenset(facet)
                    if q not in [point for point, _ in found]:
                        found.append((q, relative(self.arrangement(q), facet)))
                        following.append((dim - 1, facet))
            level = following
        return found
