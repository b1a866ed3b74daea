#!/usr/bin/env python3
"""Writes a grid as a mesh file, or a file of a million elements, whose node numbers stand in order or are
shuffled.

KIND is tri or quad, for N by N squares, or tet or hex, for N by N by N cubes. Grid points are numbered from
1, x fastest, then y, then z. The square with the corners a, b, c, d in cyclic order from its lower left one
gives the quadrangle (a, b, c, d) or the triangles (a, b, c) and (a, c, d). A cube has the four corners of
its bottom in cyclic order and then the four above them, and gives one hexahedron or six tetrahedra, each
with the cube's first and seventh corner. `boundary` adds the quadrangles on the outside of the cubes, in
front of the cells, in physical group 1. The million elements are 980,000 triangles of 700 by 700 squares,
and segments on the first 20,000 sides along x; a shuffled file has the same grid points and elements, with
the same numbers given to other grid points.

usage: make_mesh.py KIND:N [boundary] > FILE
       make_mesh.py million [shuffled] > FILE
"""
import random
import sys

TYPES = {"tri": 2, "quad": 3, "tet": 4, "hex": 5}
PATHS = ((1, 2), (1, 5), (3, 2), (3, 7), (4, 5), (4, 7))


def nodes(wide, high):
    yield "$Nodes\n%d\n" % (wide * wide * high)
    for z in range(high):
        for y in range(wide):
            for x in range(wide):
                yield "%d %d %d %d\n" % ((z * wide + y) * wide + x + 1, x, y, z)
    yield "$EndNodes\n"


def square(a, b, c, d, kind):
    return ((a, b, c, d),) if kind == "quad" else ((a, b, c), (a, c, d))


def cube(corners, kind):
    return (corners,) if kind == "hex" else [(corners[0], corners[i], corners[j], corners[6]) for i, j in PATHS]


def flat_cells(kind, n):
    wide = n + 1
    for y in range(n):
        for x in range(n):
            a = y * wide + x + 1
            yield from square(a, a + 1, a + wide + 1, a + wide, kind)


def solid_cells(kind, n):
    wide = n + 1
    for z in range(n):
        for y in range(n):
            for x in range(n):
                a = (z * wide + y) * wide + x + 1
                bottom = (a, a + 1, a + wide + 1, a + wide)
                yield from cube(bottom + tuple(v + wide * wide for v in bottom), kind)


def boundary(n):
    wide = n + 1
    steps = (1, wide, wide * wide)
    for along in range(3):
        u, v = (step for i, step in enumerate(steps) if i != along)
        for side in (0, n):
            for j in range(n):
                for i in range(n):
                    a = side * steps[along] + j * v + i * u + 1
                    yield a, a + u, a + u + v, a + v


def grid(kind, n, outside):
    yield from nodes(n + 1, 1 if kind in ("tri", "quad") else n + 1)
    elements = [(3, 1, corners) for corners in (boundary(n) if outside else ())]
    cells = flat_cells(kind, n) if kind in ("tri", "quad") else solid_cells(kind, n)
    elements += [(TYPES[kind], 0, corners) for corners in cells]
    yield "$Elements\n%d\n" % len(elements)
    for i, (number, group, corners) in enumerate(elements, 1):
        yield "%d %d 2 %d 1 %s\n" % (i, number, group, " ".join(map(str, corners)))
    yield "$EndElements\n"


def million(is_shuffled):
    n, wide = 700, 701
    number = list(range(1, wide * wide + 1))
    if is_shuffled:
        random.Random(1).shuffle(number)
    yield "$Nodes\n%d\n" % (wide * wide)
    for y in range(wide):
        for x in range(wide):
            yield "%d %d %d 0\n" % (number[y * wide + x], x, y)
    yield "$EndNodes\n$Elements\n1000000\n"
    for i in range(20000):
        a = i // n * wide + i % n
        yield "%d 1 2 0 1 %d %d\n" % (i + 1, number[a], number[a + 1])
    for i in range(n * n):
        a = i // n * wide + i % n
        corners = number[a], number[a + 1], number[a + wide + 1], number[a + wide]
        yield "%d 2 2 0 1 %d %d %d\n" % (20001 + 2 * i, corners[0], corners[1], corners[2])
        yield "%d 2 2 0 1 %d %d %d\n" % (20002 + 2 * i, corners[0], corners[2], corners[3])
    yield "$EndElements\n"


if sys.argv[1] == "million":
    parts = million(len(sys.argv) > 2)
else:
    kind, size = sys.argv[1].split(":")
    parts = grid(kind, int(size), len(sys.argv) > 2)
sys.stdout.write("$MeshFormat\n2.2 0 8\n$EndMeshFormat\n" + "".join(parts))
