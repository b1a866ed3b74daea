"""Small meshes that several tests use, and meshes by chance."""
import random

from meshes import UNIT, Mesh, grid, plain
from printed import read_plan

TWO_TRIANGLES = plain(2, [(0, 0), (1, 0), (0, 1), (1, 1)], [(0, 1, 2), (1, 3, 2)])
AROUND_A_VERTEX = plain(2, [(0, 0), (1, 0), (0, 1), (-1, 0), (0, -1)], [(0, 1, 2), (0, 2, 3), (0, 3, 4), (0, 4, 1)])
STRIP = plain(2, [(x, y) for y in (0, 1) for x in range(9)], [(x, x + 1, x + 10, x + 9) for x in range(8)])
TWO_CUBES = [(x, y, z) for z in range(3) for x, y in ((0, 0), (1, 0), (1, 1), (0, 1))]
TWISTED_CUBES = plain(3, TWO_CUBES, [tuple(range(8)), (4, 6, 5, 7, 8, 9, 10, 11)])


def cubes(bottom):
    """Two hexahedra, of which the second has these four vertices of the first at its bottom."""
    return plain(3, TWO_CUBES, [tuple(range(8)), (*bottom, 8, 9, 10, 11)])


def tetrahedra(second):
    """Two tetrahedra on five vertices."""
    return plain(3, [(0, 0, 0), (1, 0, 0), (0, 1, 0), (0, 0, 1), (1, 1, 1)], [(0, 1, 2, 3), second])


def dressed(mesh):
    """The mesh with names, labels of every dimension it can have, two on one point, and data on some places."""
    first = mesh.cells[0]
    marks = [(mesh.dim, frozenset(first), 3), (mesh.dim, frozenset(first), 7), (1, frozenset(first[:2]), 5), (0, frozenset(first[:1]), -2)]
    data = [("node", "heat & light", 1, {0: [5], 1: [-UNIT]}), ("element", "owner", 3, {0: [1, 2, 3 * UNIT]})]
    return Mesh(mesh.dim, mesh.at, mesh.cells, marks, [(1, 5, 'a "rim"'), (mesh.dim, 3, "<left>")], data)


def by_chance(seed):
    """Some cells of a grid, with their vertices in any order that keeps the cell, and a plan for them."""
    chance = random.Random(seed)
    kind = chance.choice(["tri", "quad", "tet", "hex"])
    whole = grid(kind, chance.randint(1, 2 if kind in ("tet", "hex") else 4))
    kept = [cell for cell in whole.cells if chance.random() < 0.8] or whole.cells[:1]
    used = sorted({v for cell in kept for v in cell}, key=lambda v: chance.random())
    place = {v: k for k, v in enumerate(used)}
    cells = [relisted(tuple(place[v] for v in cell), kind, chance) for cell in kept]
    mesh = dressed(Mesh(whole.dim, [whole.at[v] for v in used], cells))
    return mesh, plan_by_chance(len(cells), chance), [chance.randrange(6) for _ in range(12)]


def relisted(cell, kind, chance):
    """The same cell from another corner, or the other way round."""
    if kind == "tet":
        return tuple(chance.sample(cell, 4))
    turns, n = chance.randrange(4), 3 if kind == "tri" else 4
    rings = [cell[k:k + n][turns % n:] + cell[k:k + n][:turns % n] for k in range(0, len(cell), n)]
    return sum((ring[::-1] for ring in rings), ()) if chance.random() < 0.5 else sum(rings, ())


def plan_by_chance(cells, chance):
    """Up to four steps on up to five ranks, and some of what a plan can show."""
    ranks = chance.randint(1, 5)
    listed = [" ".join(str(chance.randrange(ranks)) for _ in range(cells)) for _ in range(2)]
    steps = [f"part {listed[0]}"]
    for _ in range(chance.randint(0, 3)):
        steps.append(chance.choice([f"part {listed[1]}", "overlap 1", "overlap 0", "part stripe", "part block"]))
    shown = [f"show {word}" for word in ("points", "local", "closure", "trace", "windows") if chance.random() < 0.7]
    plan = read_plan(" / ".join([f"ranks {ranks}", "dofs u 1 1 2 1", *steps, *shown]))
    plan.summary = chance.random() < 0.1
    return plan
