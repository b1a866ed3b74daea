#!/usr/bin/env python3
"""Writes beam.msh as gmsh saves it (MSH 2.2, text): a beam of 6 by 2 by 2 hexahedra, 300 mm long,
lengths in metres, with the physical groups "clamped" and "loaded" on its two ends and "beam", and the
temperature of each node.

usage: beam.py > beam.msh
"""
LONG, WIDE, HIGH = 6, 2, 2
STEP = 0.05
CLAMPED, LOADED, BEAM = 1, 2, 3


def number(x, y, z):
    return (z * (WIDE + 1) + y) * (LONG + 1) + x + 1


def quad(x, y, z):
    return number(x, y, z), number(x, y + 1, z), number(x, y + 1, z + 1), number(x, y, z + 1)


def hexahedron(x, y, z):
    bottom = number(x, y, z), number(x + 1, y, z), number(x + 1, y + 1, z), number(x, y + 1, z)
    top = number(x, y, z + 1), number(x + 1, y, z + 1), number(x + 1, y + 1, z + 1), number(x, y + 1, z + 1)
    return bottom + top


nodes = [(x, y, z) for z in range(HIGH + 1) for y in range(WIDE + 1) for x in range(LONG + 1)]
squares = [(y, z) for z in range(HIGH) for y in range(WIDE)]
elements = [(3, CLAMPED, 1, quad(0, y, z)) for y, z in squares]
elements += [(3, LOADED, 2, quad(LONG, y, z)) for y, z in squares]
elements += [(5, BEAM, 1, hexahedron(x, y, z)) for y, z in squares for x in range(LONG)]

print("$MeshFormat\n2.2 0 8\n$EndMeshFormat")
print('$PhysicalNames\n3\n2 1 "clamped"\n2 2 "loaded"\n3 3 "beam"\n$EndPhysicalNames')
print("$Nodes\n%d" % len(nodes))
for i, node in enumerate(nodes, 1):
    print(i, *("%.16g" % (x * STEP) for x in node))
print("$EndNodes\n$Elements\n%d" % len(elements))
for i, (kind, group, entity, corners) in enumerate(elements, 1):
    print(i, kind, 2, group, entity, *corners)
print("$EndElements")
print('$NodeData\n1\n"temperature"\n1\n0\n3\n0\n1\n%d' % len(nodes))
for i, (x, y, z) in enumerate(nodes, 1):
    print(i, "%.16g" % (20 + 2.5 * x))
print("$EndNodeData")
