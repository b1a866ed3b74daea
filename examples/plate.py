#!/usr/bin/env python3
"""Writes plate.msh as gmsh saves it (MSH 2.2, text): a square plate of 100 mm with a round hole of
40 mm in its middle, lengths in metres, with the physical groups "outer", "hole" and "plate".

Rings of nodes go from the rim of the hole to the edge of the plate; ring i of RINGS lies at the part
(i / RINGS) ** 1.5 of the way, so that the triangles are small at the hole. Each quadrilateral between
two rings is cut into two triangles.

usage: plate.py > plate.msh
"""
import math

RINGS, SPOKES = 7, 40
HOLE, HALF = 0.02, 0.05
OUTER_GROUP, HOLE_GROUP, PLATE_GROUP = 1, 2, 3


def node(ring, spoke):
    angle = 2 * math.pi * spoke / SPOKES
    x, y = math.cos(angle), math.sin(angle)
    edge = HALF / max(abs(x), abs(y))
    radius = HOLE + (edge - HOLE) * (ring / RINGS) ** 1.5
    return radius * x, radius * y


def number(ring, spoke):
    return ring * SPOKES + spoke % SPOKES + 1


nodes = [node(ring, spoke) for ring in range(RINGS + 1) for spoke in range(SPOKES)]
elements = []
for spoke in range(SPOKES):
    elements.append((1, OUTER_GROUP, 1 + spoke * 4 // SPOKES, (number(RINGS, spoke), number(RINGS, spoke + 1))))
for spoke in range(SPOKES):
    elements.append((1, HOLE_GROUP, 5 + spoke * 4 // SPOKES, (number(0, spoke), number(0, spoke + 1))))
for ring in range(RINGS):
    for spoke in range(SPOKES):
        a, b = number(ring, spoke), number(ring, spoke + 1)
        c, d = number(ring + 1, spoke + 1), number(ring + 1, spoke)
        elements += [(2, PLATE_GROUP, 9, (a, d, c)), (2, PLATE_GROUP, 9, (a, c, b))]

print("$MeshFormat\n2.2 0 8\n$EndMeshFormat")
print('$PhysicalNames\n3\n1 1 "outer"\n1 2 "hole"\n2 3 "plate"\n$EndPhysicalNames')
print("$Nodes\n%d" % len(nodes))
for i, (x, y) in enumerate(nodes, 1):
    print("%d %.16g %.16g 0" % (i, x, y))
print("$EndNodes\n$Elements\n%d" % len(elements))
for i, (kind, group, entity, corners) in enumerate(elements, 1):
    print(i, kind, 2, group, entity, *corners)
print("$EndElements")
