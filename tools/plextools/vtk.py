"""Grids as files of VTK's XML formats: one .vtu for a piece, one .pvtu that names the pieces of all ranks.

Arrays are binary, little-endian, in base 64 within the file, after their length in bytes as a 64-bit number.
"""
from base64 import b64encode
from html import escape
from itertools import accumulate, chain
from struct import pack

from .grid import Array

CODES = {"UInt8": "B", "Int32": "i", "Int64": "q", "Float64": "d"}
OPENING = '<?xml version="1.0"?>\n<VTKFile type="{}" version="1.0" byte_order="LittleEndian" header_type="UInt64">'


def attributes(array):
    """The head of an array; a name that XML cannot hold has question marks, and one component needs no count."""
    name = "".join(letter if letter.isprintable() and not "\ud800" <= letter <= "\udfff" else "?" for letter in array.name)
    comps = f' NumberOfComponents="{array.comps}"' if array.comps > 1 else ""
    return f'type="{array.type}" Name="{escape(name)}"{comps}'


def data(array):
    """An array with its values."""
    values = pack(f"<{len(array.values)}{CODES[array.type]}", *array.values)
    coded = b64encode(pack("<Q", len(values)) + values).decode("ascii")
    return f'<DataArray {attributes(array)} format="binary">{coded}</DataArray>'


def named(name, arrays, one):
    """An element with one line for each array."""
    return [f"<{name}>", *map(one, arrays), f"</{name}>"]


def vtu(piece):
    """The .vtu file of a piece."""
    corners = list(chain.from_iterable(piece.cells))
    cells = [Array("connectivity", "Int64", 1, corners), Array("offsets", "Int64", 1, list(accumulate(map(len, piece.cells)))),
             Array("types", "UInt8", 1, piece.shapes)]
    at = [Array("Points", "Float64", 3, [float(x) for p in piece.at for x in p])]
    return "\n".join([
        OPENING.format("UnstructuredGrid"), "<UnstructuredGrid>",
        f'<Piece NumberOfPoints="{len(piece.at)}" NumberOfCells="{len(piece.cells)}">',
        *named("PointData", piece.on_points, data), *named("CellData", piece.on_cells, data),
        *named("Points", at, data), *named("Cells", cells, data),
        "</Piece>", "</UnstructuredGrid>", "</VTKFile>", ""])


def pvtu(piece, names, layers):
    """The .pvtu file of pieces with these file names, which have the arrays of this one."""
    def head(array):
        """An array without values."""
        return f"<PDataArray {attributes(array)}/>"
    return "\n".join([
        OPENING.format("PUnstructuredGrid"), f'<PUnstructuredGrid GhostLevel="{layers}">',
        *named("PPointData", piece.on_points, head), *named("PCellData", piece.on_cells, head),
        *named("PPoints", [Array("Points", "Float64", 3)], head),
        *(f'<Piece Source="{escape(name)}"/>' for name in names),
        "</PUnstructuredGrid>", "</VTKFile>", ""])
