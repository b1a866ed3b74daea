"""tools/vtu: its files are read as XML, and their counts, corners and arrays compared with text and mesh."""
import math
import tempfile
import unittest
from base64 import b64decode
from pathlib import Path
from struct import unpack
from xml.etree import ElementTree

from diagram import Diagram
from meshes import UNIT, grid, read_mesh
from printed import Printer, read_plan
from samples import TWO_TRIANGLES, by_chance, dressed
from tests_at import EXAMPLES, run

CODES = {"UInt8": ("B", 1), "Int32": ("i", 4), "Int64": ("q", 8), "Float64": ("d", 8)}
TYPES = {(2, 3): 5, (2, 4): 9, (3, 4): 10, (3, 8): 12, (1, 2): 3}


def values(array):
    """The values of an array, in tuples of its components."""
    raw = b64decode(array.text)
    code, size = CODES[array.get("type")]
    (length,) = unpack("<Q", raw[:8])
    assert length == len(raw) - 8
    flat = unpack(f"<{length // size}{code}", raw[8:])
    comps = int(array.get("NumberOfComponents", 1))
    return [flat[k:k + comps] for k in range(0, len(flat), comps)]


class File:
    """A .vtu file: arrays on points and on cells by name, corners and types of cells."""

    def __init__(self, path):
        piece = ElementTree.parse(path).getroot().find("UnstructuredGrid/Piece")
        self.counts = int(piece.get("NumberOfPoints")), int(piece.get("NumberOfCells"))
        self.points = {array.get("Name"): values(array) for array in piece.find("PointData")}
        self.cells = {array.get("Name"): values(array) for array in piece.find("CellData")}
        self.at = values(piece.find("Points/DataArray"))
        shape = {array.get("Name"): [one for (one,) in values(array)] for array in piece.find("Cells")}
        ends = [0, *shape["offsets"]]
        self.types = shape["types"]
        self.corners = [shape["connectivity"][a:b] for a, b in zip(ends, ends[1:])]


class Vtu(unittest.TestCase):
    def setUp(self):
        folder = tempfile.TemporaryDirectory()
        self.addCleanup(folder.cleanup)
        self.folder = Path(folder.name)

    def write(self, mesh, plan, *words, picks=()):
        """The text of a mesh under a plan, and the names of the files that are made of it."""
        text = Printer(mesh, read_plan(plan), picks).text()
        found = run("vtu", text, *words, folder=self.folder)
        self.assertEqual(found.returncode, 0, found.stderr)
        return text, found.stdout.split()

    def check_cells(self, file, mesh, tags):
        """The cells of a file are those of these tags, on the vertices that the diagram has for them."""
        diagram = Diagram(mesh)
        points = {diagram.tag(p): p for p in diagram.points}
        keys = [key for (key,) in file.points["key"]]
        self.assertEqual(file.at, [tuple(x / UNIT for x in mesh.at[key]) for key in keys])
        for tag, corners, kind, (key,) in zip(tags, file.corners, file.types, file.cells["key"]):
            listed = diagram.arrangement(points[tag])
            self.assertEqual([keys[k] for k in corners], list(listed))
            self.assertEqual((kind, key), (TYPES[points[tag][0], len(listed)], int(tag[1:])))

    def check_rank(self, text, mesh, rank, letters):
        """The file of a rank has its copies, with owners, local numbers, numbers and ghosts."""
        file = File(self.folder / f"mesh_{rank}.vtu")
        copies = [line.split() for line in text.splitlines() if line.startswith(f"L {rank} ")]
        sizes = {line.split()[1]: int(line.split()[-1]) for line in text.splitlines() if line.startswith("rank ")}
        number = {}
        for line in text.splitlines():
            if line.startswith("L "):
                _, holder, _, tag, owner, *_ = line.split()
                if holder == owner:
                    number[tag] = sizes[owner]
                    sizes[owner] += 1
        for data, mine in ((file.points, [copy for copy in copies if copy[3][0] == "v"]),
                           (file.cells, [copy for letter in letters for copy in copies if copy[3][0] == letter])):
            self.assertEqual(data["owner"], [(int(copy[4]),) for copy in mine])
            self.assertEqual(data["local"], [(int(copy[2]),) for copy in mine])
            self.assertEqual(data["number"], [(number[copy[3]],) for copy in mine])
            self.assertEqual(data["vtkGhostType"], [(int(copy[4] != str(rank)),) for copy in mine])
        self.check_cells(file, mesh, [copy[3] for copy in mine])
        self.assertEqual(file.counts, (len(file.at), len(file.corners)))

    def test_each_rank_has_a_file(self):
        for seed in range(8):
            mesh, plan, _ = by_chance(seed)
            steps = "".join(f" / overlap {step}" for step in plan.steps[1:] if step == 1)
            listed = " ".join(str(c * 7 % plan.ranks) for c in range(len(mesh.cells)))
            with self.subTest(seed=seed):
                text, names = self.write(mesh, f"ranks {plan.ranks} / part {listed}{steps} / show local", "--all")
                self.assertEqual(names, [*(f"mesh_{r}.vtu" for r in range(plan.ranks)), "mesh.pvtu"])
                last = text[text.rindex("\nstep ") + 1:]
                for rank in range(plan.ranks):
                    self.check_rank(last, mesh, rank, "cfe")

    def test_all_ranks_have_one_collection(self):
        mesh = dressed(grid("tet", 1))
        self.write(mesh, "ranks 3 / dofs w 2 0 0 1 / part 0 2 2 0 0 0 / overlap 1 / overlap 1 / show local")
        whole = ElementTree.parse(self.folder / "mesh.pvtu").getroot().find("PUnstructuredGrid")
        self.assertEqual(whole.get("GhostLevel"), "2")
        self.assertEqual([piece.get("Source") for piece in whole.findall("Piece")], [f"mesh_{rank}.vtu" for rank in range(3)])
        for rank in range(3):
            piece = ElementTree.parse(self.folder / f"mesh_{rank}.vtu").getroot().find("UnstructuredGrid/Piece")
            for part in ("PointData", "CellData", "Points"):
                heads = [[array.get(key) for key in ("type", "Name", "NumberOfComponents")] for array in whole.find("P" + part)]
                self.assertEqual(heads, [[array.get(key) for key in ("type", "Name", "NumberOfComponents")] for array in piece.find(part)])
        self.assertEqual(File(self.folder / "mesh_1.vtu").counts, (0, 0))

    def test_labels_and_fields(self):
        self.write(dressed(TWO_TRIANGLES), "ranks 1 / dofs w 2 1 0 0 / part block / show points", "--all", "--output", "two")
        file = File(self.folder / "two.vtu")
        self.assertEqual(file.cells["label"], [(3, 7), (0, 0), (5, 0)] + 4 * [(0, 0)])
        self.assertEqual(file.points["label"], [(-2,), (0,), (0,), (0,)])
        self.assertEqual(file.cells["dimension"], 2 * [(2,)] + 5 * [(1,)])
        self.assertEqual(file.points["heat & light"][:2], [(5 / UNIT,), (-1.0,)])
        self.assertTrue(all(math.isnan(x) for (x,) in file.points["heat & light"][2:]))
        self.assertEqual(file.cells["owner d1"][0], (1 / UNIT, 2 / UNIT, 3.0))
        self.assertEqual(file.points["w"], [(1.0, 2.0), (3.0, 6.0), (3.0, 6.0), (2.0, 4.0)])
        self.assertEqual(file.cells["w"][2:], [(1.0,), (3.0,), (1.0,), (2.0,), (2.0,)])
        self.assertTrue(math.isnan(file.cells["w"][0][0]))

    def test_owned_points_of_several_ranks(self):
        mesh = read_mesh(EXAMPLES / "beam.msh")
        text, names = self.write(mesh, "ranks 3 / part stripe / show points")
        self.assertEqual(names, ["mesh.vtu"])
        file = File(self.folder / "mesh.vtu")
        points = [line.split() for line in text.splitlines() if line.startswith("P ")]
        cells = [point for point in points if point[2][0] == "c"]
        self.assertEqual(file.counts, (63, 24))
        self.assertEqual(file.cells["number"], [(int(point[1]),) for point in cells])
        self.assertEqual(file.cells["owner"], [(int(point[2][1:]) % 3,) for point in cells])
        self.check_cells(file, mesh, [point[2] for point in cells])
        self.assertNotIn("vtkGhostType", file.cells)

    def test_what_cannot_be_written(self):
        text = Printer(TWO_TRIANGLES, read_plan("ranks 1 / part block / show points")).text()
        for source, words, said in ((text, ("--from", "local"), "does not show"), (text, ("--step", "1"), "no step 1"),
                                    (text[:-4], (), "not whole"), (text.replace("7:-1", "7:0"), (), "does not close")):
            found = run("vtu", source, *words, folder=self.folder)
            self.assertEqual((found.returncode, found.stdout), (1, ""))
            self.assertIn(said, found.stderr)


if __name__ == "__main__":
    unittest.main()
