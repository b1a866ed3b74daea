"""tools/draw: what a picture has is counted against its text."""
import re
import unittest
from xml.etree import ElementTree

from meshes import grid, read_mesh
from printed import Printer, read_plan
from samples import TWO_TRIANGLES, dressed
from tests_at import EXAMPLES, run

SVG = "{http://www.w3.org/2000/svg}"


class Picture:
    """A picture of a text: its paths by style, and its texts."""

    def __init__(self, text, *words):
        self.found = run("draw", text, *words)
        root = ElementTree.fromstring(self.found.stdout)
        self.paths = [path.attrib for path in root.findall(f"{SVG}path")]
        self.circles = [circle.attrib for circle in root.findall(f"{SVG}circle")]
        self.texts = [text.text for text in root.iter(f"{SVG}text")]

    def parts(self, **style):
        """How many parts the paths of this style have."""
        return sum(path["d"].count("M") for path in self.paths if all(path.get(key) == value for key, value in style.items()))

    def cells(self):
        """How many cells have each colour."""
        closed = [path for path in self.paths if path["d"].endswith("z")]
        return {path["fill"]: path["d"].count("M") for path in closed}


def text_of(mesh, plan):
    return Printer(mesh, read_plan(plan)).text()


class Draw(unittest.TestCase):
    def test_two_triangles(self):
        text = text_of(TWO_TRIANGLES, "ranks 1 / part block / show points")
        picture = Picture(text, "--arrows", "--text")
        self.assertEqual(sum(picture.cells().values()), 2)
        self.assertTrue({"0 c0", "1 c1", "6 e8", "7 e9", "v3", "-1"} <= set(picture.texts))
        self.assertEqual(picture.texts[-len(text.splitlines()):], text.splitlines())
        self.assertEqual(picture.parts(stroke="#5580aa", fill="none", **{"marker-mid": "url(#arrow)"}), 5 + 1)

    def test_arrows_go_from_first_to_second_end(self):
        text = text_of(TWO_TRIANGLES, "ranks 1 / part block / show points")
        path = next(path["d"] for path in Picture(text, "--arrows").paths if "marker-mid" in path)
        corners = [[float(x) for x in point.split(",")] for point in re.findall("[0-9.]+,[0-9.]+", path)]
        # The second edge of the text, from vertex 1 at (1, 0) to vertex 2 at (0, 1): to the left and up.
        first, middle, second = corners[3:6]
        self.assertTrue(first[0] > middle[0] > second[0] and first[1] > middle[1] > second[1])

    def test_ghosts_of_one_rank(self):
        text = text_of(grid("quad", 3), "ranks 3 / part block / overlap 1 / show local")
        picture = Picture(text, "--rank", "0")
        last = text[text.index("step 1"):].splitlines()
        copies = [line.split() for line in last if line.startswith("L 0 ")]
        ghosts = [copy[3][0] for copy in copies if copy[4] != "0"]
        self.assertEqual(picture.cells()["url(#hatch)"], ghosts.count("c"))
        self.assertEqual(picture.cells()["#f4f4f4"], 9 - sum(copy[3][0] == "c" for copy in copies))
        dashed = [path for path in picture.paths if path.get("stroke-dasharray") and path["d"].count("M") > 1]
        self.assertEqual(sum(path["d"].count("M") for path in dashed), ghosts.count("e"))
        self.assertEqual(sum(circle["fill"] == "#d8d8d8" for circle in picture.circles), ghosts.count("v") + 1)

    def test_owners_of_two_thousand_cells(self):
        picture = Picture(text_of(grid("tri", 32), "ranks 6 / part stripe / show points"), "--arrows")
        found = picture.cells()
        self.assertEqual((sum(found.values()), len(found)), (2048, 6))
        self.assertEqual(picture.parts(stroke="#5580aa", **{"marker-mid": "url(#arrow)"}), 3 * 32 * 32 + 2 * 32 + 1)
        self.assertEqual(picture.texts, [f"cells of rank {rank}" for rank in range(6)] + ["an edge from its first end to its second"])
        self.assertEqual(picture.circles, [])

    def test_labels_with_their_names(self):
        text = text_of(read_mesh(EXAMPLES / "plate.msh"), "ranks 1 / part block / show points")
        picture = Picture(text)
        self.assertEqual(picture.texts, ['cells 3 "plate"', 'edges 1 "outer"', 'edges 2 "hole"'])
        coloured = [path["d"].count("M") for path in picture.paths if path.get("stroke", "").startswith("hsl")]
        edges = [sum(line.endswith(f" face={value}") for line in text.splitlines()) for value in (1, 2)]
        # Each colour has its edges, and one line of the legend.
        self.assertEqual(coloured, [edges[0], edges[1], 1, 1])

    def test_several_values_and_odd_names(self):
        picture = Picture(text_of(dressed(TWO_TRIANGLES), "ranks 1 / part block / show points"))
        self.assertTrue({'cells 3 "<left>", 7', 'cells without a label', 'edges 5 "a "rim""', 'vertices -2'} <= set(picture.texts))

    def test_plane_in_which_edges_have_no_length(self):
        text = text_of(TWO_TRIANGLES, "ranks 1 / part block / show points")
        heights = {circle["cy"] for circle in Picture(text, "--plane", "xz").circles}
        self.assertEqual(len(heights), 1)

    def test_what_cannot_be_drawn(self):
        flat = text_of(TWO_TRIANGLES, "ranks 2 / part 0 1 / show points")
        for text, words, said in ((text_of(grid("hex", 1), "ranks 1 / part block / show points"), (), "dimension 3"),
                                  (flat, ("--rank", "0"), "show local"), (flat, ("--step", "1"), "no step 1"),
                                  (text_of(TWO_TRIANGLES, "ranks 1 / part block"), (), "shows no points"),
                                  (flat[:-4], (), "not whole"), (flat.replace(":-1", ":0"), (), "does not close")):
            found = run("draw", text, *words)
            self.assertEqual((found.returncode, found.stdout), (1, ""))
            self.assertIn(said, found.stderr)


if __name__ == "__main__":
    unittest.main()
