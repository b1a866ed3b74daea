"""The texts that the tests make by the definitions, beside rows that were worked out apart from them."""
import unittest

from diagram import Diagram
from meshes import grid, read_mesh
from printed import Printer, read_plan
from samples import AROUND_A_VERTEX, STRIP, TWISTED_CUBES, TWO_TRIANGLES, cubes, tetrahedra
from spread import State, home_round
from tests_at import EXAMPLES

TWO_RANKS = """\
mesh dim 2 cells 2 vertices 4 unused 0 loose 0 merged 0
ranks 2
step 0 part
rank 0 cells 1 held 7 owned 7 base 0
rank 1 cells 1 held 7 owned 4 base 7
ghost 1 0 3
total 11 cells 2 vertices 4 faces 0 edges 5
L 0 0 c0 0 0 4:0 5:0 6:0
L 0 1 v0 0 1 @ 0 0 0
L 0 2 v1 0 2 @ 1 0 0
L 0 3 v2 0 3 @ 0 1 0
L 0 4 e8 0 4 1:0 2:0
L 0 5 e9 0 5 2:0 3:0
L 0 6 e10 0 6 3:0 1:0
L 1 0 c1 1 0 5:0 6:0 4:-1
L 1 1 v1 0 2 @ 1 0 0
L 1 2 v2 0 3 @ 0 1 0
L 1 3 v3 1 3 @ 1 1 0
L 1 4 e9 0 5 1:0 2:0
L 1 5 e72 1 5 1:0 3:0
L 1 6 e73 1 6 3:0 2:0
W home 0 9 9 1:74:9
W number 0 0 11 0:7:0 1:4:7
end
"""
SWAPPED = """\
rank 0 cells 1 held 7 owned 7 base 0
rank 1 cells 1 held 7 owned 4 base 7
ghost 1 0 3
total 11 cells 2 vertices 4 faces 0 edges 5
P 0 c1 5:0 6:0 4:-1
P 1 v1 @ 1 0 0
P 2 v2 @ 0 1 0
P 3 v3 @ 1 1 0
P 4 e9 1:0 2:0
P 5 e72 1:0 3:0
P 6 e73 3:0 2:0
P 7 c0 9:0 4:0 10:0
P 8 v0 @ 0 0 0
P 9 e8 8:0 1:0
P 10 e10 2:0 8:0
"""


def lines(mesh, plan, picks=()):
    """The lines of a mesh under a plan."""
    return Printer(mesh, read_plan(plan), picks).text().splitlines()


def steps(found):
    """The lines of each step, without its first one."""
    starts = [k for k, line in enumerate(found) if line.startswith("step")]
    return [found[a + 1:b] for a, b in zip(starts, starts[1:] + [len(found) - 1])]


def column(step, word):
    """One number of each rank line."""
    return [int(line.split()[line.split().index(word) + 1]) for line in step if line.startswith("rank ")]


class OnOneRank(unittest.TestCase):
    def test_closures_of_two_triangles(self):
        found = lines(TWO_TRIANGLES, "ranks 1 / part block / show points / show closure")
        for line in ("P 1 c1 9:0 10:0 7:-1", "P 9 e72 3:0 5:0", "C 0 0:0 6:0 7:0 8:0 2:0 3:0 4:0",
                     "C 1 1:0 9:0 10:0 7:-1 3:0 5:0 4:0"):
            self.assertIn(line, found)

    def test_plate_with_names_and_labels(self):
        mesh = read_mesh(EXAMPLES / "G1")
        text = Printer(mesh, read_plan("ranks 1 / part block / show points")).text()
        self.assertEqual(text, (EXAMPLES / "G1.text").read_text())

    def test_faces_of_two_tetrahedra(self):
        seconds = [(1, 2, 3, 4), (1, 3, 2, 4), (2, 1, 3, 4), (2, 3, 1, 4), (3, 1, 2, 4), (3, 2, 1, 4)]
        turns = [Diagram(tetrahedra(second)).cone((3, frozenset(second)))[0][1] for second in seconds]
        self.assertEqual(turns, [-1, 0, 1, -2, -3, 2])

    def test_faces_of_two_hexahedra(self):
        bottoms = [(4, 5, 6, 7), (5, 6, 7, 4), (6, 7, 4, 5), (7, 4, 5, 6), (4, 7, 6, 5), (5, 4, 7, 6), (6, 5, 4, 7), (7, 6, 5, 4)]
        turns = []
        for bottom in bottoms:
            diagram = Diagram(cubes(bottom))
            turns.append(diagram.cone((3, frozenset(range(4, 12))))[0][1])
            self.assertEqual(diagram.key((2, frozenset(bottom))), 2)
        self.assertEqual(turns, [-1, -2, -3, -4, 0, 1, 2, 3])


class OnSeveralRanks(unittest.TestCase):
    def test_two_triangles_two_ranks(self):
        plan = read_plan("ranks 2 / part 0 1 / show local / show windows")
        self.assertEqual(Printer(TWO_TRIANGLES, plan).text(), TWO_RANKS)

    def test_rank_without_cells(self):
        found = lines(TWO_TRIANGLES, "ranks 3 / part 0 2 / show windows")
        for line in ("rank 1 cells 0 held 0 owned 0 base 7", "rank 2 cells 1 held 7 owned 4 base 7", "ghost 2 0 3",
                     "W home 0 9 9 2:74:9", "W number 0 0 11 0:7:0 1:0:7 2:4:7"):
            self.assertIn(line, found)

    def test_key_from_the_other_rank(self):
        found = lines(TWO_TRIANGLES, "ranks 2 / part 1 0 / show points / show windows")
        self.assertEqual(found[3:-1], [*SWAPPED.splitlines(), "W home 0 74 9 1:9:74", "W number 0 0 11 0:7:0 1:4:7"])

    def test_bases_as_picked(self):
        plan = "ranks 3 / part 0 2 / show windows"
        self.assertIn("W number 0 0 11 2:4:0 0:7:4 1:0:11", lines(TWO_TRIANGLES, plan, (2, 0, 1)))
        self.assertIn("W number 0 0 11 1:0:0 2:4:0 0:7:4", lines(TWO_TRIANGLES, plan, (1, 2, 0)))

    def test_words_of_twisted_hexahedra(self):
        diagram = Diagram(TWISTED_CUBES)
        words, after, turns = home_round(State(diagram, 2, [0, 1], 0), ())
        self.assertEqual((words, after), ([2, 15, 13], [2, 15, 13]))
        self.assertEqual([listed[0][1] for listed in turns], [65, 75, 73])
        self.assertEqual(diagram.twist(), 65)

    def test_layer_reaches_across_one_vertex(self):
        first, second = steps(lines(AROUND_A_VERTEX, "ranks 4 / part 0 1 2 3 / overlap 1"))
        self.assertEqual((column(first, "owned"), column(first, "held")), ([7, 4, 4, 2], [7] * 4))
        self.assertEqual(column(first, "base"), [0, 7, 11, 15])
        self.assertEqual(first[4:-1], ["ghost 1 0 3", "ghost 2 0 1", "ghost 2 1 2", "ghost 3 0 3", "ghost 3 2 2"])
        owned = [7, 4, 4, 2]
        self.assertEqual(column(second, "held"), [17] * 4)
        self.assertEqual(second[4:-1], [f"ghost {r} {o} {owned[o]}" for r in range(4) for o in range(4) if r != o])
        self.assertTrue(second[-1].startswith("total 17 "))

    def test_strips_move_and_return(self):
        found = steps(lines(STRIP, "ranks 4 / part block / part stripe / part block / show trace"))
        self.assertEqual((column(found[0], "held"), column(found[0], "owned")), ([15] * 4, [15, 12, 12, 12]))
        self.assertEqual((column(found[1], "held"), column(found[1], "owned")), ([18] * 4, [18, 12, 12, 9]))
        self.assertEqual((column(found[0], "base"), column(found[1], "base")), ([0, 15, 27, 39], [0, 18, 30, 42]))
        self.assertEqual(found[0], found[2])

    def test_layers_then_a_part(self):
        moved = steps(lines(STRIP, "ranks 4 / part block / part stripe / show trace"))
        found = steps(lines(STRIP, "ranks 4 / part block / overlap 2 / part stripe / show trace"))
        self.assertEqual((column(found[1], "held"), column(found[1], "owned")), ([27, 39, 39, 27], [15, 12, 12, 12]))
        self.assertEqual(found[2], moved[1])

    def test_part_that_swaps_two_ranks(self):
        plan = "ranks 2 / part 0 1 / part 1 0 / show points / show trace / show windows"
        traces = ["1 0", "0 2", "0 3", "1 3", "0 5", "1 5", "1 6", "0 0", "0 1", "0 4", "0 6"]
        second = steps(lines(TWO_TRIANGLES, plan))[1]
        wanted = SWAPPED.splitlines() + [f"T {k} {trace}" for k, trace in enumerate(traces)]
        self.assertEqual(second, [*wanted, "W number 0 0 11 0:7:0 1:4:7"])

    def test_one_layer_and_back(self):
        found = steps(lines(TWO_TRIANGLES, "ranks 2 / part 0 1 / overlap 1 / overlap 0"))
        self.assertEqual(found[1][:4], ["rank 0 cells 1 held 11 owned 7 base 0", "rank 1 cells 1 held 11 owned 4 base 7",
                                        "ghost 0 1 4", "ghost 1 0 7"])
        self.assertEqual(found[0], found[2])

    def test_sums_of_cubes_on_four_ranks(self):
        plan = read_plan("ranks 4 / dofs u 0 0 0 1 / part block / part stripe / overlap 1")
        plan.summary = True
        sums = [line for line in Printer(grid("hex", 4), plan).text().splitlines() if line.startswith("sum")]
        # n cubes along each side have (2n + 1)^3 points; 6 entries a cube, 4 a face and 2 an edge.
        self.assertEqual({line.split()[4] for line in sums}, {"729"})
        self.assertEqual({line.split()[6] for line in sums}, {str(6 * 64 + 4 * 3 * 16 * 5 + 2 * 3 * 4 * 25)})
        self.assertEqual({line.split()[-1] for line in sums}, {str(64 * 65 // 2)})


if __name__ == "__main__":
    unittest.main()
