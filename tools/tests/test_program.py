"""What the built programs print, beside the text by the definitions; and the stored pictures, beside the tools.

Without a built program these tests are passed over. Plans of several ranks are compared where the program
takes them, by `plexreplay`, whose picks say in which order ranks draw their numbers.
"""
import os
import subprocess
import tempfile
import unittest
from pathlib import Path

from meshes import grid, read_mesh
from printed import Printer, read_plan
from tests_at import EXAMPLES, TOP, run

EVERYTHING = "show points / show local / show closure / show trace / show windows"
ONE_RANK = ["ranks 1 / part block / show points", f"ranks 1 / dofs u 1 2 0 3 / part block / part stripe / {EVERYTHING}"]
ONCE = [f"ranks 4 / dofs u 1 2 0 3 / part block / {EVERYTHING}", f"ranks 3 / part stripe / {EVERYTHING}", f"ranks 64 / part block / {EVERYTHING}"]
RANKS = [f"ranks 3 / dofs u 1 2 0 3 / part stripe / {EVERYTHING}", f"ranks 4 / part block / part stripe / {EVERYTHING}",
         f"ranks 2 / part block / overlap 1 / part stripe / overlap 2 / overlap 0 / {EVERYTHING}"]
PICTURES = [("plate", "plate.msh", None, ()), ("two_triangles", "T2", None, ("--arrows", "--text", "--width", "440")),
            ("four_ranks", "plate.msh", "ranks 4 / part block / show points / show local", ("--rank", "1"))]
FILES = ["T1", "T2", "G1", "beam.msh", "plate.msh"]
GRIDS = [("tri", 3), ("quad", 4), ("tet", 2), ("hex", 3)]


def built(name):
    """The program of this name, in this tree or where the environment says."""
    return Path(os.environ.get(name.upper(), TOP / "crates" / name / "out" / name))


def lines(plan):
    """A plan as a file has it."""
    return plan.replace(" / ", "\n") + "\n"


class Program(unittest.TestCase):
    def setUp(self):
        folder = tempfile.TemporaryDirectory()
        self.addCleanup(folder.cleanup)
        self.folder = Path(folder.name)

    def printed(self, name, *words, plan=None):
        """What a program prints; the test is passed over where it is not built."""
        if not built(name).exists():
            self.skipTest(f"{name} is not built")
        if plan:
            (self.folder / "plan").write_text(lines(plan))
            words = (*words, "--plan", "plan")
        done = subprocess.run([built(name), *words], capture_output=True, encoding="utf-8", cwd=self.folder, check=False)
        return done.stdout

    def compare(self, name, mesh, plan, words, picks=()):
        """A program's text and that of the definitions are one; tools/check passes it."""
        printed = self.printed(name, *words, plan=plan)
        with self.subTest(plan=plan, words=words):
            if plan in RANKS and printed.endswith(" not yet\n"):
                self.skipTest("such plans are not taken yet")
            self.assertEqual(printed, Printer(mesh, read_plan(plan), picks).text())
            self.assertEqual(run("check", printed).returncode, 0)

    def each(self, name, plans, *words, picks=()):
        """All files and grids under all plans."""
        for plan in plans:
            for file in FILES:
                (self.folder / file).write_bytes((EXAMPLES / file).read_bytes())
                self.compare(name, read_mesh(EXAMPLES / file), plan, (*words, file), picks)
            for kind, n in GRIDS:
                self.compare(name, grid(kind, n), plan, (*words, "--make", f"{kind}:{n}"), picks)

    def test_one_rank(self):
        self.each("plexrun", ONE_RANK)

    def test_several_ranks(self):
        for picks in ("2,0,1", "-"):
            numbers = () if picks == "-" else tuple(map(int, picks.split(",")))
            self.each("plexreplay", ONCE + RANKS, picks, picks=numbers)

    def test_pictures_are_those_of_the_tools(self):
        for picture, file, plan, words in PICTURES:
            (self.folder / file).write_bytes((EXAMPLES / file).read_bytes())
            found = run("draw", self.printed("plexrun", file, plan=plan), *words)
            self.assertEqual(found.stdout, (TOP / "docs" / f"{picture}.svg").read_text())


if __name__ == "__main__":
    unittest.main()
