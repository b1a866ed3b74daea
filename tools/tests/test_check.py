"""tools/check passes every text that is right, and refuses what is changed in one place."""
import re
import unittest
from importlib.machinery import SourceFileLoader
from importlib.util import module_from_spec, spec_from_loader

from printed import Printer, read_plan
from samples import TWO_TRIANGLES, by_chance, dressed
from tests_at import EXAMPLES, TOOLS, run

EVERYTHING = "show points / show local / show closure / show trace / show windows"
# What no other line of a text speaks of: counts of a file, names, words at solids of a flat mesh, and how
# many layers there are where one of them has reached everything.
FREE = re.compile('mesh .*(unused|loose|merged)|name |field 2 dofs "u" 1 2 0|step 1 overlap')


def load_check():
    """The functions of the tool, which is a program without an ending in its name."""
    loader = SourceFileLoader("check_tool", str(TOOLS / "check"))
    tool = module_from_spec(spec_from_loader("check_tool", loader))
    loader.exec_module(tool)
    return tool


def changes(text):
    """The text with one number greater or less by one, or with one line left out; and the line up to that place."""
    lines = text.splitlines(keepends=True)
    for k, line in enumerate(lines):
        yield "".join(lines[:k] + lines[k + 1:]), line
        for number in re.finditer("-?[0-9]+", line):
            for step in (-1, 1):
                changed = line[:number.start()] + str(int(number.group()) + step) + line[number.end():]
                yield "".join([*lines[:k], changed, *lines[k + 1:]]), line[:number.start()]


class Check(unittest.TestCase):
    def setUp(self):
        self.tool = load_check()

    def faults(self, text):
        """All faults that the tool finds."""
        try:
            return self.tool.check_text(self.tool.read_text(text.encode())).faults
        except self.tool.TextFault as fault:
            return [fault]

    def test_right_texts_pass(self):
        for seed in range(25):
            with self.subTest(seed=seed):
                self.assertEqual(self.faults(Printer(*by_chance(seed)).text()), [])

    def test_one_number_changed(self):
        plan = read_plan(f"ranks 3 / dofs u 1 2 0 3 / part 0 2 / overlap 1 / part 2 1 / {EVERYTHING}")
        text = Printer(dressed(TWO_TRIANGLES), plan, (2, 0, 1)).text()
        self.assertEqual(self.faults(text), [])
        passed = {place for changed, place in changes(text) if changed != text and not self.faults(changed)}
        self.assertEqual({place for place in passed if not FREE.match(place)}, set())

    def test_one_number_changed_without_copies(self):
        text = Printer(TWO_TRIANGLES, read_plan("ranks 2 / part 1 0 / show points / show closure / show windows")).text()
        passed = {place for changed, place in changes(text) if not self.faults(changed)}
        # Where a vertex lies is said once.
        self.assertEqual({place for place in passed if not FREE.match(place) and "@" not in place}, set())

    def test_another_cone_in_one_copy(self):
        text = Printer(TWO_TRIANGLES, read_plan("ranks 2 / part 0 1 / show local")).text()
        found = run("check", text.replace("L 1 4 e9 0 5 1:0 2:0", "L 1 4 e9 0 5 2:0 1:0"))
        self.assertEqual((found.returncode, found.stdout.splitlines()[0]), (1, "line 19: e9 is not as on line 13"))

    def test_a_cell_that_is_turned_wrongly(self):
        text = (EXAMPLES / "G1.text").read_text()
        found = run("check", text.replace("29:0 24:-1", "29:0 24:0"))
        self.assertEqual(found.returncode, 1)
        self.assertIn("the cone of c5 does not close", found.stdout)

    def test_what_is_no_text(self):
        text = (EXAMPLES / "G1.text").read_text()
        for source, said in ((text[:-4], "not whole"), ("refused: words\n", "refusal"), (text + "end\n", "may not stand here"),
                             ("", "not whole"), (text.replace("P 0", "P 00"), "no line of the text")):
            found = run("check", source)
            self.assertEqual(found.returncode, 2)
            self.assertIn(said, found.stdout)

    def test_help(self):
        for tool in ("check", "draw", "vtu"):
            self.assertEqual(run(tool, "", "--help").returncode, 0)


if __name__ == "__main__":
    unittest.main()
