"""Reads the text that plexrun prints: every line into a record, and the records into steps.

The forms of the lines are those of the table in the top README. A line of another form, a line that stands
where it may not, and a text without its last line are faults, with the number of the line.
"""
import re
from dataclasses import dataclass, field


class TextFault(Exception):
    """A line that is not of the text's form, by its number from 1, and why."""

    def __init__(self, line, why):
        super().__init__(f"line {line}: {why}")
        self.line = line


@dataclass
class Tail:
    """What stands behind a point: cone entries, coordinates of a vertex, labels, words of each field."""
    cone: list
    at: tuple
    labels: list
    data: dict


@dataclass
class Point:
    """A `P` line: an owned point by its number."""
    line: int
    number: int
    tag: str
    tail: Tail


@dataclass
class Copy:
    """An `L` line: a point that a rank holds, by the rank's local number."""
    line: int
    rank: int
    local: int
    tag: str
    owner: int
    root: int
    tail: Tail


@dataclass
class Rank:
    """A `rank` line: assigned cells, held and owned points, and the first number of its points."""
    line: int
    rank: int
    cells: int
    held: int
    owned: int
    base: int


@dataclass
class Word:
    """A `W` line: a word of a round, its first and last value, and its turns (rank, value, got)."""
    line: int
    round: str
    word: int
    before: int
    after: int
    turns: list


@dataclass
class Sums:
    """A `sum` line; coordinates and data are texts of fixed-point numbers."""
    line: int
    held: int
    owned: int
    entries: int
    back: int
    at: str
    data: str
    dofs: int


@dataclass
class Step:
    """A part, or an overlap line with its layers, and all that was printed of it."""
    line: int
    place: int
    layers: int | None
    ranks: list = field(default_factory=list)
    ghosts: dict = field(default_factory=dict)
    total: tuple = ()
    points: list = field(default_factory=list)
    copies: list = field(default_factory=list)
    closures: list = field(default_factory=list)
    traces: list = field(default_factory=list)
    words: list = field(default_factory=list)
    sums: Sums | None = None


@dataclass
class Section:
    """A `field` line: `node`, `element` or `dofs`, its name, and its words by dimension or one count."""
    place: str
    name: str
    counts: tuple


@dataclass
class Text:
    """The whole text. `names` are (dimension, number, text)."""
    dim: int = 0
    cells: int = 0
    vertices: int = 0
    names: list = field(default_factory=list)
    sections: list = field(default_factory=list)
    ranks: int = 0
    steps: list = field(default_factory=list)
    lines: int = 0


PARTS = {
    "n": "(0|[1-9][0-9]*)",
    "z": "(0|-?[1-9][0-9]*)",
    "x": r"((?!-0$)(?!-0 )-?(?:0|[1-9][0-9]*)(?:\.[0-9]*[1-9])?)",
    "tag": "([cvfe](?:0|[1-9][0-9]*))",
    "words": "((?: [^ ]+)*)",
    "some": "((?: [^ ]+)+)",
}
LINES = {
    "mesh": "mesh dim %(n)s cells %(n)s vertices %(n)s unused %(n)s loose %(n)s merged %(n)s",
    "name": 'name %(n)s %(z)s "(.*)"',
    "data": 'field %(n)s (node|element) %(n)s "(.*)"',
    "dofs": 'field %(n)s dofs "([A-Za-z0-9_]{1,32})" %(n)s %(n)s %(n)s %(n)s',
    "ranks": "ranks %(n)s",
    "part": "step %(n)s part",
    "overlap": "step %(n)s overlap %(n)s",
    "sum": "sum held %(n)s owned %(n)s entries %(n)s back %(n)s at %(x)s data %(x)s dofs %(n)s",
    "rank": "rank %(n)s cells %(n)s held %(n)s owned %(n)s base %(n)s",
    "ghost": "ghost %(n)s %(n)s %(n)s",
    "total": "total %(n)s cells %(n)s vertices %(n)s faces %(n)s edges %(n)s",
    "point": "P %(n)s %(tag)s%(words)s",
    "copy": "L %(n)s %(n)s %(tag)s %(n)s %(n)s%(words)s",
    "closure": "C %(n)s%(some)s",
    "trace": "T %(n)s %(n)s %(n)s",
    "word": "W (home|number) %(n)s %(n)s %(n)s%(some)s",
    "end": "end",
}
FORMS = {kind: re.compile(line % PARTS, re.DOTALL) for kind, line in LINES.items()}
FIXED = re.compile(PARTS["x"])
ENTRY, TURN = re.compile("%(n)s:%(z)s" % PARTS), re.compile("%(n)s:%(n)s:%(n)s" % PARTS)
LABEL = re.compile("(cell|face|edge|vertex)=%(z)s" % PARTS)
DATA = re.compile("d%(n)s=([^,]+(?:,[^,]+)*)" % PARTS)
LABELS = ("cell", "face", "edge", "vertex")

# Which kinds of lines may follow each kind.
OF_STEP = ["rank", "ghost", "total", "point", "copy", "closure", "trace", "word"]
HEAD = ["mesh", "name", "data", "dofs", "ranks"]
STEPS = {"part", "overlap"}
ONCE = {"mesh", "ranks", "total", "sum"}


def may_follow(before, kind):
    """Whether a line of this kind may stand directly after one of the kind `before` (None at the beginning)."""
    if before in (None, "end"):
        return before is None and kind == "mesh"
    if before in HEAD[:-1]:
        return kind in HEAD[HEAD.index(before) + (before in ONCE):]
    if before == "ranks":
        return kind == "part"
    if before in STEPS:
        return kind in ("rank", "sum")
    if before in ("rank", "ghost"):
        return kind in ("rank", "ghost", "total") and (before, kind) != ("ghost", "rank")
    if kind in STEPS or kind == "end":
        return True
    return before in OF_STEP and kind in OF_STEP[OF_STEP.index(before) + (before in ONCE):]


def entries(words, form, line):
    """The numbers of each word of one form, as cone entries or turns."""
    found = [form.fullmatch(word) for word in words]
    if None in found:
        raise TextFault(line, f"`{words[found.index(None)]}` is no entry")
    return [tuple(map(int, match.groups())) for match in found]


def tail(words, line):
    """The tail of a point: cone entries, then coordinates, labels and data, each only in its place."""
    rest = list(words)
    cone = []
    while rest and ENTRY.fullmatch(rest[0]):
        cone.append(rest.pop(0))
    at = ()
    if rest and rest[0] == "@":
        at, rest = tuple(rest[1:4]), rest[4:]
        if len(at) < 3 or not all(FIXED.fullmatch(x) for x in at):
            raise TextFault(line, "a vertex has three coordinates")
    labels, data = [], {}
    while rest and LABEL.fullmatch(rest[0]):
        name, value = LABEL.fullmatch(rest.pop(0)).groups()
        labels.append((name, int(value)))
    while rest and DATA.fullmatch(rest[0]):
        place, values = DATA.fullmatch(rest.pop(0)).groups()
        if data and int(place) <= max(data):
            raise TextFault(line, "fields are not in their order")
        data[int(place)] = values.split(",")
    if rest:
        raise TextFault(line, f"`{rest[0]}` is no part of a point here")
    return Tail(entries(cone, ENTRY, line), at, labels, data)


class Reader:
    """Takes line after line, in order, and keeps what they say: `take_KIND` has the words of a line of that kind."""

    def __init__(self):
        self.text, self.line, self.before = Text(), 0, None

    def take(self, line):
        """One line; its kind is the one whose form it has."""
        self.line += 1
        for kind, form in FORMS.items():
            match = form.fullmatch(line)
            if match:
                if not may_follow(self.before, kind):
                    raise TextFault(self.line, f"a line `{kind}` may not stand here")
                getattr(self, "take_" + kind)(*match.groups())
                self.before = kind
                return
        raise TextFault(self.line, f"no line of the text: {line[:60]}")

    def numbers(self, *words):
        """Words of digits as numbers."""
        return [int(word) for word in words]

    @property
    def step(self):
        """The step of which lines are read."""
        return self.text.steps[-1]

    def take_mesh(self, dim, cells, vertices, *_counts):
        self.text.dim, self.text.cells, self.text.vertices = self.numbers(dim, cells, vertices)
        if self.text.dim not in (2, 3):
            raise TextFault(self.line, "a mesh has the dimension 2 or 3")

    def take_name(self, dim, number, text):
        self.text.names.append((int(dim), int(number), text))

    def take_data(self, place, on, comps, name):
        if comps not in ("1", "3", "9"):
            raise TextFault(self.line, "data has 1, 3 or 9 components")
        self.section(place, Section(on, name, (int(comps),)))

    def take_dofs(self, place, name, *counts):
        self.section(place, Section("dofs", name, tuple(self.numbers(*counts))))

    def section(self, place, section):
        """One more field, which has the next place."""
        if int(place) != len(self.text.sections):
            raise TextFault(self.line, "fields are not numbered in order")
        self.text.sections.append(section)

    def take_ranks(self, ranks):
        self.text.ranks = int(ranks)
        if not 1 <= self.text.ranks <= 64:
            raise TextFault(self.line, "there are 1 to 64 ranks")

    def take_part(self, place):
        self.take_overlap(place, None)

    def take_overlap(self, place, layers):
        if int(place) != len(self.text.steps):
            raise TextFault(self.line, "steps are not numbered in order")
        self.text.steps.append(Step(self.line, int(place), None if layers is None else int(layers)))

    def take_sum(self, held, owned, count, back, at, data, dofs):
        self.step.sums = Sums(self.line, *self.numbers(held, owned, count, back), at, data, int(dofs))

    def take_rank(self, *words):
        self.step.ranks.append(Rank(self.line, *self.numbers(*words)))

    def take_ghost(self, rank, owner, count):
        pair = int(rank), int(owner)
        if self.step.ghosts and pair <= max(self.step.ghosts):
            raise TextFault(self.line, "ghost lines do not rise")
        self.step.ghosts[pair] = int(count)

    def take_total(self, *words):
        self.step.total = tuple(self.numbers(*words))

    def take_point(self, number, tag, words):
        self.step.points.append(Point(self.line, int(number), tag, tail(words.split(" ")[1:], self.line)))

    def take_copy(self, rank, local, tag, owner, root, words):
        numbers = self.numbers(rank, local), self.numbers(owner, root)
        self.step.copies.append(Copy(self.line, *numbers[0], tag, *numbers[1], tail(words.split(" ")[1:], self.line)))

    def take_closure(self, number, words):
        self.step.closures.append((self.line, int(number), entries(words.split(" ")[1:], ENTRY, self.line)))

    def take_trace(self, *words):
        self.step.traces.append((self.line, *self.numbers(*words)))

    def take_word(self, kind, word, before, after, words):
        numbers = self.numbers(word, before, after)
        self.step.words.append(Word(self.line, kind, *numbers, entries(words.split(" ")[1:], TURN, self.line)))

    def take_end(self):
        self.text.lines = self.line


def read_text(source):
    """The text of these bytes. Bytes of names that are no UTF-8 are kept as they are."""
    lines = source.decode("utf-8", "surrogateescape").split("\n")
    if lines[0].startswith("refused: "):
        raise TextFault(1, f"a refusal and no text ({lines[0]})")
    reader = Reader()
    for line in lines[:-1]:
        reader.take(line)
    if lines[-1] or reader.before != "end":
        raise TextFault(len(lines), "the text is not whole: its last line is not `end`")
    return reader.text
