"""The whole text of a mesh under a plan, by its definitions: what plexrun has to print, for any number of ranks."""
from dataclasses import dataclass, field

from diagram import Diagram
from meshes import UNIT
from spread import State, home_round, number_round

LABELS = {2: ("vertex", "face", "cell"), 3: ("vertex", "edge", "face", "cell")}


@dataclass
class Plan:
    """Ranks, steps (a list of ranks, `block`, `stripe`, or a number of layers), `dofs` lines and what is shown."""
    ranks: int = 1
    steps: list = field(default_factory=list)
    dofs: list = field(default_factory=list)
    show: set = field(default_factory=set)
    summary: bool = False


def read_plan(source):
    """A right plan of lines, or with ` / ` between them."""
    plan = Plan()
    for line in source.replace(" / ", "\n").splitlines():
        word, *rest = line.split() or ["#"]
        if word == "ranks":
            plan.ranks = int(rest[0])
        elif word == "part":
            plan.steps.append(rest[0] if rest[0] in ("block", "stripe") else [int(r) for r in rest])
        elif word == "overlap":
            plan.steps.append(int(rest[0]))
        elif word == "dofs":
            plan.dofs.append((rest[0], [int(d) for d in rest[1:]]))
        elif word == "show":
            plan.show.add(rest[0])
    return plan


def fixed(value):
    """The shortest decimal text of a value in units of 10^-10."""
    whole, rest = divmod(abs(value), UNIT)
    digits = f".{rest:010d}".rstrip("0") if rest else ""
    return f"{'-' if value < 0 else ''}{whole}{digits}"


def assignment(step, cells, ranks):
    """The rank of each cell under a part."""
    if step == "block":
        return [c * ranks // cells for c in range(cells)]
    return [c % ranks for c in range(cells)] if step == "stripe" else step


class Printer:
    """Lines of a mesh under a plan; rounds go by the picks."""

    def __init__(self, mesh, plan, picks=()):
        self.mesh, self.plan, self.picks = mesh, plan, picks
        self.diagram, self.lines, self.trace = Diagram(mesh), [], {}
        self.labels = {}
        for dim, on, value in mesh.marks:
            self.labels.setdefault((dim, on), set()).add(value)

    def say(self, *words):
        self.lines.append(" ".join(str(word) for word in words))

    def head(self):
        mesh = self.mesh
        self.say("mesh dim", mesh.dim, "cells", len(mesh.cells), "vertices", len(mesh.at),
                 "unused", mesh.counts[0], "loose", mesh.counts[1], "merged", mesh.counts[2])
        for dim, number, text in mesh.names:
            self.say("name", dim, number, f'"{text}"')
        for i, (place, name, comps, _) in enumerate(mesh.data):
            self.say("field", i, place, comps, f'"{name}"')
        for i, (name, counts) in enumerate(self.plan.dofs):
            self.say("field", len(mesh.data) + i, "dofs", f'"{name}"', *counts)
        self.say("ranks", self.plan.ranks)

    def fields(self, p):
        """The words of each field at a point, as texts."""
        found = []
        for place, _, _, rows in self.mesh.data:
            on = self.diagram.key(p) if place == "node" else self.diagram.key(p) // 64
            here = p[0] == (0 if place == "node" else self.mesh.dim)
            found.append([fixed(value) for value in rows.get(on, [])] if here else [])
        weight = sum(c + 1 for c in self.diagram.cells(p))
        for _, counts in self.plan.dofs:
            found.append([str((i + 1) * weight) for i in range(counts[p[0]])])
        return found

    def tail(self, p, numbers):
        """What stands behind a point, with cone entries by these numbers."""
        words = [f"{numbers[q]}:{o}" for q, o in self.diagram.cone(p)]
        if p[0] == 0:
            words += ["@", *map(fixed, self.mesh.at[self.diagram.key(p)])]
        words += [f"{LABELS[self.mesh.dim][p[0]]}={value}" for value in sorted(self.labels.get(p, ()))]
        return words + [f"d{i}={','.join(values)}" for i, values in enumerate(self.fields(p)) if values]

    def sums(self, state):
        """The one line of a step under a summary."""
        points, cones = self.diagram.points, [self.diagram.cone(p) for p in self.diagram.points]
        entries = [o for cone in cones for _, o in cone]
        data = sum(value for _, _, _, rows in self.mesh.data for values in rows.values() for value in values)
        dofs = sum(int(word) for p in points for values in self.fields(p)[len(self.mesh.data):] for word in values)
        self.say("sum held", sum(map(len, state.local)), "owned", len(points), "entries", len(entries),
                 "back", sum(o < 0 for o in entries), "at", fixed(sum(map(sum, self.mesh.at))), "data", fixed(data), "dofs", dofs)

    def counts(self, state, bases):
        """Rank, ghost and total lines."""
        for r in range(state.ranks):
            self.say("rank", r, "cells", len(state.own_cells[r]), "held", len(state.local[r]),
                     "owned", len(state.owned[r]), "base", bases[r])
        for r in range(state.ranks):
            for o in range(state.ranks):
                ghosts = sum(state.owner[p] == o for p in state.local[r])
                if r != o and ghosts:
                    self.say("ghost", r, o, ghosts)
        strata = [sum(self.diagram.stratum(p) == s for p in self.diagram.points) for s in range(4)]
        self.say("total", sum(strata), "cells", strata[0], "vertices", strata[1], "faces", strata[2], "edges", strata[3])

    def points(self, state, numbers):
        """P, L and C lines, as far as they are shown."""
        places = [{p: i for i, p in enumerate(chart)} for chart in state.local]
        if "points" in self.plan.show:
            for p in sum(state.owned, []):
                self.say("P", numbers[p], self.diagram.tag(p), *self.tail(p, numbers))
        if "local" in self.plan.show:
            for r, chart in enumerate(state.local):
                for i, p in enumerate(chart):
                    owner = state.owner[p]
                    self.say("L", r, i, self.diagram.tag(p), owner, places[owner][p], *self.tail(p, places[r]))
        if "closure" in self.plan.show:
            for p in sum(state.owned, []):
                if p[0] == self.mesh.dim:
                    self.say("C", numbers[p], *(f"{numbers[q]}:{o}" for q, o in self.diagram.closure(p)))

    def rounds(self, place, state, drawn):
        """T and W lines, as far as they are shown."""
        numbers, after, turns = drawn
        if "trace" in self.plan.show:
            for p in sum(state.owned, []):
                self.say("T", numbers[p], *self.trace[p])
        if "windows" in self.plan.show and place == 0:
            for word, (before, last, listed) in enumerate(zip(*home_round(state, self.picks))):
                self.say("W home", word, before, last, *(f"{r}:{value}:{got}" for r, value, got in listed))
        if "windows" in self.plan.show and not isinstance(self.plan.steps[place], int):
            self.say("W number 0 0", after[0], *(f"{r}:{value}:{got}" for r, value, got in turns[0]))

    def step(self, place, state, drawn, bases):
        """One step, whole or as a sum."""
        if self.plan.summary:
            return self.sums(state)
        self.counts(state, bases)
        self.points(state, drawn[0])
        return self.rounds(place, state, drawn)

    def text(self):
        """The whole text, each line with its end."""
        self.head()
        assigned, layers = None, 0
        for place, step in enumerate(self.plan.steps):
            layers = layers + step if isinstance(step, int) and step else 0
            if not isinstance(step, int):
                assigned = assignment(step, len(self.mesh.cells), self.plan.ranks)
            state = State(self.diagram, self.plan.ranks, assigned, layers)
            if not isinstance(step, int):
                after, turns = number_round(state, self.picks)
                bases = {r: got for r, _, got in turns[0]}
                numbers = {p: bases[r] + i for r, mine in enumerate(state.owned) for i, p in enumerate(mine)}
                drawn = numbers, after, turns
            if place == 0:
                self.trace = {p: (r, i) for r, chart in enumerate(state.local) for i, p in enumerate(chart) if state.owner[p] == r}
            self.say("step", place, f"overlap {step}" if isinstance(step, int) else "part")
            self.step(place, state, drawn, bases)
        self.say("end")
        return "".join(line + "\n" for line in self.lines)
