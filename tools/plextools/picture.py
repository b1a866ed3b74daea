"""A picture of a mesh of dimension 2: cells by owner or label, ghosts of one rank, edges, names and a legend."""
from dataclasses import dataclass
from statistics import median

from .svg import INK, Sheet, light, moves, strong

PALE = "#f4f4f4"
GHOST = "#d8d8d8"
MONO = ' font-family="DejaVu Sans Mono, monospace"'
HALO = ' stroke="white" stroke-width="3" stroke-opacity="0.7" paint-order="stroke"'


@dataclass
class Wish:
    """What is asked of a picture. `rank` is the rank whose ghosts are hatched, or None."""
    rank: int | None
    arrows: bool
    names: bool
    fill: str
    plane: str
    width: float
    lines: list


def clamp(value, least, most):
    """The value, or the bound that it passes."""
    return max(least, min(value, most))


class Picture:
    """The points of one step at their places on a sheet."""

    def __init__(self, text, step, whole, wish):
        self.text, self.step, self.whole, self.wish = text, step, whole, wish
        self.at = self.places()
        self.kinds = {letter: [tag for tag in whole.points if tag[0] == letter] for letter in "cev"}
        lengths = [self.distance(*self.ends(edge)) for edge in self.kinds["e"]]
        self.edge = median(lengths)
        self.font = clamp(min(lengths) * 0.09, 6, 15)
        self.held = {one.tag: one for one in step.copies if one.rank == wish.rank}
        self.legend = []

    def places(self):
        """Each vertex on the sheet, in the plane that is asked for, with y upwards."""
        axes = ["xyz".index(axis) for axis in self.wish.plane]
        at = {tag: tuple(float(known.tail.at[axis]) for axis in axes)
              for tag, known in self.whole.points.items() if known.tail.at}
        low = [min(p[k] for p in at.values()) for k in (0, 1)]
        high = [max(p[k] for p in at.values()) for k in (0, 1)]
        self.margin = 70 if self.wish.names else 20
        scale = (self.wish.width - 2 * self.margin) / (max(high[0] - low[0], high[1] - low[1]) or 1)
        self.height = 2 * self.margin + (high[1] - low[1]) * scale
        return {tag: (self.margin + (p[0] - low[0]) * scale, self.margin + (high[1] - p[1]) * scale) for tag, p in at.items()}

    @staticmethod
    def distance(a, b):
        """How far two places are apart."""
        return ((a[0] - b[0]) ** 2 + (a[1] - b[1]) ** 2) ** 0.5

    def ends(self, edge):
        """The two ends of an edge, in its own order."""
        return [self.at[vertex] for vertex in self.whole.diagram.corners(edge)]

    def centre(self, tag):
        """The mean of a point's vertices."""
        corners = [self.at[vertex] for vertex in self.whole.diagram.corners(tag)]
        return tuple(sum(p[k] for p in corners) / len(corners) for k in (0, 1))

    def is_seen(self, tag):
        """Whether a point is drawn in full: with a rank, where that rank holds it."""
        return self.wish.rank is None or tag in self.held

    def is_ghost(self, tag):
        """Whether the rank that is asked for holds a point of another one."""
        return tag in self.held and self.held[tag].owner != self.wish.rank

    def labels(self, letter):
        """The sets of label values of the points of a kind, in rising order by place, each with its drawn points."""
        found = {}
        for tag in self.kinds[letter]:
            values = tuple(value for _, value in self.whole.points[tag].tail.labels)
            if values:
                found.setdefault(values, []).append(tag)
        listed = [(place, values, list(filter(self.is_seen, found[values]))) for place, values in enumerate(sorted(found))]
        return [one for one in listed if one[2]]

    def label_name(self, dim, kind, values):
        """What a legend says of label values: their numbers, and the names that the text gives them."""
        names = {number: name for d, number, name in self.text.names if d == dim}
        return f"{kind} " + ", ".join(f'{value} "{names[value]}"' if value in names else str(value) for value in values)

    def fills(self):
        """Cells with one colour each: by owner, or by label."""
        seen = [cell for cell in self.kinds["c"] if self.is_seen(cell)]
        if self.wish.fill == "label":
            bare = [cell for cell in seen if not self.whole.points[cell].tail.labels]
            named = [(light(place), self.label_name(2, "cells", values), cells) for place, values, cells in self.labels("c")]
            return [*named, ("white", "cells without a label", bare)] if bare else named
        by_rank = [[] for _ in range(self.text.ranks)]
        for cell in seen:
            by_rank[self.whole.owner[cell]].append(cell)
        return [(light(rank), f"cells of rank {rank}" if self.text.ranks > 1 else "", cells)
                for rank, cells in enumerate(by_rank) if cells]

    def outline(self, cell):
        """The path round a cell."""
        return moves([self.at[vertex] for vertex in self.whole.diagram.corners(cell)], closed=True)

    def draw_cells(self, sheet):
        """Cells by colour; those that the rank does not hold are pale, its ghosts are hatched."""
        sheet.path([self.outline(cell) for cell in self.kinds["c"] if not self.is_seen(cell)], fill=PALE)
        for colour, name, cells in self.fills():
            sheet.path([self.outline(cell) for cell in cells], fill=colour)
            if name:
                self.legend.append(("box", colour, name))
        ghosts = [self.outline(cell) for cell in self.kinds["c"] if self.is_ghost(cell)]
        sheet.path(ghosts, fill="url(#hatch)")
        if ghosts:
            self.legend.append(("box", "url(#hatch)", f"cells that rank {self.wish.rank} holds of others"))

    def edge_path(self, edge):
        """The path along an edge, with its middle where arrows are asked for."""
        a, b = self.ends(edge)
        middle = [self.centre(edge)] if self.wish.arrows else []
        return moves([a, *middle, b])

    def draw_edges(self, sheet):
        """Edges, thin; ghosts dashed; labelled ones thick in their colour."""
        wide = clamp(self.edge / 40, 0.3, 2)
        arrow = {"marker_mid": "url(#arrow)"} if self.wish.arrows else {}
        style = {"fill": "none", "stroke_width": f"{wide:.2f}", **arrow}
        for seen, colour in ((False, "#cccccc"), (True, "#5580aa")):
            edges = [edge for edge in self.kinds["e"] if self.is_seen(edge) == seen]
            sheet.path([self.edge_path(edge) for edge in edges if not self.is_ghost(edge)], stroke=colour, **style)
            sheet.path([self.edge_path(edge) for edge in edges if self.is_ghost(edge)], stroke=colour,
                       stroke_dasharray=f"{3 * wide:.1f} {2 * wide:.1f}", **style)
        if any(map(self.is_ghost, self.kinds["e"])):
            self.legend.append(("dash", "#5580aa", f"edges that rank {self.wish.rank} holds of others"))
        for place, values, edges in self.labels("e"):
            thick = {**style, "stroke_width": f"{clamp(3 * wide, 1.6, 4):.2f}"}
            sheet.path([self.edge_path(edge) for edge in edges], stroke=strong(place), **thick)
            self.legend.append(("line", strong(place), self.label_name(1, "edges", values)))
        if self.wish.arrows:
            self.legend.append(("arrow", "#5580aa", "an edge from its first end to its second"))

    def draw_vertices(self, sheet):
        """Vertices as circles: all of them with names, else labelled ones and ghosts."""
        radius = self.font * 0.95 if self.wish.names else clamp(self.edge / 10, 1, 4)
        marked = {}
        for place, values, vertices in self.labels("v"):
            marked.update(dict.fromkeys(vertices, strong(place + 5)))
            self.legend.append(("dot", strong(place + 5), self.label_name(0, "vertices", values)))
        for vertex in self.kinds["v"]:
            ghost = self.is_ghost(vertex)
            if self.wish.names or vertex in marked or ghost:
                fill = GHOST if ghost else "white" if self.wish.names else marked[vertex]
                sheet.circle(self.at[vertex], radius, fill, marked.get(vertex, INK if self.is_seen(vertex) else "#bbbbbb"),
                             clamp(radius / 7, 0.4, 2))
        if any(map(self.is_ghost, self.kinds["v"])):
            self.legend.append(("ring", GHOST, f"vertices that rank {self.wish.rank} holds of others"))

    def name(self, tag):
        """The number of a point, or with a rank its local number there, and its tag."""
        return f"{self.held[tag].local if self.wish.rank is not None else self.whole.number[tag]} {tag}"

    def draw_names(self, sheet):
        """Names of all points that are drawn in full, and the orientation of each cone entry inside its cell."""
        cells_at = {}
        for cell in filter(self.is_seen, self.kinds["c"]):
            centre = self.centre(cell)
            sheet.text(centre, self.name(cell), self.font * 1.1, extra=HALO)
            for edge, o in self.whole.points[cell].cone:
                cells_at.setdefault(edge, []).append(centre)
                middle = self.centre(edge)
                inside = tuple(m + 0.4 * (c - m) for m, c in zip(middle, centre))
                sheet.text(inside, str(o), self.font * 0.85, "#a03030", extra=HALO)
        for edge in filter(self.is_seen, self.kinds["e"]):
            name = self.name(edge)
            sheet.text(self.beside(edge, cells_at.get(edge, []), len(name)), name, self.font * 0.85, "#35608a", extra=HALO)
        for vertex in filter(self.is_seen, self.kinds["v"]):
            number, tag = self.name(vertex).split()
            x, y = self.at[vertex]
            sheet.text((x, y), number, self.font * 0.9)
            down = 1.5 if y > self.height / 2 else -1.5
            sheet.text((x + self.font * 1.6, y + self.font * down), tag, self.font * 0.85, extra=HALO)

    def beside(self, edge, centres, letters):
        """Where an edge's name of so many letters stands: outside its one cell, or a quarter along between two."""
        a, b = self.ends(edge)
        along = 0.25 if len(centres) > 1 else 0.5
        x, y = (p + along * (q - p) for p, q in zip(a, b))
        length = self.distance(a, b) or 1
        normal = (a[1] - b[1]) / length, (b[0] - a[0]) / length
        inward = centres and (centres[0][0] - x) * normal[0] + (centres[0][1] - y) * normal[1] > 0
        side = -1 if inward else 1
        return x + side * normal[0] * self.font * (0.3 + 0.27 * letters), y + side * normal[1] * self.font

    def draw_legend(self, sheet, left):
        """What colours and lines mean; answers how far it reaches to the right and down."""
        for place, (kind, colour, said) in enumerate(self.legend):
            y = self.margin + 20 * place
            if kind == "box":
                sheet.box((left, y), 14, colour)
            elif kind in ("dot", "ring"):
                sheet.circle((left + 7, y), 5, colour, INK if kind == "ring" else colour, 1)
            else:
                extra = {"line": {"stroke_width": 4}, "dash": {"stroke_dasharray": "4 2"}, "arrow": {"marker_mid": "url(#arrow)"}}[kind]
                sheet.path([moves([(left, y), (left + 10, y), (left + 20, y)])], stroke=colour, fill="none", **extra)
            sheet.text((left + 28, y), said, 13, anchor="start")
        widest = max((len(said) for _, _, said in self.legend), default=-4)
        return left + 36 + 7.5 * widest, self.margin + 20 * len(self.legend)

    def draw_lines(self, sheet, left):
        """The text itself."""
        for place, line in enumerate(self.wish.lines):
            sheet.text((left, 30 + 18 * place), line, 13, "#222222", "start", MONO)
        return left + 8 * max(map(len, self.wish.lines), default=0), 40 + 18 * len(self.wish.lines)

    def draw(self):
        """The whole picture."""
        sheet = Sheet(self.wish.width, self.height)
        self.draw_cells(sheet)
        self.draw_edges(sheet)
        self.draw_vertices(sheet)
        if self.wish.names:
            self.draw_names(sheet)
        reach = self.draw_legend(sheet, self.wish.width) if self.legend else (self.wish.width, 0)
        said = self.draw_lines(sheet, reach[0]) if self.wish.lines else reach
        sheet.width, sheet.height = said[0], max(self.height, reach[1], said[1])
        return sheet.whole(clamp(self.edge / 5, 2, 9), clamp(self.edge / 8, 3, 8))
