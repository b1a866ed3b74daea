"""All points of a step by their tags, from its P lines and its L lines, where all copies have to agree."""
from dataclasses import dataclass
from itertools import islice

from .check_counts import check_counts
from .findings import Findings
from .shapes import Diagram, Unclosed, dimension_of

STRATA = "cvfe"


@dataclass
class Known:
    """A point: the line that first says it, its cone by tags, coordinates, labels, words, and the same all together."""
    line: int
    cone: list
    tail: object
    said: tuple


@dataclass
class Whole:
    """What a step shows: points by tag, their diagram, and owners and numbers by tag."""
    points: dict
    diagram: Diagram
    owner: dict
    number: dict


def place_in_chart(tag):
    """What points are sorted by in a chart: stratum, then key."""
    return STRATA.index(tag[0]), int(tag[1:])


def by_tags(line, tail, tags, findings):
    """The cone of a point by tags, or none where an entry is no point here."""
    missing = [number for number, _ in tail.cone if number not in tags]
    if missing:
        findings.fault(line, f"{missing[0]} is no point here")
        return None
    return [(tags[number], o) for number, o in tail.cone]


def gather(points, said, tags, findings):
    """Adds points that are said under numbers with these tags; a point that is known has to be the same."""
    for one in said:
        cone = by_tags(one.line, one.tail, tags, findings)
        if cone is None:
            continue
        known = Known(one.line, cone, one.tail, (cone, one.tail.at, one.tail.labels, one.tail.data))
        first = points.setdefault(one.tag, known)
        if first is not known:
            findings.checked("copies")
            findings.unless(first.said == known.said, one.line, f"{one.tag} is not as on line {first.line}")


def held_by_rank(text, step):
    """The L lines of each rank, in their order. Those of a rank that there is not are left out."""
    held = [[] for _ in range(text.ranks)]
    for one in step.copies:
        if one.rank < text.ranks:
            held[one.rank].append(one)
    return held


def owned_tags(text, step):
    """For each rank the tags of its owned points in order, from P lines where they are there, else from L lines."""
    if step.points:
        tags = iter([point.tag for point in step.points])
        return [list(islice(tags, r.owned)) for r in step.ranks]
    return [[one.tag for one in copies if one.owner == one.rank] for copies in held_by_rank(text, step)]


def check_numbers(text, step, findings):
    """P lines have each rank's numbers in order, and each rank's points in the order of a chart."""
    numbers = [r.base + place for r in step.ranks for place in range(r.owned)]
    findings.unless([point.number for point in step.points] == numbers, step.points[0].line,
                    "the numbers are not each rank's base and those after it")
    findings.unless(sorted(point.number for point in step.points) == list(range(step.total[0])), step.points[0].line,
                    "the numbers are not 0 to total - 1, each once")
    for tags in owned_tags(text, step):
        places = [place_in_chart(tag) for tag in tags]
        findings.unless(places == sorted(set(places)), step.points[0].line, "a rank's points are not sorted by stratum and key")
    findings.checked("numbers", len(numbers))


def whole_of(text, step, findings):
    """What a step shows of all points; None where it shows none."""
    if not step.points and not step.copies:
        return None
    points = {}
    if step.points:
        check_numbers(text, step, findings)
        gather(points, step.points, {point.number: point.tag for point in step.points}, findings)
    for held in held_by_rank(text, step):
        gather(points, held, {one.local: one.tag for one in held}, findings)
    owner, number = {}, {}
    for r, tags in zip(step.ranks, owned_tags(text, step)):
        for place, tag in enumerate(tags):
            findings.unless(tag not in owner, step.line, f"{tag} has two owners, or two numbers")
            owner[tag], number[tag] = r.rank, r.base + place
    return Whole(points, Diagram(text.dim, {tag: known.cone for tag, known in points.items()}), owner, number)


def check_points(text, step, whole, findings):
    """Every point has an owner, and there are as many of each stratum as the total says."""
    found = [sum(tag[0] == letter for tag in whole.points) for letter in STRATA]
    findings.unless(found == list(step.total[1:]), step.line, f"{found} points are shown and {list(step.total[1:])} counted")
    for letter, count in (("c", text.cells), ("v", text.vertices)):
        shown = {tag for tag in whole.points if tag[0] == letter}
        findings.unless(shown == {f"{letter}{k}" for k in range(count)}, step.line,
                        f"the tags of {letter} are not those from 0 to {count - 1}")
    for tag in whole.points.keys() - whole.owner.keys():
        findings.fault(whole.points[tag].line, f"{tag} has no owner")


def check_cones(whole, findings):
    """Every cone closes."""
    for tag, known in whole.points.items():
        try:
            whole.diagram.corners(tag)
        except Unclosed as why:
            findings.fault(known.line, f"the cone of {tag} does not close: {why}")
    findings.checked("cones", len(whole.points))


def check_keys(whole, findings):
    """Faces and edges are those that cells see, each with the least key under which one does, and its order there."""
    first = {}
    for cell in sorted((tag for tag in whole.points if tag[0] == "c"), key=place_in_chart):
        for key, listed in whole.diagram.sights(cell):
            first.setdefault((dimension_of(listed), frozenset(listed)), (key, listed))
    wanted = {f"{' ef'[dim]}{key}": listed for (dim, _), (key, listed) in first.items()}
    for tag, known in whole.points.items():
        if tag[0] in "ef":
            findings.unless(wanted.get(tag) == whole.diagram.corners(tag), known.line,
                            f"no cell sees {tag} first there, or it sees its vertices in another order")
            findings.checked("keys")
    for tag in wanted.keys() - whole.points.keys():
        findings.fault(1, f"cells have {tag}, which is not shown")


def checked_whole(text, step):
    """What a step shows, with the faults that keep it from being drawn or written: counts, owners, cones."""
    findings = Findings()
    check_counts(text, findings)
    whole = None if findings.faults else whole_of(text, step, findings)
    if whole:
        check_points(text, step, whole, findings)
        check_cones(whole, findings)
    return whole, findings
