"""Checks of L lines: what each rank holds, who owns it, and where the owner has it."""
from .whole import held_by_rank, owned_tags, place_in_chart


def check_copies(text, step, layers, whole, findings):
    """All L lines of a step after so many layers."""
    for one in step.copies:
        findings.unless(max(one.rank, one.owner) < text.ranks, one.line, "there is no such rank")
    if findings.faults:
        return
    held = held_by_rank(text, step)
    for r, copies in zip(step.ranks, held):
        check_chart(r, copies, findings)
        check_roots(r.rank, held, findings)
        for owner in range(text.ranks):
            count = sum(one.owner == owner for one in copies)
            wanted = r.owned if owner == r.rank else step.ghosts.get((r.rank, owner), 0)
            findings.unless(count == wanted, r.line, f"rank {r.rank} shows {count} points of rank {owner} and counts {wanted}")
    if step.points:
        shown = [[one.tag for one in copies if one.owner == one.rank] for copies in held]
        findings.unless(shown == owned_tags(text, step), step.points[0].line, "P lines and L lines show other owned points")
    check_held(step, layers, held, whole, findings)


def check_chart(r, copies, findings):
    """A rank's local numbers are 0 and up, in the order of strata and keys."""
    findings.unless([one.local for one in copies] == list(range(r.held)), r.line,
                    f"the local numbers of rank {r.rank} are not 0 to {r.held - 1}")
    places = [place_in_chart(one.tag) for one in copies]
    findings.unless(places == sorted(set(places)), r.line, f"the points of rank {r.rank} are not sorted by stratum and key")
    own = sum(one.tag[0] == "c" and one.owner == r.rank for one in copies)
    findings.unless(own == r.cells, r.line, f"rank {r.rank} owns {own} cells and is assigned {r.cells}")


def check_roots(rank, held, findings):
    """The root of a copy is the same point at its owner, which owns it there."""
    for one in held[rank]:
        roots = held[one.owner]
        root = roots[one.root] if one.root < len(roots) else None
        findings.unless(root and (root.tag, root.owner) == (one.tag, one.owner), one.line,
                        f"{one.tag} is not at {one.root} of its owner, rank {one.owner}")
        findings.checked("roots")


def check_held(step, layers, held, whole, findings):
    """A point's owner is the least rank whose cells have it; each layer adds the cells at vertices held so far."""
    vertices = {cell: set(whole.diagram.corners(cell)) for cell in whole.points if cell[0] == "c"}
    holders = {}
    for r, copies in zip(step.ranks, held):
        cells = {one.tag for one in copies if one.tag[0] == "c" and one.owner == r.rank}
        for cell in cells:
            for tag, _ in whole.diagram.closure(cell):
                holders.setdefault(tag, r.rank)
        for _ in range(layers):
            reached = set().union(*(vertices[cell] for cell in cells))
            cells = {cell for cell in vertices if vertices[cell] & reached}
        wanted = {tag for cell in cells for tag, _ in whole.diagram.closure(cell)}
        findings.unless({one.tag for one in copies} == wanted, r.line,
                        f"rank {r.rank} holds other points than those of its cells and {layers} layers")
    for tag, owner in whole.owner.items():
        findings.unless(holders.get(tag) == owner, whole.points[tag].line, f"rank {owner} is not the least whose cells have {tag}")
