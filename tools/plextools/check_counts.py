"""Checks of rank, ghost, total and sum lines: that they add up within a step and from step to step."""


def check_counts(text, findings):
    """All steps, each after the one before it."""
    layers, before = 0, None
    for step in text.steps:
        findings.unless(before or step.layers is None, step.line, "the first step is no part")
        layers = layers + step.layers if step.layers else 0
        findings.unless(layers <= 4, step.line, f"{layers} layers are more than 4")
        if step.sums:
            check_sums(step.sums, before.sums if before else None, findings)
        elif check_ranks(text, step, findings):
            check_total(text, step, findings)
            check_kept(step, before, findings)
        findings.unless(shown(step) == shown(text.steps[0]), step.line, "this step does not show what the first one does")
        findings.unless(step.layers is not None or bool(step.words) == bool(text.steps[0].words), step.line,
                        "only some parts show their rounds")
        before = step


def shown(step):
    """Which kinds of lines a step has, of those that each step of a run has or none."""
    return [bool(kind) for kind in (step.sums, step.points, step.copies, step.closures, step.traces)]


def check_ranks(text, step, findings):
    """Each rank has its line in order; held points are its own and its ghosts."""
    if not findings.unless([r.rank for r in step.ranks] == list(range(text.ranks)), step.line,
                           f"the rank lines are not those of ranks 0 to {text.ranks - 1}"):
        return False
    for (rank, owner), count in step.ghosts.items():
        findings.unless(rank != owner and max(rank, owner) < text.ranks and count > 0, step.line,
                        f"`ghost {rank} {owner} {count}` says nothing")
    for r in step.ranks:
        ghosts = sum(count for (rank, _), count in step.ghosts.items() if rank == r.rank)
        findings.unless(r.held == r.owned + ghosts, r.line,
                        f"rank {r.rank} holds {r.held} points, {r.owned} of its own and {ghosts} ghosts")
    findings.unless(sum(r.cells for r in step.ranks) == text.cells, step.line, "the cells of the ranks are not all cells")
    findings.checked("rank lines", text.ranks)
    return True


def check_total(text, step, findings):
    """The points of all ranks are the total, and their numbers are 0 to total - 1."""
    total, cells, vertices, faces, edges = step.total
    findings.unless(cells + vertices + faces + edges == total, step.line, "the strata do not add up to the total")
    findings.unless((cells, vertices) == (text.cells, text.vertices), step.line,
                    "the total has other cells or vertices than the mesh")
    findings.unless(text.dim == 3 or faces == 0, step.line, "a mesh of dimension 2 has cells and no faces")
    findings.unless(sum(r.owned for r in step.ranks) == total, step.line, "the owned points are not the total")
    following = 0
    for r in sorted(step.ranks, key=lambda r: (r.base, r.owned)):
        if not findings.unless(r.base == following, r.line,
                               f"the numbers from {following} on are given to no rank, or to two"):
            return
        following += r.owned


def check_kept(step, before, findings):
    """Layers change no owner and no number; no step changes how many points there are."""
    if before is None or before.sums:
        return
    findings.unless(step.total == before.total, step.line, "another total than in the step before")
    if step.layers is not None:
        kept = [(r.rank, r.cells, r.owned, r.base) for r in before.ranks]
        findings.unless([(r.rank, r.cells, r.owned, r.base) for r in step.ranks] == kept, step.line,
                        "layers changed what ranks own, or its numbers")


def check_sums(sums, before, findings):
    """Held points are at least the owned ones, and all else is the same in each step."""
    findings.unless(sums.held >= sums.owned, sums.line, "fewer held points than owned ones")
    findings.unless(sums.back <= sums.entries, sums.line, "more entries turned back than entries")
    findings.checked("sum lines")
    if before:
        same = [(s.owned, s.entries, s.back, s.at, s.data, s.dofs) for s in (before, sums)]
        findings.unless(same[0] == same[1], sums.line, "other sums than in the step before")
