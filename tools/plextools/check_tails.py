"""Checks of what stands behind points: coordinates, labels and the words of fields."""
from .text import FIXED, LABELS


def check_tails(text, whole, findings):
    """The tail of every point."""
    weights = cell_weights(whole)
    for tag, known in whole.points.items():
        dim = whole.diagram.dimension(tag)
        findings.unless((dim == 0) == bool(known.tail.at), known.line, "vertices and no others have coordinates")
        check_labels(text.dim, dim, known, findings)
        findings.unless(max(known.tail.data, default=-1) < len(text.sections), known.line, "words of a field that there is not")
        for place, section in enumerate(text.sections):
            words = known.tail.data.get(place)
            if section.place == "dofs":
                check_dofs(section, words, dim, weights[tag], known.line, findings)
            elif words is not None:
                check_data(text.dim, section, words, dim, known.line, findings)


def cell_weights(whole):
    """For each point the sum of c + 1 over the cells c that contain it."""
    weights = dict.fromkeys(whole.points, 0)
    for cell in whole.points:
        if cell[0] == "c":
            for tag, _ in whole.diagram.closure(cell):
                weights[tag] += int(cell[1:]) + 1
    return weights


def check_labels(mesh_dim, dim, known, findings):
    """A label is for points of one dimension; values rise, and 0 is none."""
    names = {mesh_dim: "cell", mesh_dim - 1: "face", 1: "edge", 0: "vertex"}
    if mesh_dim == 2:
        names[1] = "face"
    sorted_labels = sorted(set(known.tail.labels), key=lambda one: (LABELS.index(one[0]), one[1]))
    findings.unless(known.tail.labels == sorted_labels, known.line, "labels do not rise")
    for name, value in known.tail.labels:
        findings.unless(names[dim] == name and value != 0, known.line, f"{name}={value} is no label of such a point")
        findings.checked("labels")


def check_dofs(section, words, dim, weight, line, findings):
    """Word i of a `dofs` line is i + 1 times the weight of the point."""
    wanted = [str((place + 1) * weight) for place in range(section.counts[dim])] or None
    findings.unless(words == wanted, line, f'the words of "{section.name}" are {words} and not {wanted}')
    findings.checked("words of fields", len(wanted or ()))


def check_data(mesh_dim, section, words, dim, line, findings):
    """Data are on vertices, or on cells, with a fixed-point number for each component."""
    findings.unless(dim == (0 if section.place == "node" else mesh_dim), line, f'"{section.name}" is not of such points')
    findings.unless(len(words) == section.counts[0] and all(FIXED.fullmatch(word) for word in words), line,
                    f'"{section.name}" has {section.counts[0]} numbers at a point')
    findings.checked("words of fields", len(words))
