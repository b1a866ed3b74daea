"""What ranks hold and own, and the rounds of atomic steps, by their definitions."""
from diagram import sights


class State:
    """A diagram whose cells are assigned to ranks, with layers of overlap."""

    def __init__(self, diagram, ranks, assigned, layers):
        self.diagram, self.ranks, self.assigned, self.layers = diagram, ranks, assigned, layers
        contained = [diagram.contained(c) for c in range(len(assigned))]
        self.own_cells = [[c for c, rank in enumerate(assigned) if rank == r] for r in range(ranks)]
        self.owner = {p: min(assigned[c] for c in diagram.cells(p)) for p in diagram.points}
        self.local = [self.chart(self.cells_after(r, layers), contained) for r in range(ranks)]
        own = [self.chart(self.own_cells[r], contained) for r in range(ranks)]
        self.owned = [[p for p in own[r] if self.owner[p] == r] for r in range(ranks)]
        self.own = own

    def cells_after(self, r, layers):
        """A rank's cells, and layer by layer the cells that share a vertex with one of them."""
        cells = set(self.own_cells[r])
        for _ in range(layers):
            reached = {v for c in cells for v in self.diagram.mesh.cells[c]}
            cells = {c for c, cell in enumerate(self.diagram.mesh.cells) if reached & set(cell)}
        return cells

    def chart(self, cells, contained):
        """The points of some cells: cells, vertices, faces, edges, each stratum by key."""
        return sorted(set().union(*(contained[c] for c in cells)), key=self.diagram.place)


def events(picks, asks):
    """The order of all asks (rank, index) by picks; then the ranks finish, the least first."""
    left = [list(range(len(mine))) for mine in asks]
    order = [(rank, left[rank].pop(0)) for rank in picks if rank < len(asks) and left[rank]]
    return order + [(rank, index) for rank, rest in enumerate(left) for index in rest]


def run(words, asks, change, picks):
    """The round of one kind of operation: for each word its last value and its turns, in printed order.

    An ask is a pair of a word and a value. A turn is a rank, the value that it asked and the value that it got.
    """
    now, turns = list(words), [[] for _ in words]
    for rank, index in events(picks, asks):
        word, value = asks[rank][index]
        got, now[word] = now[word], change(now[word], value)
        turns[word].append((got, change(got, value) != got, rank, index, value))
    falls = -1 if change is min else 1
    for listed in turns:
        listed.sort(key=lambda turn: (falls * turn[0], *turn[1:4]))
    return now, [[(rank, value, got) for got, _, rank, _, value in listed] for listed in turns]


def number_round(state, picks):
    """The round that draws bases: one word, and each rank adds how many points it owns."""
    return run([0], [[(0, len(mine))] for mine in state.owned], int.__add__, picks)


def home_round(state, picks):
    """The round that finds the keys of faces and edges of several ranks: first values, last values and turns."""
    diagram, assigned = state.diagram, state.assigned
    shared = [p for p in diagram.points
              if 0 < p[0] < diagram.mesh.dim and len({assigned[c] for c in diagram.cells(p)}) > 1]
    shared.sort(key=lambda p: (state.owner[p], -p[0], sorted(p[1])))
    own = own_keys(state)
    words = [own[state.owner[p]][p] for p in shared]
    asks = [[(w, own[r][p]) for w, p in enumerate(shared) if p in own[r] and state.owner[p] != r]
            for r in range(state.ranks)]
    after, turns = run(words, asks, min, picks)
    return words, after, turns


def own_keys(state):
    """For each rank the least key under which one of its cells sees each face and edge."""
    found = []
    for cells in state.own_cells:
        keys = {}
        for c in cells:
            for key, dim, listed in sights(state.diagram.mesh, c):
                keys.setdefault((dim, frozenset(listed)), key)
        found.append(keys)
    return found
