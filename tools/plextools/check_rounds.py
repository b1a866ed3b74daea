"""Checks of W lines (rounds of atomic steps), of T lines (traces) and of C lines (closures)."""
from .shapes import dimension_of


def check_words(text, step, whole, findings):
    """The words of a step: those of the home round in the first step, that of the number round in each part."""
    if not step.words:
        return
    numbers = [word for word in step.words if word.round == "number"]
    findings.unless(len(numbers) == (step.layers is None) and step.words[-len(numbers):] == numbers, step.words[0].line,
                    "a part has one number round, after its home words, and layers have none")
    home = [word for word in step.words if word.round == "home"]
    findings.unless(not home or step.place == 0, step.words[0].line, "the home round is not of the first part")
    for place, word in enumerate(home):
        check_order(word, min, findings)
        ranks = {turn[0] for turn in word.turns}
        findings.unless(word.word == place and len(ranks) == len(word.turns) and max(ranks) < text.ranks, word.line,
                        "words count from 0, and a rank asks once of each")
    for word in numbers:
        check_order(word, int.__add__, findings)
        wanted = [(r.rank, r.owned, r.base) for r in step.ranks]
        findings.unless((word.word, word.before, word.after) == (0, 0, step.total[0]) and sorted(word.turns) == wanted,
                        word.line, "the number round does not draw the bases of the rank lines")
    if step.place == 0 and whole:
        check_home(home, step.words[0].line, whole, findings)


def check_order(word, change, findings):
    """Turn after turn replays from the first value to the last one; of equal values the one that changes stands last."""
    value = word.before
    for rank, asked, got in word.turns:
        if not findings.unless(got == value, word.line, f"rank {rank} got {got} where the word had {value}"):
            return
        value = change(value, asked)
    findings.unless(value == word.after, word.line, f"the word ends with {value} and not with {word.after}")
    falls = -1 if change is min else 1
    keys = [(falls * got, change(got, asked) != got, rank) for rank, asked, got in word.turns]
    findings.unless(keys == sorted(keys), word.line, "the turns are not in the printed order")
    findings.checked("turns", len(word.turns))


def own_keys(whole):
    """For each face and edge between cells, by its vertices, the least key under which each rank's own cells see it."""
    found = {}
    for cell in sorted((tag for tag in whole.points if tag[0] == "c"), key=lambda tag: int(tag[1:])):
        for key, listed in whole.diagram.sights(cell):
            point = dimension_of(listed), tuple(sorted(int(tag[1:]) for tag in listed))
            found.setdefault(point, {}).setdefault(whole.owner.get(cell), key)
    return {point: keys for point, keys in found.items() if len(keys) > 1 and None not in keys}


def check_home(home, line, whole, findings):
    """Each face or edge of several ranks has its word: the owner's own key, then the least of all ranks' own ones."""
    shared = sorted(own_keys(whole).items(), key=lambda item: (min(item[1]), -item[0][0], item[0][1]))
    if not findings.unless(len(home) == len(shared), line, f"{len(home)} home words for {len(shared)} shared points"):
        return
    for place, (word, (_, keys)) in enumerate(zip(home, shared)):
        owner = min(keys)
        asked = sorted((rank, key) for rank, key in keys.items() if rank != owner)
        findings.unless((word.word, word.before, word.after) == (place, keys[owner], min(keys.values()))
                        and sorted(turn[:2] for turn in word.turns) == asked, word.line,
                        "the word is not that of a shared point, by owner, dimension and vertices")


def check_closures(step, whole, findings):
    """One closure for each rank's cells, which are the first of its points: all that the cone reaches, level by level."""
    numbers = [r.base + place for r in step.ranks for place in range(r.cells)]
    if not findings.unless([number for _, number, _ in step.closures] == numbers, step.closures[0][0],
                           "the closures are not those of each rank's cells"):
        return
    tags = {number: tag for tag, number in whole.number.items()} if whole else {}
    for line, number, entries in step.closures:
        reached = {point for point, _ in entries}
        findings.unless(entries[0] == (number, 0) and len(reached) == len(entries) and max(reached) < step.total[0], line,
                        "a closure begins with its cell and has different points")
        wanted = [(whole.number.get(tag), o) for tag, o in whole.diagram.closure(tags[number])] if whole else entries
        findings.unless(entries == wanted, line, f"this is not the closure of {tags.get(number)}")
        findings.checked("closures")


class Traces:
    """Where each point was under the first part: the same in each step, and what the first part's L lines say."""

    def __init__(self):
        self.first, self.tags, self.pairs = {}, {}, None

    def check(self, step, whole, findings):
        """The T lines of one step, in the order of the steps."""
        if step.place == 0:
            self.first = {(one.rank, one.local): one.tag for one in step.copies if one.rank == one.owner}
        if not step.traces:
            return
        line = step.traces[0][0]
        numbers = [r.base + place for r in step.ranks for place in range(r.owned)]
        findings.unless([trace[1] for trace in step.traces] == numbers, line, "the traces are not of each rank's points in order")
        if step.place == 0:
            places = [(r.rank, r.held) for r in step.ranks for _ in range(r.owned)]
            findings.unless(all(trace[2] == rank and trace[3] < held for trace, (rank, held) in zip(step.traces, places)), line,
                            "under the first part a point is at its owner")
        pairs = {trace[2:] for trace in step.traces}
        self.pairs = self.pairs or pairs
        findings.unless(len(pairs) == len(numbers) and pairs == self.pairs, line,
                        "the traces are not different points of the first part")
        findings.checked("traces", len(numbers))
        if whole:
            self.check_tags(step, whole, findings)

    def check_tags(self, step, whole, findings):
        """The same point has the same trace in every step, and it is this point that stood there."""
        tags = {number: tag for tag, number in whole.number.items()}
        for line, number, rank, local in step.traces:
            tag = tags.get(number)
            first = self.tags.setdefault(tag, (rank, local))
            findings.unless(first == (rank, local), line, f"{tag} had the trace {first[0]} {first[1]} in an earlier step")
            findings.unless(self.first.get((rank, local), tag) == tag, line, f"under the first part {tag} was not there")
