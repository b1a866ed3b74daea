"""What a check of a text finds: faults with their lines, and what was looked at."""


class Findings:
    """Faults in the order in which they were found, and counts of what was checked."""

    def __init__(self):
        self.faults, self.counts = [], {}

    def fault(self, line, why):
        """A fault that shows at a line of the text."""
        self.faults.append((line, why))

    def unless(self, holds, line, why):
        """A fault unless something holds; answers whether it does."""
        if not holds:
            self.fault(line, why)
        return holds

    def checked(self, what, count=1):
        """So many more of a kind of thing were looked at."""
        self.counts[what] = self.counts.get(what, 0) + count
