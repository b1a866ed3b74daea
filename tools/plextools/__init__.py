"""What draw, vtu and check share: the text of plexrun as records, and polytopes."""
