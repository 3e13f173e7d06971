"""The list of changes that are still proved, each with the reason why that is no hole in a contract. A function that
promises nothing is listed whole."""

# How a listed change ends, by the word that its reason stands behind.
ENDS = {"same": "survived", "time": "survived", "timeout": "timeout"}


class Entry:
    """A change by its file, its function, and the line before and after, with its reason; or a whole function."""

    def __init__(self, block):
        self.place, said = block[0], {}
        for line in block[1:]:
            word, _, rest = line.partition(":")
            said[word] = rest.strip()
        self.whole = "old" not in said
        self.id = self.place if self.whole else f"{self.place}: {said.pop('old')} -> {said.pop('new', '')}"
        if len(said) != 1 or not set(said) <= set(ENDS) or not all(said.values()):
            raise SystemExit(f"mutants: survivors.txt: one reason behind {', '.join(ENDS)} is wanted at {self.place}")
        (self.word,) = said
        self.reason = said[self.word]

    def ends(self):
        return ENDS[self.word]


def read(path):
    """The entries of a list: blocks of lines between empty ones; a line that begins with a blank goes on from the one
    before it, and one that begins with # is a comment."""
    blocks = [[]]
    with open(path) as lines:
        for line in lines.read().split("\n"):
            if line.startswith("#"):
                continue
            if not line.strip():
                blocks.append([])
            elif line.startswith(" "):
                blocks[-1][-1] += " " + line.strip()
            else:
                blocks[-1].append(line.rstrip())
    entries = [Entry(block) for block in blocks if block]
    twice = {entry.id for entry in entries if sum(entry.id == other.id for other in entries) > 1}
    if twice:
        raise SystemExit("mutants: survivors.txt: listed twice: " + "; ".join(sorted(twice)))
    return {entry.id: entry for entry in entries}
