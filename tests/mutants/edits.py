"""Wrong answers written by hand, in the format of the gate's must-fail edits, and which public function each is of."""
import collections
import glob
import os


class Edit:
    """A file of replacements. A line `of:` names the public functions whose contract the wrong answer breaks, or, as
    `definition NAME`, what several crates' contracts cite."""

    operator, proof = "by hand", None

    def __init__(self, root, path):
        self.path = os.path.relpath(path, root)
        self.crate, self.name = self.path.split("/")[-2], os.path.basename(path)[: -len(".edit")]
        self.in_gate = self.path.startswith("crates/")
        if self.in_gate:
            self.crate = self.path.split("/")[1]
        self.of, self.pairs, file, old = [], [], "", ""
        with open(path) as lines:
            self.text = lines.read()
        self.why = self.text.split("\n")[0].lstrip("# ")
        for line in self.text.split("\n"):
            word, _, rest = line.partition(":")
            rest = rest[1:] if rest.startswith(" ") else rest
            if word == "of":
                self.of += rest.split(", ")
            elif word == "file":
                file = rest
            elif word == "old":
                old = rest
            elif word == "new":
                self.pairs.append((file, old, rest))
        self.file, self.function, self.line = self.pairs[0][0] if self.pairs else "", self.name, 0
        self.old, self.new = self.why, self.name
        self.id = f"{self.path}: {self.pairs}"

    def places(self, texts):
        """What is replaced: file, begin, end, new text; whole files where there is more than one replacement, since one
        may change what another left."""
        if len(self.pairs) == 1:
            file, old, new = self.pairs[0]
            begin = texts[file].index(old)
            return [(file, begin, begin + len(old), new)]
        after = dict(texts)
        for file, old, new in self.pairs:
            after[file] = after[file].replace(old, new)
        return [(file, 0, len(text), after[file]) for file, text in texts.items() if after[file] != text]

    def settle(self, sources, texts):
        """Finds the function that the edit lies in, if it is one: then it can be checked beside others."""
        name, begin, end, _ = self.places(texts)[0]
        for source in sources:
            for function in source.functions if (source.crate, f"src/{source.name}") == (self.crate, name) else []:
                if source.spans[function.first][0] <= begin and end <= source.spans[function.last][1]:
                    self.proof = source.proof_of(function)

    def faults(self, texts):
        """What is wrong with the edit itself, for the crate's files as they stand."""
        texts = dict(texts)
        if not self.pairs:
            yield f"{self.path}: no 'old:' and 'new:'"
        for file, old, new in self.pairs:
            times = texts.get(file, "").count(old) if old else 0
            if times != 1:
                yield f"{self.path}: its 'old:' text is {times} times in {file}, not once: {old}"
                return
            texts[file] = texts[file].replace(old, new)


def read(root):
    """The edits of the gate and those of this run."""
    paths = sorted(glob.glob(f"{root}/crates/*/must-fail/*.edit") + glob.glob(f"{root}/tests/mutants/edits/*/*.edit"))
    return [Edit(root, path) for path in paths]


def breaks(edit, name, sources):
    """Whether an edit breaks the contract of this function itself: it lies in its body, or changes a definition. One in
    a function that it calls is refused by that one's contract, and says nothing of this one's."""
    for file, old, _ in edit.pairs:
        if file.startswith("specs/"):
            return True
        for source in sources:
            if (source.crate, f"src/{source.name}") == (edit.crate, file) and old in source.text:
                begin = source.text.index(old)
                for function in source.functions:
                    first, last = source.spans[function.first][0], source.spans[function.last][1]
                    if function.name == name and first <= begin and begin + len(old) <= last:
                        return True
    return False


def untried(edits, sources, least):
    """The public functions whose own contract fewer than `least` wrong answers break, and the edits that name no public
    function."""
    public = {(s.crate, f.name) for s in sources for f in s.functions if f.public}
    named = [(edit, name) for edit in edits for name in edit.of]
    tried = collections.Counter((edit.crate, name) for edit, name in named if breaks(edit, name, sources))
    crates = {source.crate for source in sources}
    few = [f"{crate}: {name} has {tried[crate, name]}" for crate, name in sorted(public) if tried[crate, name] < least]
    stray = [f"{edit.path}: no line 'of:'" for edit in edits if edit.crate in crates and not edit.of]
    for edit in edits:
        for name in edit.of:
            if (edit.crate, name) not in public and not name.startswith("definition "):
                stray.append(f"{edit.path}: no public function is called {name}")
    return len(public), few, stray
