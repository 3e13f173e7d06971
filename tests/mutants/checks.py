"""Checks a crate with a change in it, over what a check of the sound crate left, and tells how it was refused."""
import collections
import hashlib
import os
import re
import shutil
import subprocess
import threading
import time

# What the prover says where the proof's names or shape no longer fit the code, which says nothing of its meaning. Any
# other error is a goal that fails.
PLACE = r"not in scope|has no field|has no `|is not a field|needs a function|cannot be named"
# What it says of a declaration, a file or a function because of an error in another.
FOLLOWS = r"was not admitted|was not checked|exports no `|which is not proved"
# An error, a goal that was left to the search and not found, a function that is not proved.
TOLD = r": error|^error|^note: src/\S+ it is not proved|^fn \S+: (not proved|no proof)"
PARTS = ("src", "specs", "proofs")


class Checker:
    """Runs the prover as `rt must-fail` does, on copies of a crate below a folder of its own."""

    def __init__(self, root, scratch, seconds):
        self.root, self.scratch, self.seconds = root, scratch, seconds
        self.locks, self.texts, self.lower = collections.defaultdict(threading.Lock), {}, {}
        self.kit = os.path.dirname(os.path.dirname(os.path.realpath(shutil.which("rt") or "rt")))
        lines = (line.split("#")[0].split(":") for line in open(f"{root}/crates.txt"))
        self.rests_on = {line[0].split()[0]: line[1].split() for line in lines if len(line) == 2}

    def below(self, crate):
        """The crates of the repository that this one rests on, each once, the lowest first."""
        if crate not in self.lower:
            found = {}
            for need in self.rests_on[crate]:
                if need in self.rests_on:
                    found.update(dict.fromkeys([*self.below(need), need]))
            self.lower[crate] = list(found)
        return self.lower[crate]

    def prove(self, crates, jobs):
        """Has rt prove what is not proved yet and build what crates above need, with the work kept that a check of a
        change begins with: `rt all` takes a crate with all that it rests on."""
        rested_on = {below for crate in crates for below in self.below(crate)}
        for crate in crates:
            if crate not in rested_on:
                words = ["rt", "all", "check", "--jobs", str(jobs)]
                said = subprocess.run(words, cwd=f"{self.root}/crates/{crate}", capture_output=True, text=True)
                if said.returncode != 0:
                    raise SystemExit(f"mutants: {crate} or what it rests on is not proved as it stands:\n"
                                     f"{said.stdout[-3000:]}{said.stderr}")

    def state(self, crate):
        """A hash of the toolchain, the crate's files and those of all that it rests on."""
        whole = hashlib.sha256()
        with open(f"{self.kit}/WHAT", "rb") as what:
            whole.update(what.read())
        for name in [*self.below(crate), crate]:
            files = sorted(files_in(f"{self.root}/crates/{name}").items())
            whole.update(repr((name, self.rests_on[name], files)).encode())
        return whole.hexdigest()

    def check(self, crate, folder, warm=None):
        """The exit status of a check of the files in `folder`, None past the limit, and what the prover says."""
        words = [f"{self.kit}/bin/rattle", "check", "--crate-name", crate, "src/lib.rt"]
        for need in ("std", *self.rests_on[crate]):
            rlibs = f"{self.root}/crates/{need}/out/rlib" if need in self.rests_on else f"{self.kit}/rlibs"
            words += ["--extern", f"{need}={rlibs}/{need}.rlib"]
        for rlibs in (f"{self.kit}/rlibs", *(f"{self.root}/crates/{need}/out/rlib" for need in self.below(crate))):
            words += ["-L", f"dependency={rlibs}"]
        words += ["--antt-project", f"{self.kit}/rattle/logic/antt-project.json"]
        words += ["--logic-built", f"{self.kit}/logic_built"]
        words += ["--incremental", warm] if warm else []
        try:
            how = {"capture_output": True, "text": True, "timeout": self.seconds, "errors": "replace"}
            run = subprocess.run(words, cwd=folder, stdin=subprocess.DEVNULL, **how)
            return run.returncode, run.stdout + run.stderr
        except subprocess.TimeoutExpired:
            return None, ""

    def warm(self, crate):
        """The folder that a check of the sound crate leaves, which begins with what rt kept; made once."""
        warm, sound = f"{self.scratch}/warm/{crate}", f"{self.scratch}/sound/{crate}"
        kept = f"{self.root}/crates/{crate}/out/incremental"
        with self.locks[crate]:
            if not os.path.isdir(warm):
                if os.path.isdir(kept):
                    shutil.copytree(kept, f"{warm}.new")
                else:
                    os.makedirs(f"{warm}.new")
                write_files(sound, self.sound(crate))
                status, said = self.check(crate, sound, f"{warm}.new")
                if status != 0:
                    raise SystemExit(f"mutants: {crate} is not proved as it stands:\n{said[-3000:]}")
                os.rename(f"{warm}.new", warm)
        return warm

    def sound(self, crate):
        """The crate's files by name, as they stood when this began."""
        if crate not in self.texts:
            self.texts[crate] = files_in(f"{self.root}/crates/{crate}")
        return self.texts[crate]

    def placed(self, crate, job, changes):
        """A copy of the crate with these changes, beside what a check of the sound one left; a folder for each job."""
        warm, place = self.warm(crate), f"{self.scratch}/job{job}/{crate}"
        restore(warm, f"{place}/inc")
        write_files(place, changed(self.sound(crate), changes))
        return place

    def run_one(self, change, job):
        """Checks a crate with one change: how it ended, the first errors, and the seconds of the check."""
        place, begun = self.placed(change.crate, job, [change]), time.time()
        kind, errors = judged(*self.check(change.crate, place, f"{place}/inc"))
        seconds = round(time.time() - begun, 1)
        # no survivor is believed on the word of an incremental folder: once more, from nothing
        if kind == "survived" and self.check(change.crate, place)[0] != 0:
            kind = "unsteady"
        return kind, errors, seconds

    def run(self, changes, job):
        """The same for several changes of one crate, each of another function, by one check. A function rests on the
        contracts of those that it calls and never on their code, so that each change is judged by the errors in the
        proof of its own function. Those that are not told by them, survivors mostly, are checked again apart."""
        if len(changes) == 1:
            return [self.run_one(changes[0], job)]
        crate = changes[0].crate
        place, begun = self.placed(crate, job, changes), time.time()
        status, said = self.check(crate, place, f"{place}/inc")
        seconds = round((time.time() - begun) / len(changes), 1)
        ended = [judged_in(status, said, change) for change in changes]
        left = [change for change, how in zip(changes, ended) if how is None]
        if len(left) < len(changes):
            rest = self.run(left, job) if left else []
        elif status == 0 and self.check(crate, place)[0] == 0:
            rest = [("survived", [], seconds)] * len(left)
        else:
            rest = [self.run_one(change, job) for change in left]
        again = iter(rest)
        return [(*how, seconds) if how else next(again) for how in ended]


def changed(texts, changes):
    """The files with all these changes, none of which lies within another."""
    texts, spans = dict(texts), collections.defaultdict(list)
    for change in changes:
        for name, a, b, new in change.places(texts):
            spans[name].append((a, b, new))
    for name, found in spans.items():
        for a, b, new in sorted(found, reverse=True):
            texts[name] = texts[name][:a] + new + texts[name][b:]
    return texts


def files_in(top):
    """The texts of the files below src/, specs/ and proofs/, by name."""
    texts = {}
    for part in PARTS:
        for folder, _, names in os.walk(f"{top}/{part}"):
            for name in names:
                with open(f"{folder}/{name}") as file:
                    texts[os.path.relpath(f"{folder}/{name}", top)] = file.read()
    return texts


def write_files(top, texts):
    """Makes the files below src/, specs/ and proofs/ those that are given, and no others."""
    have = files_in(top)
    for name in have.keys() - texts.keys():
        os.remove(f"{top}/{name}")
    for name, text in texts.items():
        if have.get(name) != text:
            os.makedirs(os.path.dirname(f"{top}/{name}"), exist_ok=True)
            with open(f"{top}/{name}", "w") as file:
                file.write(text)


def restore(sound, place):
    """Makes `place` the same as `sound`: what differs in size or time is copied, what is new is removed."""

    def listed(top):
        walk = ((folder, name) for folder, _, names in os.walk(top) for name in names)
        return {os.path.relpath(f"{folder}/{name}", top): os.stat(f"{folder}/{name}") for folder, name in walk}

    want, have = listed(sound), listed(place)
    for name in have.keys() - want.keys():
        os.remove(f"{place}/{name}")
    for name, stat in want.items():
        if name not in have or (have[name].st_size, have[name].st_mtime_ns) != (stat.st_size, stat.st_mtime_ns):
            os.makedirs(os.path.dirname(f"{place}/{name}"), exist_ok=True)
            shutil.copy2(f"{sound}/{name}", f"{place}/{name}")


def told_errors(said):
    """The errors that do not just follow from others, with paths inside the crate."""
    lines = [re.sub(r"^\S*/(?=(src|specs|proofs)/)", "", line)[:400] for line in said.split("\n")]
    return [line for line in lines if re.search(TOLD, line) and not re.search(FOLLOWS, line)]


def refused(errors):
    unfit = [error for error in errors if re.search(PLACE, error)]
    return "place" if unfit else "fact", (unfit + errors)[:6]


def judged(status, said):
    """How a check of one change ended, and its first errors."""
    errors = told_errors(said)
    # 3: the prover could not tell, at a limit of its own
    if status is None or status == 3:
        return "timeout", []
    if status == 0 and "logic=proved" in said:
        return "survived", []
    if "logic=not-proved" not in said:
        return "before the proof" if status == 1 else f"exit {status}", (errors or said.split("\n"))[:4]
    return refused(errors)


def judged_in(status, said, change):
    """How one of several changes ended, by what is said of its function; None where that doesn't tell."""
    if status != 1 or "logic=not-proved" not in said:
        return None
    folder, named = "/".join(change.proof), "::".join([change.crate, *change.proof])
    own = [error for error in told_errors(said) if error.startswith((f"proofs/{folder}/", f"fn {named}: "))]
    return refused(own) if own else None
