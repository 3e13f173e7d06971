"""Every small change that could be made in one place of a function: another operator, number, variable, order, arm."""
import collections
import hashlib
import math
import re

from words import COMPARED, KEYWORDS, NAME, NUMBER

# What stands in the place of an operator.
OTHER = {
    "+": "-*", "-": "+*", "*": "+/", "/": "*-", "%": "/*", "+=": ["-="], "-=": ["+="], "*=": ["+="],
    "<": ["<=", ">="], "<=": ["<", ">"], ">": [">=", "<="], ">=": [">", "<"], "==": ["!=", "<="], "!=": ["==", "<"],
    "&&": ["||"], "||": ["&&"], "|": "&", "&": "|", "<<": [">>"], ">>": ["<<"],
}
# Statements that are never dropped: what is left would not compile, or is no statement.
KEPT = ("let", "return", "match", "while", "for", "loop", "break", "}", ";")


class Change:
    """Some words of a function with others in their place. Its id names it by what a reader sees, and by no offset."""

    def __init__(self, source, function, operator, spans):
        self.crate, self.file, self.function, self.operator = source.crate, source.name, function.name, operator
        self.spans = sorted(spans)
        self.proof = source.proof_of(function)
        text = source.text
        self.line = text.count("\n", 0, self.spans[0][0]) + 1
        begins = text.rfind("\n", 0, self.spans[0][0]) + 1
        ends = text.find("\n", self.spans[-1][1])
        self.old, self.new = one_line(text[begins:ends]), one_line(replaced(text, self.spans, begins, ends))
        self.place = f"{self.crate}/{self.file} {self.function}"
        self.id = f"{self.place}: {self.old} -> {self.new}"

    def places(self, texts):
        """What is replaced: file, begin, end, new text."""
        return [(f"src/{self.file}", a, b, new) for a, b, new in self.spans]


def one_line(text):
    return " ".join(text.split())


def replaced(text, spans, begins, ends):
    """The text from `begins` to `ends` with the new words in their places."""
    out, at = "", begins
    for a, b, new in spans:
        out += text[at:a] + new
        at = b
    return out + text[at:ends]


class Walk:
    """One walk through a function that keeps the variables in scope and notes each change on the way."""

    def __init__(self, source, function):
        self.source, self.function, self.words = source, function, source.words
        self.found = []
        self.scopes = [source.consts, dict(function.params)]
        self.arm = {}  # the names that the pattern of the present arm binds
        self.later = collections.defaultdict(dict)  # names that are in scope from a place on
        for k in range(function.first, function.last):
            self.enter(k)
            self.structure(k)
            self.word(k)

    def seen(self):
        return {name: what for scope in self.scopes for name, what in scope.items()}

    def type_of(self, a, b):
        return self.source.type_of(a, b, self.seen())

    # ---- scopes

    def enter(self, k):
        """Blocks that begin and end, and names that are known from here on."""
        word = self.words[k]
        self.scopes += [{}] if word == "{" else []
        self.scopes[-1].update(self.later.pop(k, {}))
        if word == "}":
            self.scopes.pop()

    def structure(self, k):
        """Statements, bindings, branches and arms."""
        source, words, last = self.source, self.words, self.function.last
        word, before, after = words[k], words[k - 1], words[k + 1]
        if word in "{};" and after != "}":
            self.drop_statement(k + 1)
        block = source.outside(k, last, "{")[0] if word in ("for", "match", "if") else None
        if word == "let" and before != "if":
            name = k + 1 + (after == "mut")
            equals, end = source.outside(k, last, "=")[0], source.outside(k, last, ";")[0]
            kind = source.joined(name + 2, equals) if words[name + 1] == ":" else self.type_of(equals + 1, end)
            self.later[end][words[name]] = (kind, after == "mut")
        elif word == "for":
            self.later[block][after] = (self.type_of(k + 3, block), False)
        elif word == "match":
            self.swap_arms(block)
        elif word == "if" and source.joined(source.closing(block) + 1, last).startswith("else {"):
            closes = source.closing(block)
            self.swap("arms", (block, closes + 1), (closes + 2, source.closing(closes + 2) + 1))
        elif word == "=>" and before == ")":
            opens = max(j for j in range(k) if words[j] == "(")
            kinds = source.types.carried.get(f"{words[opens - 3]}::{words[opens - 1]}", [])
            for name in self.arm:
                self.scopes[-1].pop(name, None)
            bound = zip(source.parts(opens), kinds)
            self.arm = {words[a]: (kind, False) for (a, _), kind in bound if words[a] != "_"}
            self.scopes[-1].update(self.arm)

    # ---- changes

    def add(self, operator, *edits):
        """Notes a change: ranges of words with their new texts."""
        spans = self.source.spans
        places = [(spans[a][0], spans[b - 1][1], new) for a, b, new in edits]
        self.found.append(Change(self.source, self.function, operator, places))

    def word(self, k):
        """The changes of one word."""
        words, word, before, after = self.words, self.words[k], self.words[k - 1], self.words[k + 1]
        valued = NAME.match(before) or NUMBER.match(before)
        operand = before in (")", "]", "self") or (before not in KEYWORDS and valued)
        if word in OTHER and operand:
            for new in OTHER[word]:
                self.add(family(word), (k, k + 1, new))
        elif word in ("-", "!"):
            self.add("arithmetic" if word == "-" else "and/or", (k, k + 1, ""))
        elif NUMBER.match(word) and before != ".":
            self.number(k, word)
        elif NAME.match(word) and word not in KEYWORDS:
            if before == "::" and f"{words[k - 2]}::{word}" in self.reasons():
                self.reason(k)
            elif self.source.joined(k - 2, k) == "self ." and after != "(":
                self.field(k)
            elif after == "(" and before != ".":
                self.swap_neighbours(self.source.parts(k + 1), self.source.called(k)[0])
            elif after == "{" and word in self.source.types.fields:
                kinds, fields = self.source.types.fields[word], self.source.parts(k + 1)
                self.swap_neighbours([(a + 2, b) for a, b in fields], [kinds.get(words[a]) for a, _ in fields])
            elif before not in (".", "::", "let", "for") and after not in ("::", ":", "("):
                if word.startswith("BAD_"):
                    self.refusal(k)
                elif word in self.source.types.constants:
                    self.number(k, self.source.types.constants[word])
                elif words[k - 2 : k] != ["let", "mut"]:
                    self.variable(k)

    def number(self, k, number):
        """Other numbers in the place of a number, or of a constant that stands for it."""
        digits, suffix = NUMBER.match(number).groups()
        real = suffix in ("f32", "f64") or ("0x" not in digits and ("." in digits or "e" in digits.lower()))
        value = float(digits.replace("_", "")) if real else int(digits.replace("_", ""), 0)
        if real:
            narrow = value + max(abs(value) * 2.0**-23, 2.0**-149)
            others = [value + 1, value * 2, 0.0, -value or 0.0]
            others.append(narrow if suffix == "f32" else math.nextafter(value, math.inf))
        else:
            others = [value + 1, value * 2, 0, max(value - 1, 0)]
        for text in dict.fromkeys(repr(other).replace("e+", "e") for other in others if other != value):
            self.add("number", (k, k + 1, text + (suffix or "")))

    def refusal(self, k):
        """The number of another refusal: two that the file names too, or 0."""
        imports = " ".join(re.findall(r"^use verdict::[^;]*;", self.source.text, re.M))
        named = re.findall(r"\bBAD_\w+", imports)
        for other in [name for name in named if name != self.words[k]][:2] or ["0"]:
            self.add("refusal", (k, k + 1, other))

    def reasons(self):
        """The cases of `Reason`, which the refusals take their numbers from."""
        return [case for case in self.source.types.carried if case.startswith("Reason::")]

    def reason(self, k):
        """The number of another refusal, as a case: two that the file names too, or the first of all."""
        named = dict.fromkeys(re.findall(r"\bReason::\w+", self.source.text))
        for other in self.others(k, named)[:2] or self.others(k, self.reasons())[:1]:
            self.add("refusal", (k, k + 1, other))

    def others(self, k, cases):
        """Cases but the one at k, without their enum's name."""
        names = [case.split("::")[1] for case in cases if case in self.reasons()]
        return [name for name in names if name != self.words[k]]

    def variable(self, k):
        """Another variable, or field of self, of the same type."""
        self.exchange(k, k, self.seen().get(self.words[k], (None, False))[0])

    def field(self, k):
        """The same for the field of self at k."""
        self.exchange(k - 2, k, self.fields().get(self.words[k]))

    def fields(self):
        """The fields of self, with their types."""
        return self.source.types.fields.get(self.seen().get("self", (None, False))[0], {})

    def exchange(self, first, k, kind):
        """Other names of a type for that from `first` to k."""
        stored = self.words[k + 1] in ("=", "+=", "-=", "*=")
        names = dict(self.seen())
        names.update({f"self.{name}": (other, False) for name, other in self.fields().items()})
        old = "".join(self.words[first : k + 1])
        for name, (other, mutable) in names.items():
            if kind and other == kind and name not in (old, *self.source.consts) and (mutable or not stored):
                self.add("variable", (first, k + 1, name))

    def swap(self, operator, one, two):
        text, spans = self.source.text, self.source.spans
        texts = [text[spans[a][0] : spans[b - 1][1]] for a, b in (one, two)]
        if self.source.joined(*one) != self.source.joined(*two):
            self.add(operator, (*one, texts[1]), (*two, texts[0]))

    def swap_neighbours(self, parts, kinds):
        """Arguments, or fields, beside each other and of one type."""
        for one, two, kind, other in zip(parts, parts[1:], kinds, kinds[1:]):
            if kind and kind == other:
                self.swap("arguments", one, two)

    def swap_arms(self, opens):
        """The bodies of arms beside each other, where each binds what the other's uses."""
        source, words, bodies, k = self.source, self.words, [], opens + 1
        closes = source.closing(opens)
        for arrow in source.outside(opens + 1, closes, "=>"):
            if words[arrow + 1] == "{":
                end = source.closing(arrow + 1) + 1
            else:
                end = (source.outside(arrow, closes, ",") or [closes])[0]
            binds = {word for word in words[k:arrow] if re.match(r"[a-z]", word)}
            bodies.append(((arrow + 1, end), binds, binds & set(words[arrow:end])))
            k = end
        for (one, binds, uses), (two, other, others) in zip(bodies, bodies[1:]):
            if uses <= other and others <= binds:
                self.swap("arms", one, two)

    def drop_statement(self, k):
        """Drops a store, an assignment, a call for its effect, or a test that returns."""
        source, words, last = self.source, self.words, self.function.last
        if k >= last or words[k] in KEPT:
            return
        if words[k] == "if":
            opens = source.outside(k, last, "{")[0]
            closes = source.closing(opens)
            ends = [opens] + [j for j in source.outside(opens + 1, closes, ";") if j < closes - 1]
            if words[closes + 1] != "else" and words[ends[-1] + 1] == "return":
                self.add("drop", (k, closes + 1, ""))
            return
        end = k
        while end < last and words[end] not in ");]}":
            end = source.closing(end) + 1 if words[end] in "([{" else end + 1
        if end < last and words[end] == ";":
            self.add("drop", (k, end + 1, ""))


def family(word):
    return "comparison" if word in COMPARED else "and/or" if word in ("&&", "||", "&", "|") else "arithmetic"


def all_changes(sources):
    """Every change of every function, each with an id of its own."""
    found, times = [], collections.Counter()
    for source in sources:
        for function in source.functions:
            for change in Walk(source, function).found:
                times[change.id] += 1
                change.id += f" ({times[change.id]})" if times[change.id] > 1 else ""
                found.append(change)
    return found


def sample(changes, count, seed):
    """`count` changes in an order that the seed fixes: one of each function, then a second of each, and so on, of
    another kind where there is one. A function that is edited changes only its own part of the sample."""

    def drawn(*of):
        return hashlib.sha256(" ".join([str(seed), *of]).encode()).hexdigest()

    by_function = collections.defaultdict(list)
    for change in changes:
        by_function[change.crate, change.file, change.function].append(change)
    order = []
    for name, own in by_function.items():
        rank = collections.Counter()
        rounds = []
        for change in sorted(own, key=lambda change: drawn(change.id)):
            rounds.append((rank[change.operator], drawn(*name, change.operator), change))
            rank[change.operator] += 1
        rounds.sort(key=lambda entry: entry[:2])
        order += [(turn, drawn(*name), change) for turn, (_, _, change) in enumerate(rounds)]
    order.sort(key=lambda entry: entry[:2])
    return [change for _, _, change in order[:count]]
