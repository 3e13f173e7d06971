"""Rattle code as words: what of a file can be changed, which functions it has, and the types of their names."""
import collections
import re

# A word of the language: a comment, a string, a character, a lifetime, a number, a name, or a sign.
WORD = re.compile(
    r"""//[^\n]*|b?"(?:\\.|[^"\\])*"|b?'(?:\\.|[^'\\])'|'[a-z_]\w*|0x[\da-fA-F_]+(?:[ui](?:8|16|32|64|size))?
    |\d[\d_]*(?:\.\d+)?(?:[eE][+-]?\d+)?(?:[uif](?:8|16|32|64|size))?|[A-Za-z_]\w*
    |::|->|=>|\.\.=|\.\.|<<=?|>>=?|<=|>=|==|!=|&&|\|\||[-+*/%]=|\S""",
    re.X,
)
NAME = re.compile(r"[A-Za-z_]\w*$")
NUMBER = re.compile(r"(0x[\da-fA-F_]+?|\d[\d_]*(?:\.\d+)?(?:[eE][+-]?\d+)?)([uif](?:8|16|32|64|size))?$")
KEYWORDS = set(
    "as break const continue else enum fn for if impl in let loop match mod mut pub return self struct use while "
    "true false".split()
)
COMPARED = ("<", "<=", ">", ">=", "==", "!=")


def impl_name(told):
    """The name of an impl's record, or, of a trait's, the name of the folder that its proofs stand in: the record, the
    trait and what that is of, as in ReportFromRefusal."""
    if "for" not in told:
        return told[0]
    at = told.index("for")
    return "".join(word[0].upper() + word[1:] for word in told[at + 1 :] + told[:at] if word[0].isalnum())


class Function:
    """A function with its body, or a constant with its value, as a range of words."""

    def __init__(self, name, kind, public, promises, params, first, last):
        self.name, self.kind, self.params, self.first, self.last = name, kind, params, first, last
        self.public, self.promises = public, promises  # whether others can call it, and whether it has an `ensures`


class Types:
    """What all files together say of types: the fields of records, what enums carry, what functions take and answer."""

    def __init__(self):
        self.fields = collections.defaultdict(dict)  # record: {field: type}
        self.carried = {}  # "Enum::Case": the types that it carries
        self.functions = collections.defaultdict(list)  # name: (source, types of the parameters, type of the answer)
        self.constants = {}  # public constant: its number


class Source:
    """One file: its words with their places in the text, without comments, contracts, imports and attributes."""

    def __init__(self, crate, name, text, types):
        self.crate, self.name, self.text, self.types = crate, name, text, types
        found = [m for m in WORD.finditer(text) if not m.group().startswith("//")]
        self.words = [m.group() for m in found]
        kept, promised, k = [], [], 0
        while k < len(found):
            if self.words[k] in ("requires", "ensures", "#"):
                promised += [found[k].start()] if self.words[k] == "ensures" else []
                # a clause may have a name, and an attribute of the whole file a `!`
                k = self.closing(self.words.index("[" if self.words[k] == "#" else "{", k))
            elif self.words[k] in ("use", "mod"):
                k = self.words.index(";", k)
            elif self.words[k] == "ghost":
                # an import or a member of an impl ends in `;`, a field in `,` or with its struct
                k = self.outside_first(k, ";", ",", "}")
                k -= self.words[k] == "}"
            else:
                kept.append(found[k])
            k += 1
        self.words, self.spans = [m.group() for m in kept], [m.span() for m in kept]
        self.functions, self.consts, self.promised = [], {}, promised
        self.read_items()

    # ---- words in a range

    def closing(self, k):
        """Where the bracket that opens at k closes."""
        depth = 0
        while True:
            depth += (self.words[k] in "([{") - (self.words[k] in ")]}")
            if depth == 0:
                return k
            k += 1

    def joined(self, a, b):
        return " ".join(self.words[a:b])

    def outside(self, a, b, *among):
        """The places from a to b, outside of brackets, that hold one of `among`."""
        found, k = [], a
        while k < b:
            found += [k] if self.words[k] in among else []
            k = self.closing(k) + 1 if self.words[k] in "([{" else k + 1
        return found

    def outside_first(self, k, *among):
        """The first place from k on, outside of brackets, that holds one of `among`."""
        while self.words[k] not in among:
            k = self.closing(k) + 1 if self.words[k] in "([{" else k + 1
        return k

    def parts(self, opens):
        """The parts, between commas, of the brackets that open there."""
        closes = self.closing(opens)
        cuts = [opens, *self.outside(opens + 1, closes, ","), closes]
        return [(i + 1, j) for i, j in zip(cuts, cuts[1:]) if j > i + 1]

    # ---- functions, constants, records, enums

    def read_items(self):
        words, k, method_of, own = self.words, 0, (None, 0, False, False), set()
        while k < len(words):
            end = k
            if words[k] == "impl":
                end = words.index("{", k)
                of_trait = "for" in words[k:end]
                method_of = (impl_name(words[k + 1 : end]), self.closing(end), of_trait, words[k + 1] not in own)
            elif words[k] == "trait":
                # promises, and the code that an impl may leave out; nobody else can call those of a trait that isn't public
                own.update([words[k + 1]] if words[k - 1] != "pub" else [])
                end = words.index("{", k)
                method_of = (words[k + 1], self.closing(end), True, words[k + 1] not in own)
            elif words[k] == "fn":
                record, last, *told = method_of
                end = self.read_function(k, record, *told) if k < last else self.read_function(k, None, False, False)
            elif words[k] == "const":
                end = words.index(";", k)
                if words[k - 1] == "pub":
                    # nothing is promised of it where it stands: it is changed where it is used
                    self.types.constants[words[k + 1]] = words[end - 1]
                else:
                    self.consts[words[k + 1]] = (words[k + 3], False)
                    self.functions.append(Function(words[k + 1], "const", False, True, {}, k + 4, end))
            elif words[k] in ("struct", "enum") and words[k + 2] in "({":
                end = self.read_type(k)
            k = end + 1

    def read_function(self, k, record, of_trait, others):
        words, opens = self.words, self.words.index("(", k)
        closes = self.closing(opens)
        body = self.outside(closes + 1, len(words), ";", "{")[0]
        if words[body] == ";":
            return body  # a trait's function that each impl gives
        split = [self.joined(a, b).split(" : ") for a, b in self.parts(opens)]
        params = {part[0].split()[-1]: (part[1], False) for part in split if len(part) == 2}
        if record and words[opens + 1] == "self":
            params["self"] = (record, False)
        answer = self.joined(closes + 2, body) if words[closes + 1] == "->" else ""
        public = of_trait and others or words[k - 1] == "pub" or words[k - 3 : k] == ["pub", "extern", '"C"']
        end = self.closing(body)
        name = f"{record}::{words[k + 1]}" if record else words[k + 1]
        taken = tuple(kind for name, (kind, _) in params.items() if name != "self")
        self.types.functions[words[k + 1]].append((self, taken, answer))
        # a trait's function promises what the impl's ghost members say
        promises = of_trait or any(self.spans[k][0] < place < self.spans[body][0] for place in self.promised)
        self.functions.append(Function(name, "fn", public, promises, params, body, end))
        return end

    def read_type(self, k):
        words, name = self.words, self.words[k + 1]
        for a, b in self.parts(k + 2):
            a += words[a] == "pub"
            if words[k] == "enum":
                carried = [self.joined(*part) for part in self.parts(a + 1)] if words[a + 1] == "(" else []
                self.types.carried[f"{name}::{words[a]}"] = carried
            elif words[k + 2] == "{":
                self.types.fields[name][words[a]] = self.joined(a + 2, b)
        return self.closing(k + 2)

    def proof_of(self, function):
        """Where the function's proof stands, as the names of folders; None for a constant, which has none."""
        if function.kind == "const":
            return None
        return ([] if self.name == "lib.rt" else [self.name[: -len(".rt")]]) + function.name.split("::")

    # ---- types of expressions

    def called(self, k):
        """The types of the parameters, and of the answer, of the function or case that is called at k."""
        path = self.words[k - 2] if self.words[k - 1] == "::" else None
        case = f"{path}::{self.words[k]}"
        if case in self.types.carried:
            return self.types.carried[case], path
        named = self.types.functions.get(self.words[k], [])
        near = [f for f in named if (path in (f[0].crate, f[0].name[:-3]) if path else f[0] is self)]
        kinds = {f[1:] for f in near or named}
        return kinds.pop() if len(kinds) == 1 else ((), None)

    def type_of(self, a, b, seen):
        """The obvious type of an expression, or None; `seen` has the variables in scope."""
        w = self.words
        if self.outside(a, b, *COMPARED, "&&", "||") or w[a] in ("!", "true", "false"):
            return "bool"
        for cut in self.outside(a + 1, b, *"+*/%-") + self.outside(a + 1, b, "..", "..="):
            return self.type_of(a, cut, seen) or self.type_of(cut + 1, b, seen)
        if w[b - 2] == "as":
            return w[b - 1]
        if w[a] in "-(&":
            return None if w[a] == "&" else self.type_of(a + 1, b - (w[a] == "("), seen)
        if self.joined(b - 4, b) == ". len ( )":
            return "usize"
        if b == a + 1:
            number = NUMBER.match(w[a])
            if number:
                return number.group(2) or ("f64" if "." in w[a] else None)
            return seen.get(w[a], (None, False))[0]
        if b == a + 3 and w[a + 1] == ".":
            return self.types.fields.get(self.type_of(a, a + 1, seen), {}).get(w[b - 1])
        opens = (self.outside(a, b, "(", "{") or [b])[0]
        if opens == b or self.closing(opens) != b - 1:
            return None
        told = re.search(r"_to_(\w+)$|^(to_bits|from_bits)$", w[opens - 1])
        if told:
            return told.group(1) or {"f64to_bits": "u64", "f32to_bits": "u32"}.get(w[a] + w[opens - 1], w[a])
        return self.called(opens - 1)[1] if w[opens] == "(" else w[opens - 1]
