"""Rattle sources as far as the gate reads them: modules, functions with their contracts, structs, enums and what is re-exported."""

import re
from dataclasses import dataclass, field
from pathlib import Path

from lexer import CLAUSES, Unread, line_of, split, tokens


@dataclass
class Clause:
    """A clause of a contract: its name, or none, and the fact."""
    name: str
    fact: str


def read_clause(text):
    """The clause that stands in a source as `NAME { FACT }`."""
    name, _, rest = text.partition("{")
    return Clause(name.strip(), " ".join(rest.rpartition("}")[0].split()))


@dataclass
class Function:
    crate: str
    modules: list
    owner: str
    name: str
    public: bool
    exported: bool
    parameters: list
    answer: str
    requires: list
    ensures: list
    file: Path
    first: int
    body: tuple

    @property
    def path(self):
        """The path below the crate, as code writes it."""
        return "::".join(self.modules + ([self.owner] if self.owner else []) + [self.name])

    @property
    def lent(self):
        """The places of the parameters that are lent to be written."""
        return [place for place, (_, given) in enumerate(self.parameters) if given.startswith("&") and " mut " in given]


@dataclass
class Type:
    crate: str
    name: str
    public: bool
    fields: list
    variants: list


@dataclass
class Export:
    file: Path
    modules: list
    path: list


@dataclass
class Crate:
    name: str
    folder: Path
    functions: list = field(default_factory=list)
    types: dict = field(default_factory=dict)
    exports: list = field(default_factory=list)
    public_modules: set = field(default_factory=set)
    imports: dict = field(default_factory=dict)


class Reader:
    """Reads the items of one file into a crate."""

    def __init__(self, crate, file, modules):
        self.crate, self.file, self.modules = crate, file, modules
        self.text = file.read_text(encoding="utf-8")
        self.all = tokens(self.text, file)
        self.at = 0

    def unread(self, what):
        line = self.line(self.all[min(self.at, len(self.all) - 1)].at)
        raise Unread(f"{self.file}:{line}: {what}")

    def line(self, at):
        return line_of(self.text, at)

    def peek(self):
        return self.all[self.at].text if self.at < len(self.all) else ""

    def next(self):
        self.at += 1
        return self.all[self.at - 1]

    def expect(self, text):
        if self.peek() != text:
            self.unread(f"`{self.peek()}` where `{text}` is read")
        return self.next()

    def inside(self, opening, closing):
        """The tokens between two brackets, read past the closing one."""
        self.expect(opening)
        first, depth = self.at, 1
        while depth:
            depth += {opening: 1, closing: -1}.get(self.next().text, 0)
        return self.all[first:self.at - 1]

    def items(self, owner="", public_place=True):
        while self.at < len(self.all) and self.peek() != "}":
            self.item(owner, public_place)

    def item(self, owner, public_place):
        if self.all[self.at].kind in CLAUSES:
            if self.all[self.at].kind == "ghost" and not self.peek().startswith("use"):
                self.unread("a ghost item outside a struct is not read")
            self.at += 1
            return
        if self.peek() == "#" and self.all[self.at + 1].text == "!":
            self.at += 2
            self.inside("[", "]")
            return
        exported = "no_mangle" in self.attributes()
        start = self.at
        public = self.visibility()
        word = self.next().text
        if word == "extern":
            self.next()
            word = self.next().text
        if word == "fn":
            self.function(owner, public, exported, start)
        elif word == "mod" and not owner:
            self.module(public and public_place)
        elif word == "impl":
            self.methods()
        elif word in ("struct", "enum"):
            self.type(word, public)
        elif word == "use":
            self.use(public and public_place)
        elif word in ("const", "static", "type"):
            self.constant()
        else:
            self.at -= 1
            self.unread(f"an item that begins with `{word}` is not read")

    def attributes(self):
        """The words of the attributes before an item."""
        words = []
        while self.peek() == "#":
            self.next()
            words += [token.text for token in self.inside("[", "]")]
        return words

    def visibility(self):
        """Whether the item is public to every crate: `pub`, and not `pub(crate)` or the like."""
        if self.peek() != "pub":
            return False
        self.next()
        if self.peek() != "(":
            return True
        self.inside("(", ")")
        return False

    def module(self, public):
        name = self.next().text
        below = self.modules + [name]
        if public:
            self.crate.public_modules.add("::".join(below))
        if self.peek() == ";":
            self.next()
            Reader(self.crate, self.file_of(name), below).items(public_place=public)
            return
        self.expect("{")
        self.modules = below
        self.items(public_place=public)
        self.modules = below[:-1]
        self.expect("}")

    def file_of(self, name):
        folder = self.file.parent if self.file.stem in ("lib", "main", "mod") else self.file.with_suffix("")
        for file in (folder / f"{name}.rt", folder / name / "mod.rt"):
            if file.exists():
                return file
        self.unread(f"module {name} has no file")

    def methods(self):
        owner = self.next().text
        if self.peek() != "{":
            self.unread("an impl block of another form than `impl TYPE {` is not read")
        self.next()
        self.items(owner=owner)
        self.expect("}")

    def function(self, owner, public, exported, start):
        name = self.next().text
        if self.peek() == "<":
            self.inside("<", ">")
        parameters = [self.parameter(part) for part in split(self.inside("(", ")"), ",")]
        answer = self.answer()
        clauses = []
        while self.all[self.at].kind in CLAUSES:
            clauses.append(self.next())
        first = self.all[start].at
        opening = self.all[self.at].at
        self.inside("{", "}")
        closing = self.all[self.at - 1].at
        self.crate.functions.append(Function(
            self.crate.name, list(self.modules), owner, name, public, exported, parameters, answer,
            [read_clause(c.text) for c in clauses if c.kind == "requires"], [read_clause(c.text) for c in clauses if c.kind == "ensures"],
            self.file, self.line(first), (opening, closing + 1),
        ))

    def parameter(self, part):
        words = [token.text for token in part]
        if ":" not in words:
            return "self", " ".join(words)
        colon = words.index(":")
        return words[colon - 1], " ".join(words[colon + 1:])

    def answer(self):
        if self.peek() != "->":
            return ""
        self.next()
        first = self.at
        while self.peek() != "{" and self.all[self.at].kind not in CLAUSES:
            self.next()
        return " ".join(token.text for token in self.all[first:self.at])

    def type(self, word, public):
        name = self.next().text
        fields, variants = [], []
        if self.peek() == "{":
            for part in split(self.inside("{", "}"), ","):
                words = [token.text for token in part]
                if part[0].kind == "ghost":
                    if public:
                        self.unread("a ghost field of a public type would ask something of callers, and is not read")
                    continue
                if word == "enum":
                    variants.append(words[0])
                else:
                    words = words[1:] if words[0] == "pub" else words
                    fields.append((words[0], " ".join(words[2:])))
        else:
            if self.peek() == "(":
                self.inside("(", ")")
            self.expect(";")
        if name in self.crate.types:
            self.unread(f"a second type {name} of the crate is not read")
        self.crate.types[name] = Type(self.crate.name, name, public, fields, variants)

    def constant(self):
        if self.peek() == "fn":
            self.unread("a function of this form is not read")
        depth = 0
        while depth or self.peek() != ";":
            depth += {"[": 1, "(": 1, "]": -1, ")": -1}.get(self.next().text, 0)
        self.next()

    def use(self, public):
        words = []
        while self.peek() != ";":
            words.append(self.next().text)
        self.next()
        path = [word for word in words if word != "::"]
        alias = path[path.index("as") + 1] if "as" in path else path[-1]
        plain = path[:path.index("as")] if "as" in path else path
        if "{" in words or "*" in words:
            if public:
                self.unread("a `pub use` of several names is not read: one line for each")
            return
        if public:
            self.crate.exports.append(Export(self.file, list(self.modules), plain))
        self.crate.imports.setdefault(self.file, {})[alias] = plain


# a line that brings names from a file of specs; std's are not the repository's
BROUGHT = re.compile(r"^ghost use Rattle\.(?!std\.)(\w+)\.specs\.(\w+)\.\{([^}]*)\};$", re.MULTILINE)


def brought(file):
    """The names of specs that a source brings: of each the crate, the file and the name there."""
    found = {}
    for crate, inner, listed in BROUGHT.findall(file.read_text(encoding="utf-8")):
        for item in listed.split(","):
            name, _, alias = item.strip().partition(" as ")
            found[alias or name] = crate, inner, name
    return found
