"""The records of the promises as far as the gate reads them: fields, the terms in them, and whether one term is an instance of another."""

import re
from dataclasses import dataclass
from pathlib import Path

WORD = re.compile(r"λ|→|[(){},;]|[^\s(){},;λ→]+")


@dataclass
class Field:
    """A field of a record. Where the record is over a value, `over` is what it calls that, and its type."""
    file: Path
    record: str
    over: tuple
    name: str
    words: list
    scope: dict


def scope_of(text):
    """What the `use` lines of a file bring: names, and modules, whose names end with a point."""
    scope = {}
    for module, listed, alias in re.findall(r"^use (\S+?)(?:\.\{([^}]*)\})?(?: as (\S+))?$", text, re.MULTILINE):
        if listed:
            for item in listed.split(","):
                name, _, other = item.strip().partition(" as ")
                scope[other or name] = f"{module}.{name}"
        else:
            scope[(alias or module.split(".")[-1]) + "."] = module + "."
    return scope


def words_of(text):
    """The words of a term without its comment; the point that ends a binder stands by itself. A projection with a space before it keeps the space."""
    found = []
    for match in WORD.finditer(text.split("-- ")[0]):
        word, before = match.group(), text[match.start() - 1:match.start()]
        if word.endswith(".") and not word.startswith("."):
            found += [word[:-1], "."]
        else:
            found.append(" " + word if word.startswith(".") and len(word) > 1 and before != ")" else word)
    return found


def read_fields(file):
    """The fields of a file's public records."""
    text = file.read_text(encoding="utf-8")
    scope, record, over, found = scope_of(text), "", ("", ""), []
    for line in text.splitlines():
        started = re.match(r"pub record (\S+)(?: \((\w+) : (\w+)\))?", line)
        field = re.match(r"  pub (\S+) : (.*)", line)
        if started:
            record, over = started.group(1), started.group(2, 3)
        elif field and record:
            found.append(Field(file, record, over, field.group(1), words_of(field.group(2)), scope))
        elif re.match(r"   +\S", line) and record and found:
            found[-1].words += words_of(line)
        elif line and not line.startswith(" "):
            record = ""
    return found


class Terms:
    """Reads words into a term: a word, ("app", ..), ("dot", term, field), ("pair", ..), ("λ", names, body) or
    ("record", ..) of ("field", name, term)."""

    def __init__(self, words, scope, bound=()):
        self.words, self.scope, self.bound, self.at = words, scope, list(bound), 0

    def peek(self):
        return self.words[self.at] if self.at < len(self.words) else ""

    def next(self):
        self.at += 1
        return self.words[self.at - 1]

    def term(self):
        if self.peek() == "λ":
            return self.function()
        if self.peek() == "let":
            return self.let()
        return self.spine()

    def function(self):
        self.next()
        first = self.at
        while self.next() != ".":
            pass
        names = tuple(word for word in self.words[first:self.at - 1] if word not in ("(", ")", ","))
        return "λ", names, self.under(names)

    def let(self):
        self.next()
        name = self.next()
        while self.next() != "=":
            pass
        value = self.term()
        self.next()
        return put_in(self.under([name]), {name: value})

    def under(self, names):
        """A term in which these names are bound."""
        self.bound.extend(names)
        body = self.term()
        del self.bound[len(self.bound) - len(names):]
        return body

    def spine(self):
        items = []
        while self.peek() not in ("", ")", ",", "}", ";", "in", "→"):
            word = self.peek()
            if word == "(":
                items.append(self.group())
            elif word == "{":
                items = self.braces(items)
            elif word.startswith(" ."):
                items = [dotted(applied(items), self.next()[1:])]
            elif word.startswith(".") and len(word) > 1:
                items[-1] = dotted(items[-1], self.next())
            elif word in ("λ", "let"):
                items.append(self.term())
            else:
                items.append(self.named(self.next()))
        return applied(items)

    def group(self):
        self.next()
        parts = [self.term()]
        while self.peek() == ",":
            self.next()
            parts.append(self.term())
        self.next()
        return parts[0] if len(parts) == 1 else ("pair", *parts)

    def braces(self, items):
        """What stands before braces, with them: the fields of a record; an implicit argument is left out."""
        of_record = "record" in items[-2:]
        self.next()
        fields = []
        while self.peek() != "}":
            name = self.next() if of_record else ""
            if of_record and self.next() != "=":
                raise ValueError(f"a record's field {name} is not read")
            fields.append(("field", "." + name, self.term()))
            while self.peek() in (";", "→", ",", "in"):
                self.next()
        self.next()
        if not of_record:
            return items
        at = len(items) - 1 - items[::-1].index("record")
        return items[:at] + [("record", *items[at + 1:], *fields)]

    def named(self, word):
        """A name as its module knows it, or a field of what it names."""
        front, dot, rest = word.partition(".")
        if front in self.bound or not dot:
            return dotted(front if front in self.bound else self.scope.get(front, front), dot + rest)
        return self.scope[front + dot] + rest if front + dot in self.scope else dotted(self.scope.get(front, front), dot + rest)


def dotted(term, fields):
    """Fields of a term, `.x.y`."""
    for name in fields.split(".")[1:]:
        term = ("dot", term, "." + name)
    return term


def applied(items):
    return items[0] if len(items) == 1 else ("app", *items)


def put_in(term, values):
    """A term with names replaced."""
    if isinstance(term, str):
        return values.get(term, term)
    if term[0] == "λ":
        return "λ", term[1], put_in(term[2], {name: value for name, value in values.items() if name not in term[1]})
    return (term[0], *(put_in(part, values) for part in term[1:]))


def unfolded(term, definitions):
    """A term with defined names replaced by what they are, each applied to its arguments at once."""
    if isinstance(term, str):
        return definitions.get(term, term)
    if term[0] == "λ":
        return "λ", term[1], unfolded(term[2], definitions)
    parts = [unfolded(part, definitions) for part in term[1:]]
    return ("app", *parts[0][1:], *parts[1:]) if term[0] == "app" and parts[0][0] == "app" else (term[0], *parts)


def by_place(function):
    """The body of a function of lifetimes and arguments, each argument named by its place."""
    names = function[1][1:]
    return put_in(function[2], {name: f"#{place}" for place, name in enumerate(names) if name != "_"})


def parts(term):
    """The components of a nested pair."""
    return [part for inner in term[1:] for part in parts(inner)] if term[0] == "pair" else [term]


def below(term):
    """A term and all terms in it."""
    yield term
    if not isinstance(term, str):
        for part in term[2:] if term[0] == "λ" else term[1:]:
            yield from below(part)


def matches(pattern, term, names, values):
    """The values of the pattern's names at which it is the term, beside those given; None where there are none."""
    if isinstance(pattern, str):
        if pattern in names:
            return {**values, pattern: term} if values.get(pattern, term) == term else None
        return values if pattern == term else None
    if isinstance(term, str) or pattern[0] != term[0] or len(pattern) != len(term):
        return None
    if pattern[0] == "λ":
        if len(pattern[1]) != len(term[1]):
            return None
        bound = {name: f"λ{place}" for place, name in enumerate(pattern[1])}
        other = {name: f"λ{place}" for place, name in enumerate(term[1])}
        return matches(put_in(pattern[2], bound), put_in(term[2], other), names, values)
    for one, two in zip(pattern[1:], term[1:]):
        values = matches(one, two, names, values)
        if values is None:
            return None
    return values


def conclusion(field):
    """The names that a statement is over, and each thing that it says of them."""
    pieces, depth, names = [[]], 0, set()
    for word in field.words:
        depth += {"(": 1, "{": 1, ")": -1, "}": -1}.get(word, 0)
        if word == "→" and depth == 0:
            pieces.append([])
        else:
            pieces[-1].append(word)
    for piece in pieces[:-1]:
        for group in re.findall(r"[({] ([^(){}:]*?) :", " ".join(piece)):
            names.update(group.split())
    return names, conjuncts(Terms(pieces[-1], field.scope, names).term())


def conjuncts(term):
    """The parts of a term that `×` joins."""
    found = [[]]
    for item in term[1:] if term[0] == "app" else [term]:
        if item == "×":
            found.append([])
        else:
            found[-1].append(item)
    return [applied(items) for items in found]
