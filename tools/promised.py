"""What the promises say of each public function: its field among the calls, its order of refusals, and what a refusal leaves alone."""

import re
from dataclasses import dataclass
from pathlib import Path

import antt

# everything promised stands in these records, which the promises' proofs have as theorems
ROOTS = ("Demands", "Library")

# what a lent place holds, a field of the reference
NOW = ".now"

# what the names of a function's generated modules end with: what a caller must show, what it learns, and the triple of total correctness
ASKED, LEARNT, STATEMENT = ".Reads.Asked", ".Reads.Learnt", ".Statement.statement"

# a call of the library says this of what it says
NUMBER_OF = "number_of"

# the error of a call that refuses
REFUSAL = re.compile(r"\bRefusal\b")

# what is promised of lists is said over a value of these types: where the values stand, by which definition, and what says a record of each of them
LISTS = {
    "ListLayout": ("crates/promises/specs/RecordLayouts.antt", "list_of", "EachList"),
    "LibraryList": ("crates/rtcm2_promises/specs/LibraryLists.antt", "library_list_of", "EachLibraryList"),
}
# the answers to a layout's calls are definitions of this file at the layout
ANSWERS = "Rattle.record_stages.specs.Lists."


def own_name(file, name):
    """A name of a file of specs as other crates know it."""
    return f"Rattle.{file.parts[-3]}.specs.{file.stem}.{name}"


def read_clauses(file, name):
    """What a definition by clauses over constants answers, clause by clause."""
    text = file.read_text(encoding="utf-8")
    scope = antt.scope_of(text)
    return [scope.get(value, own_name(file, value)) for value in re.findall(rf"^{name} \S+ = (\S+)$", text, re.MULTILINE)]


def read_instances(file, module):
    """The definitions of a file that are a definition of the module at a name: `count_healths = counted health_layout`."""
    text = file.read_text(encoding="utf-8")
    scope = antt.scope_of(text)
    return {own_name(file, name): ("app", scope[general], scope.get(value, own_name(file, value)))
            for name, general, value in re.findall(r"^(\S+) = (\S+) (\S+)$", text, re.MULTILINE) if scope.get(general, "").startswith(module)}


@dataclass
class Call:
    """What a field says of a function: its answer, and of each lent place what it holds at exit. Arguments are named by their place."""
    field: antt.Field
    answer: tuple
    held: list
    left: list


class Promises:
    def __init__(self, root):
        self.root = Path(root)
        self.calls, self.orders, self.keeps = {}, [], []
        self.lists = {kind: read_clauses(self.root / file, name) for kind, (file, name, _) in LISTS.items()}
        self.instances = {}
        for file in sorted(self.root.glob("crates/*/specs/*.antt")):
            self.instances.update(read_instances(file, ANSWERS))
        for field in self.promised():
            head = field.words[0]
            if head in ("Answered", "AnsweredLent"):
                self.add_call(field)
            elif "Ordered" in field.words or "Keeps" in field.words:
                self.add_law(field)

    def promised(self):
        """The fields of every record that a root has, directly or through others, where a proof has the root."""
        fields, proofs = [], ""
        for crate in sorted((self.root / "crates").glob("*promises")):
            fields += [field for file in sorted((crate / "specs").rglob("*.antt")) for field in antt.read_fields(file)]
            proofs += "\n".join(file.read_text(encoding="utf-8") for file in sorted((crate / "proofs").rglob("*.antt")))
        proved = [root for root in ROOTS if re.search(rf"^pub \S+ : {root}$", proofs, re.MULTILINE)]
        self.unproved = sorted(set(ROOTS) - set(proved))
        over = {field.record: LISTS[field.over[1]][2] for field in fields if field.over[1] in LISTS}
        reached, left = set(), proved
        while left:
            reached.add(left.pop())
            left += {word for field in fields if field.record in reached for word in said_in(field.words, over)} - reached - set(left)
        return [field for field in fields if field.record in reached]

    def add_call(self, field):
        term = antt.Terms(field.words, field.scope).term()
        asked, learnt, statement = term[2:5]
        function = asked.removesuffix(ASKED)
        if (asked, learnt, statement) != (function + ASKED, function + LEARNT, function + STATEMENT):
            return
        bodies = [antt.by_place(part) for part in term[5:]]
        held, left = (antt.parts(bodies[1]), antt.parts(bodies[2])) if len(bodies) == 3 else ([], [])
        self.calls[function] = Call(field, antt.unfolded(without_number(bodies[0]), self.instances), held, left)

    def add_law(self, field):
        names, laws = antt.conclusion(field)
        name, kind = field.over
        if kind in LISTS:
            laws = [antt.put_in(law, {name: value}) for value in self.lists[kind] for law in laws]
        for law in laws:
            law = antt.unfolded(law, self.instances)
            head = law[1].split(".")[-1]
            if head == "Ordered":
                self.orders.append((names, law[4]))
            elif head == "Keeps":
                self.keeps.append((names, *law[2:5]))

    def call_of(self, function):
        return self.calls.get(f"Rattle.{function.crate}.proofs." + ".".join(function.path.split("::")))

    def has_order(self, call):
        """A law of the order of refusals is about this call's answer."""
        return any(antt.matches(part, call.answer, names, {}) is not None
                   for names, said in self.orders for part in antt.below(said) if part not in names)

    def is_kept(self, call, left, was):
        """A law says of this call that what it leaves where it refuses is what was there."""
        return any(self.says_kept(law, call, left, was) for law in self.keeps)

    def says_kept(self, law, call, left, was):
        names, said, leaves, before = law
        for part in antt.below(said):
            values = antt.matches(part, call.answer, names, {})
            if values is None or part in names and part != said:
                continue
            for one, other in zip(antt.parts(leaves), antt.parts(before)):
                found = antt.matches(one, left, names, values)
                if found is not None and one not in names and antt.matches(other, was, names, found) is not None:
                    return True
        return False


def said_in(words, over):
    """The words of a field, but records over a list only where the field says them of each."""
    return {word for before, word in zip(["", *words], words) if word not in over or before == over[word]}


def without_number(answer):
    """What a call of the library says, of which its answer is the number."""
    return answer[2] if answer[0] == "app" and answer[1].endswith("." + NUMBER_OF) else answer


class Answers:
    """Which functions can refuse: by the types of their answers, and of the library by the number that they answer."""

    def __init__(self, root, crates):
        self.crates = crates
        self.said = set()
        for file in Path(root).glob("crates/*/specs/*.antt"):
            for name in re.findall(r"^(?:abbrev |unfoldable )?pub says\w+ : (\w+) →.* Says ", file.read_text(encoding="utf-8"), re.MULTILINE):
                self.said.add((file.parts[-3], name))

    def type_of(self, crate, name):
        """The type that a name means in a crate: its own, or one that it imports."""
        if name in self.crates[crate].types:
            return self.crates[crate].types[name]
        for imports in self.crates[crate].imports.values():
            path = imports.get(name)
            if path and path[0] in self.crates and path[-1] in self.crates[path[0]].types:
                return self.crates[path[0]].types[path[-1]]
        return None

    def refuses(self, type):
        """A value of the type can be a refusal."""
        return type is not None and (
            (type.crate, type.name) in self.said or "Refused" in type.variants
            or any(REFUSAL.search(inner) or self.refuses(self.type_of(type.crate, inner)) for _, inner in type.fields))

    def untold(self):
        """Public enums with a refusal that no definition says in the table's terms, by themselves or in a struct."""
        told = self.said | {(type.crate, inner) for crate in self.crates.values() for type in crate.types.values()
                            if (type.crate, type.name) in self.said for _, inner in type.fields}
        return [type for crate in self.crates.values() for type in crate.types.values()
                if type.public and "Refused" in type.variants and (type.crate, type.name) not in told]

    def can_refuse(self, function):
        return bool(REFUSAL.search(function.answer)) or self.refuses(self.type_of(function.crate, function.answer)) or any(re.search(rf"\b{NUMBER_OF}\b", clause.fact) for clause in function.ensures)

    def handed_back(self, function):
        """The states that are passed and returned, by their place among the parameters and the field of the answer: of one type, the first in the first."""
        answer = self.type_of(function.crate, function.answer)
        fields = answer.fields if answer else []
        given = {type: [place for place, (_, other) in enumerate(function.parameters) if other == type] for _, type in function.parameters}
        return [(place, name) for type, places in given.items() if self.type_of(function.crate, type)
                for place, name in zip(places, [name for name, inner in fields if inner == type])]
