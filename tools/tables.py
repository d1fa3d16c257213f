"""The tables of docs/CONTRACTS.md, written from the code, the wrong lines and the edits of must-fail/. Text around them is written by hand."""

import re
from pathlib import Path

from crates import EXPORTS, public_functions
from edits import must_fail_edits, wrong_lines
from source import brought

PAGE = Path("docs/CONTRACTS.md")

# a table stands between these two lines
BEGIN = "<!-- table: {} -->"
END = "<!-- end of table -->"


# ---- what a contract says

def conjuncts(text):
    """The facts of a clause, taken apart at `×`."""
    found, depth, start = [], 0, 0
    for place, mark in enumerate(text):
        depth += {"(": 1, ")": -1}.get(mark, 0)
        if mark == "×" and depth == 0:
            found.append(text[start:place])
            start = place + 1
    return [bare(part) for part in found + [text[start:]]]


def bare(text):
    """A text without the brackets around the whole of it."""
    text = text.strip()
    if not text.startswith("("):
        return text
    depth = 0
    for place, mark in enumerate(text):
        depth += {"(": 1, ")": -1}.get(mark, 0)
        if depth == 0:
            return text[1:-1] if place == len(text) - 1 else text
    return text


# what a reference refers to as a call begins, and what it refers to at the return
ENTRY, EXIT = r"\.(?:now|old|entry\.now)\b", r"\.(?:new|exit\.now)"


def plain(text, function):
    """A term with each parameter under its own name: what a reference refers to as the call begins is that reference."""
    names = "|".join(re.escape(name) for name, _ in function.parameters) or "-"
    return re.sub(rf"(?<![\w.])({names}){ENTRY}", r"\1", re.sub(r"[«»]", "", text))


def equations(function):
    """The answer's definition, and each lent place's."""
    answer, places = "", []
    for clause in function.ensures:
        for fact in conjuncts(clause.fact):
            side, sign, definition = fact.partition(" ≡ ")
            lent = re.fullmatch(rf"«?(\w+)»?{EXIT}", side)
            if sign and side == "result":
                answer = plain(definition, function)
            elif sign and bare(side) == "result == 0":
                answer = plain(fact, function)
            elif sign and lent:
                places.append((lent.group(1), plain(definition, function)))
    return answer, places


# a name in a term that is no field
NAME = re.compile(r"(?<![\w.*'])[\w*']+")


def homes(file, crate):
    """The names of specs that a source brings: what each is called there, and where, `specs/..` of its own crate or with a crate's name before it."""
    return {own: (name, f"specs/{inner}" if home == crate else f"{home}/specs/{inner}") for own, (home, inner, name) in brought(file).items()}


def definition_cell(function):
    """The definition that the answer is, where it stands, and by which one each lent place is left."""
    names = homes(function.file, function.crate)
    answer, places = equations(function)
    words = NAME.findall(answer or " ".join(text for _, text in places))
    stands = dict.fromkeys(names[word][1] for word in words if word in names)
    own = [place for place in stands if place.startswith("specs/")] or list(stands)
    called = lambda text: NAME.sub(lambda word: names.get(word.group(), [word.group()])[0], text)
    cell = [f"`{called(answer)}`"] if answer else []
    for definition in dict.fromkeys(text.split()[0] for _, text in places):
        cell.append(", ".join(f"`{name}`" for name, text in places if text.split()[0] == definition) + f" by `{called(definition)}`")
    return "; ".join(cell) + (f" ({', '.join(own)})" if own else "")


# ---- the tables

def table(heads, rows):
    return [row_of(heads), "|" + "---|" * len(heads), *(row_of(row) for row in rows)]


def row_of(cells):
    return "| " + " | ".join(cell.replace("|", "\\|") for cell in cells) + " |"


def words(text):
    """Plain text, in which a star marks nothing."""
    return text.replace("*", "\\*")


def function_table(root, crate, crates):
    """Every public function, then the others that a wrong line is tried of."""
    edits = {edit.place: edit for edit in wrong_lines(root, crate.name)}
    public = public_functions(crate, crates)[0]
    others = [function for function in crate.functions if function not in public and function.path in edits]
    rows = []
    for function in public + others:
        edit = edits.get(function.path)
        name = f"`{function.path}`" + ("" if function in public else ", private")
        rows.append([name, definition_cell(function), words(edit.wrong) if edit else "", words(edit.fact) if edit else ""])
    return table(["function", "definition", "a wrong line", "what then fails"], rows)


def program_table(root, crates):
    """Every wrong program: the wrong lines that are one, and the edits that are tried alone."""
    rows = []
    for name in crates:
        lines = [(f"`{name}`, a wrong line", edit) for edit in wrong_lines(root, name) if edit.program]
        alone = [(f"`{name}/{label}`", edit) for label, edit in must_fail_edits(root, name).items()]
        rows += [[edit.program, where, words(edit.wrong), f"`{edit.fails}`: {words(edit.fact)}"] for where, edit in lines + alone]
    return table(["wrong program", "edit", "what is changed", "what fails"], rows)


def wanted(root, crates):
    """The tables by name."""
    found = {"wrong programs": program_table(root, crates)}
    for name, crate in crates.items():
        if name != EXPORTS and public_functions(crate, crates)[0]:
            found[name] = function_table(root, crate, crates)
    return found


def with_place(text, name, names):
    """The page with a heading and a place for a crate's table, behind the section of the crate before it that has one."""
    earlier = [other for other in names[: names.index(name)] if BEGIN.format(other) in text]
    section = text.index(BEGIN.format(earlier[-1])) if earlier else 0
    at = text.index("\n## ", section) + 1
    return f"{text[:at]}## {name}\n\n{BEGIN.format(name)}\n{END}\n\n{text[at:]}"


def problems(root, crates, write):
    """What on the page is not current. With `write` the tables are written anew, and a crate that has none gets a heading and its table."""
    page = root / PAGE
    text = page.read_text(encoding="utf-8")
    found = []
    for name, lines in wanted(root, crates).items():
        begin = BEGIN.format(name)
        if write and name in crates and begin not in text:
            text = with_place(text, name, list(crates))
        if text.count(begin) != 1:
            found.append(f"{PAGE}: the table of {name} has no place, or more than one: .ci/contracts --write")
            continue
        start = text.index(begin) + len(begin)
        end = text.index(END, start)
        new = "\n" + "\n".join(lines) + "\n"
        if text[start:end] != new and not write:
            found.append(f"{PAGE}: the table of {name} is not current: .ci/contracts --write")
        text = text[:start] + new + text[end:]
    for name in re.findall(r"<!-- table: (.*) -->", text):
        if name not in wanted(root, crates):
            found.append(f"{PAGE}: there is no {name} to have a table")
    if write:
        page.write_text(text, encoding="utf-8")
    return found
