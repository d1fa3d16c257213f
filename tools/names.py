"""How the prover names what it asks of a function: by the conditions on the way there, as `returns-then-code-gt31` of `if code > 31`. A wrong line
that changes a condition changes these names too. The proof of its function then has to follow, so that the fact decides and not the name."""

import re

SIGNS = {"<": "lt", "<=": "le", ">": "gt", ">=": "ge", "==": "eq", "!=": "ne"}
TURNED = {"<": ">", "<=": ">=", ">": "<", ">=": "<=", "==": "==", "!=": "!="}
WORD = r"-?[\w.:]+(?:\((?:[^()]|\([^()]*\))*\)|\[[^\[\]]*\])?"
SIDE = rf"{WORD}(?: [-+*/%] {WORD})*"
CONDITION = re.compile(rf"(?P<left>{SIDE}) (?P<sign>[<>=!]=|[<>]) (?P<right>{SIDE})|\bif (?P<not>!?)(?P<test>{WORD}) +\{{")
NUMBER = re.compile(r"-?[0-9]\w*")
CONSTANT = re.compile(r"(?:\w+::)*([A-Z][A-Z0-9_]*)")


def words(side):
    """The variables and the functions that a side names, without what is passed to a function of the repository."""
    side = re.sub(r"(?<![\w:.])([a-z_]\w*)\((?:[^()]|\([^()]*\))*\)", r"\1", side)
    return re.findall(r"(?<![\w.:])[a-z_][a-z0-9_]*(?!\w|::)", side)


def name_of(condition):
    """What the names have of a condition."""
    if condition["test"]:
        return ("not-" if condition["not"] else "") + re.match(r"(?:\w+::)*(\w+)", condition["test"])[1]
    left, sign, right = condition["left"], condition["sign"], condition["right"]
    if NUMBER.fullmatch(left) or CONSTANT.fullmatch(left):
        left, sign, right = right, TURNED[sign], left
    named = list(dict.fromkeys(words(left) + words(right)))[:2]
    if NUMBER.fullmatch(right):
        named.append(SIGNS[sign] + str(int(right, 0)).replace("-", "minus"))
    elif CONSTANT.fullmatch(right):
        named += [SIGNS[sign], CONSTANT.fullmatch(right)[1]]
    return "-".join(named)


def names_in(body):
    """What the names have of each condition of a function, in order; one that was there before is numbered."""
    found = []
    for condition in CONDITION.finditer(body):
        name = name_of(condition)
        number = sum(name == re.sub(r"-\d+$", "", other) for other in found) + 1
        found.append(name if number == 1 else f"{name}-{number}")
    return found


def follow(folder, bodies):
    """Has the proofs of changed functions, in a crate's copy, name everything as it is named with the changes: of each, the body before and after."""
    for place, (old, new) in bodies.items():
        renamed = {was: now for was, now in zip(names_in(old), names_in(new)) if was != now}
        for file in (folder / "proofs").joinpath(*place.split("::")).glob("*.antt") if renamed else ():
            name = rf"(?<=-)(?:{'|'.join(map(re.escape, sorted(renamed, key=len, reverse=True)))})(?![\w]|-\d)"
            file.write_text(re.sub(name, lambda match: renamed[match[0]], file.read_text(encoding="utf-8")), encoding="utf-8")
