"""Wrong programs: the edits of crates/NAME/must-fail, and the wrong lines of crates/NAME/wrong.edits, one for each function."""

import re
from dataclasses import dataclass, field
from pathlib import Path


class BadEdit(Exception):
    """An edit that cannot be read or made."""


@dataclass
class Edit:
    """What is wrong, where the prover refuses it, and the texts that change. `place` is a file, or of a wrong line a function."""
    place: str = ""
    program: str = ""
    wrong: str = ""
    fails: str = ""
    fact: str = ""
    changes: list = field(default_factory=list)


def fields(file):
    """The lines `KEY: TEXT` of a file of edits, also behind a `#`. The text of `old` and `new` keeps its leading spaces."""
    for number, line in enumerate(file.read_text(encoding="utf-8").splitlines(), 1):
        match = re.match(r"(?:# )?(program|wrong|fails|file|fn|old|new):(?: (.*))?$", line)
        if match:
            yield number, match.group(1), match.group(2) or ""


def read_edits(file):
    """The edits of a file. Each begins with its `wrong` line, or with the `program` line before it."""
    edits, old = [], None
    for number, key, text in fields(file):
        if key == "program" or key == "wrong" and not (edits and edits[-1].program and not edits[-1].wrong):
            edits.append(Edit())
        if not edits:
            raise BadEdit(f"{file}:{number}: no `# wrong:` line stands before this")
        edit = edits[-1]
        if key == "old":
            old = text
        elif key == "new":
            if not old:
                raise BadEdit(f"{file}:{number}: no `old:` line stands before this")
            edit.changes.append((edit.place, old, text))
            old = None
        elif key == "fails":
            edit.fails, _, edit.fact = text.partition(", ")
        elif key in ("file", "fn"):
            edit.place = text
        else:
            setattr(edit, key, text)
    for edit in edits:
        if not (edit.wrong and edit.fails and edit.fact and edit.changes):
            raise BadEdit(f"{file}: `{edit.wrong}` lacks its `# fails: FUNCTION, FACT` line or its `old:` and `new:` lines")
    return edits


def must_fail_edits(root, crate):
    """The edits that `rt ci` tries, each alone, by name."""
    found = {}
    for file in sorted((Path(root) / "crates" / crate / "must-fail").glob("*.edit")):
        edits = read_edits(file)
        if len(edits) != 1:
            raise BadEdit(f"{file}: has {len(edits)} `# wrong:` lines, and an edit has one")
        found[file.stem] = edits[0]
    return found


def wrong_lines(root, crate):
    """The wrong lines of a crate, one for a function, all tried in one check."""
    file = Path(root) / "crates" / crate / "wrong.edits"
    return read_edits(file) if file.exists() else []


def change_once(text, old, new, where):
    """The text with `old`, which stands in it once, replaced."""
    if text.count(old) != 1:
        raise BadEdit(f"{where}: `{old.strip()}` stands there {text.count(old)} times, and not once")
    return text.replace(old, new)


def changed_bodies(crate, edits):
    """The bodies of a crate's functions with the wrong lines made, each in the function that it names, which must have the old text once."""
    functions = {function.path: function for function in crate.functions}
    bodies = {}
    for place, old, new in (change for edit in edits for change in edit.changes):
        if place not in functions:
            raise BadEdit(f"{crate.name}: there is no function {place} to have a wrong line")
        function = functions[place]
        body = bodies.get(place) or function.file.read_text(encoding="utf-8")[slice(*function.body)]
        bodies[place] = change_once(body, old, new, f"{crate.name}::{place}")
    return [(functions[place], body) for place, body in bodies.items()]


def make_wrong_lines(folder, crate, edits):
    """Makes the wrong lines in a crate's copy, from the end of each file to its start, so that places stay as they are."""
    for function, body in sorted(changed_bodies(crate, edits), key=lambda pair: pair[0].body, reverse=True):
        copy = folder / function.file.relative_to(crate.folder)
        text = copy.read_text(encoding="utf-8")
        start, end = function.body
        copy.write_text(text[:start] + body + text[end:], encoding="utf-8")


def changed_files(folder, edit):
    """The files of a crate with an edit of must-fail/ made, as `rt` makes it."""
    files = {}
    for place, old, new in edit.changes:
        if not (folder / place).is_file():
            raise BadEdit(f"{folder.name}: there is no file {place}")
        text = files.get(place) or (folder / place).read_text(encoding="utf-8")
        files[place] = change_once(text, old, new, f"{folder.name}/{place}")
    return files


# ---- what the prover said

ERROR = re.compile(r"^(?P<file>\.?/?\S+?):\d+:\d+: error: (?:`(?P<name>[^`]+)`: )?(?P<message>.*)$")

# a function that has no proof file, and needs none while its facts hold
UNFOUND = re.compile(r"^fn \w+::(?P<path>\S+): no proof: .*; (?P<message>`search` did not prove `(?P<name>[^`]+)`)")

# a fact that the proof files leave to `search`, which did not prove it; the line of its function follows
OPEN = re.compile(r"^note: src/\S+?:\d+:\d+: (?P<message>it is not proved that .*\(`(?P<name>[^`]+)`\))")

# what became of a function
VERDICT = re.compile(r"^(?:fn|enum|struct) \w+::(?P<path>\S+): (?P<verdict>.*)$")

# a declaration rests on another one that failed, so that this says nothing of itself
RESTS = "was not admitted"

# the proof names what the changed code no longer has: a matter of form
FORM = re.compile(r"has no field|that can be named from here")

# an answer to what is not asked of the changed code, as that a product which it no longer has stays in range: what else fails decides
UNASKED = re.compile(r"`goal\.(?P<name>[^`]+)`: module `[^`]+\.Goals` has no `(?P=name)`")

# a fact that is not proved: an equation of other sides, or one that was looked for and not found
FACT = re.compile(r"two (?:types|sides|values)|expected type `(?:Path |.*(?:Core\.Path| ≡ |◌≡◌ |Claims\.AllOf| ≤ | < |◌≤◌|◌<◌))|does not hold|missing equation"
                  r"|`(?:simp|rw|search|omega)\b|it is not proved that|expected type `(\S+) [^`]*`, but this has type `\1 ")

# what is left to `search` of such a function is not tried before the functions that it calls are proved
WAITS = re.compile(r"^fn \w+::(?P<path>\S+): no.*(?:which is not proved|which are not proved)")


@dataclass
class Failure:
    name: str
    message: str


def failures(log):
    """The errors of a log that do not rest on others, by the function whose proof they stand in; of a law, by its name."""
    found, left_open = {}, []
    for line in log.splitlines():
        is_open, verdict = OPEN.match(line), VERDICT.match(line)
        if is_open:
            left_open.append(Failure(is_open["name"], is_open["message"]))
        elif verdict and left_open:
            found.setdefault(verdict["path"], []).extend(left_open)
            left_open = []
        match = ERROR.match(line) or UNFOUND.match(line)
        if not match or RESTS in match["message"]:
            continue
        parts = match.groupdict()
        place = parts.get("path") or proof_of(parts["file"]) or parts["name"] or "?"
        found.setdefault(place, []).append(Failure(parts["name"] or "?", parts["message"]))
    return found


def proof_of(file):
    """The function whose proof a file is of: proofs/MODULE/NAME/Answers.antt, or its invariants, or a whole proof."""
    parts = Path(file).parts
    if parts[-1] not in ("Answers.antt", "Invariants.antt", "Proof.antt") or "proofs" not in parts:
        return None
    last = len(parts) - 1 - parts[::-1].index("proofs")
    return "::".join(parts[last + 1:-1])


def waiting(log):
    """The functions of which not all was tried, as they call others that are not proved."""
    return {match["path"] for match in map(WAITS.match, log.splitlines()) if match}


def judge(edit, log):
    """Nothing where the function that the edit names fails for facts of its own alone; else what is amiss."""
    found = failures(log).get(edit.fails)
    if not found:
        return f"{edit.fails} does not fail for a fact of its own"
    for failure in [failure for failure in found if not UNASKED.match(failure.message)] or found:
        if FORM.search(failure.message) or not FACT.search(failure.message):
            return f"{edit.fails} fails in `{failure.name}`, and not for a fact: {failure.message[:200]}"
    return None


def judge_alone(edit, log):
    """The same of an edit that was tried alone, whose first error must be that function's."""
    first = next(iter(failures(log)), None)
    return judge(edit, log) or (None if first == edit.fails else f"{first} fails first, and not {edit.fails}")
