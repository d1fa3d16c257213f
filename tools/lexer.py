"""The tokens of Rattle sources. A clause of a contract, with its name, a ghost field and a `ghost use` item are one token each."""

import re
from dataclasses import dataclass

TOKEN = re.compile(
    r"""(?P<space>\s+)
      | (?P<comment>//[^\n]*)
      | (?P<string>b?"(?:\\.|[^"\\])*" | b'(?:\\.|[^'\\])')
      | (?P<label>'[a-z_]\w*)
      | (?P<number>0x[0-9a-fA-F_]+\w* | 0b[01_]+\w* | [0-9][0-9_]*\w*)
      | (?P<name>[A-Za-z_]\w*)
      | (?P<mark><<= | >>= | \.\.= | :: | -> | => | == | != | <= | >= | << | >> | && | \|\| | \+= | -= | \*= | /= | %= | &= | \|= | \^= | \.\.
                 | [-+*/%&|^!<>=.,;:(){}\[\]\#?@])""",
    re.VERBOSE,
)

CLAUSES = {"requires", "ensures", "ghost"}


class Unread(Exception):
    """The source has a form that is not read here: it is refused, not passed over."""


@dataclass
class Token:
    kind: str
    text: str
    at: int


def tokens(text, file="?"):
    """The tokens of a source without spaces and comments. A clause of a contract, with its name, a ghost field and a `ghost use` are one token each."""
    found, at = [], 0
    while at < len(text):
        match = TOKEN.match(text, at)
        if not match:
            raise Unread(f"{file}:{line_of(text, at)}: {text[at]!r} is not read")
        kind, word = match.lastgroup, match.group()
        if kind == "name" and word in CLAUSES:
            end = clause_end(text, match.end(), word, file)
            found.append(Token(word, text[match.end():end].strip(), at))
            at = end
            continue
        if kind not in ("space", "comment"):
            found.append(Token(kind, word, at))
        at = match.end()
    return found


# what stands before the braces of a clause: its name, where it has one; and of a ghost field
HEAD = re.compile(r"\s+(?:[A-Za-z_]\w*\s*)?(?=\{)")
FIELD = re.compile(r"\s+[A-Za-z_]\w*:\s*(?=\{)")


def clause_end(text, at, word, file):
    """Where the braces of a clause or a ghost field close, or the `;` of a `ghost use` item stands."""
    if word == "ghost" and re.compile(r"\s+use\b").match(text, at):
        return text.index(";", at) + 1
    head = (FIELD if word == "ghost" else HEAD).match(text, at)
    if not head and word == "ghost":
        raise Unread(f"{file}:{line_of(text, at)}: a `ghost` item of another form than `ghost use` or a field is not read")
    if not head:
        raise Unread(f"{file}:{line_of(text, at)}: a clause of another form than `{word} NAME {{ .. }}` is not read")
    depth = 0
    for place in range(head.end(), len(text)):
        depth += {"{": 1, "}": -1}.get(text[place], 0)
        if depth == 0:
            return place + 1
    raise Unread(f"{file}:{line_of(text, at)}: a clause is not closed")


def line_of(text, at):
    return text.count("\n", 0, at) + 1


def split(words, mark):
    """Tokens split at a mark that stands outside all brackets; empty parts are left out."""
    parts, depth = [[]], 0
    for token in words:
        depth += {"(": 1, "[": 1, "{": 1, "<": 1, ")": -1, "]": -1, "}": -1, ">": -1}.get(token.text, 0)
        if token.text == mark and depth == 0:
            parts.append([])
        else:
            parts[-1].append(token)
    return [part for part in parts if part]
