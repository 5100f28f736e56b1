"""JSON with places: the value of a text, and where in the text each part of it is. Read as the
program reads it."""
import re
from json.decoder import scanstring

BLANK = re.compile(r"[ \t\n\r]*")
NUMBER = re.compile(r"-?(?:0|[1-9][0-9]*)(\.[0-9]+)?([eE][-+]?[0-9]+)?")
WORDS = {"true": True, "false": False, "null": None}
WORD = re.compile("|".join(WORDS))
HALF = re.compile("[\ud800-\udfff]")
DEEPEST = 127


class NoJson(Exception):
    """The offset in the text at which it is no JSON, and what is wrong there."""


class Place:
    """Where a value begins; for a list the places of its items, for an object those of its members and
    of their names."""

    __slots__ = ("at", "inner", "names")

    def __init__(self, at, inner=None, names=None):
        self.at, self.inner, self.names = at, inner, names

    def find(self, path, name=False):
        """The offset of the part at a path; with `name` that of the member's name. Of a part that is
        not there, that of the nearest around it."""
        place = self
        for i, step in enumerate(path):
            inner = place.inner
            if inner is None or (step not in inner if isinstance(inner, dict) else step >= len(inner)):
                return place.at
            if name and i == len(path) - 1 and place.names:
                return place.names[step]
            place = inner[step]
        return place.at


def read(text):
    """The value of a JSON text, and its place."""
    value, place, at = part(text, skip(text, 0), 0)
    at = skip(text, at)
    if at < len(text):
        raise NoJson(at, "the document has ended, and more follows it" + slip(text, at))
    return value, place


def skip(text, at):
    return BLANK.match(text, at).end()


def part(text, at, depth):
    """The value at an offset, its place, and the offset behind it."""
    first = text[at : at + 1]
    if first == '"':
        value, end = string(text, at)
        return value, Place(at), end
    if first in ("{", "["):
        if depth == DEEPEST:
            raise NoJson(
                at,
                f"this is nested deeper than {DEEPEST} "
                "(a binary operator takes two levels; `all`, `any`, `get` and `if` are flat)",
            )
        return (members if first == "{" else items)(text, at, depth + 1)
    word = WORD.match(text, at)
    if word:
        return WORDS[word[0]], Place(at), word.end()
    return number(text, at)


def string(text, at):
    try:
        value, end = scanstring(text, at + 1, True)
    except ValueError as fault:
        kind, where = str(fault.args[0]), getattr(fault, "pos", at)
        if kind.startswith("Unterminated"):
            raise NoJson(at, "this text has no closing double quote") from None
        if kind.startswith("Invalid control"):
            raise NoJson(
                where, "a text has a line end or another control character; write it as \\n, \\t or \\u00XX"
            ) from None
        raise NoJson(where, 'this is no escape of JSON: \\" \\\\ \\/ \\b \\f \\n \\r \\t \\uXXXX are') from None
    if HALF.search(value):
        raise NoJson(at, "a text holds half of a surrogate pair, which is no character")
    return value, end


def number(text, at):
    found = NUMBER.match(text, at)
    if not found:
        raise NoJson(at, "expected a value" + slip(text, at))
    digits = found[0]
    if text[found.end() : found.end() + 1] in tuple(".eE+-0123456789_"):
        raise NoJson(at, "this is no number of JSON")
    if found[1] or found[2] or digits == "-0" or len(digits) > 20:  # no whole number of 64 bits
        value = float(digits)
        if value in (float("inf"), float("-inf")):
            raise NoJson(at, "this number is too large")
    else:
        value = int(digits)
    return value, Place(at), found.end()


def items(text, at, depth):
    made, inner, start = [], [], at
    at = skip(text, at + 1)
    if text[at : at + 1] == "]":
        return made, Place(start, inner), at + 1
    while True:
        value, place, at = part(text, at, depth)
        made.append(value)
        inner.append(place)
        at = follows(text, at, "]")
        if text[at] == "]":
            return made, Place(start, inner), at + 1
        at = skip(text, at + 1)


def members(text, at, depth):
    made, inner, names, start = {}, {}, {}, at
    at = skip(text, at + 1)
    if text[at : at + 1] == "}":
        return made, Place(start, inner, names), at + 1
    while True:
        if text[at : at + 1] != '"':
            raise NoJson(at, "expected the name of a member in double quotes" + slip(text, at))
        name, end = string(text, at)
        colon = skip(text, end)
        if text[colon : colon + 1] != ":":
            raise NoJson(colon, f'expected `:` behind the name "{name}"' + slip(text, colon))
        value, place, end = part(text, skip(text, colon + 1), depth)
        made[name], inner[name], names[name] = value, place, at
        at = follows(text, end, "}")
        if text[at] == "}":
            return made, Place(start, inner, names), at + 1
        at = skip(text, at + 1)


def follows(text, at, close):
    """The offset of the comma, or of the bracket that closes, behind a value."""
    at = skip(text, at)
    if text[at : at + 1] not in (",", close):
        begins = re.match(r'["{\[\w-]', text[at : at + 1])
        raise NoJson(at, f"expected `,` or `{close}`" + (" (a comma too few?)" if begins else slip(text, at)))
    return at


def slip(text, at):
    """In brackets, what it may be that is here in place of JSON."""
    rest = text[at : at + 40]
    if not rest:
        return ", and the text ends"
    if rest[0] in "}]":
        return " (a comma too many?)"
    for pattern, said in (
        (r"//|/\*|#", "JSON has no comments"),
        ("\ufeff", "a byte order mark: the document has to be saved without"),
        (r"'", "texts are written in double quotes"),
        (r"True\b|False\b", "it is true, false, in small letters"),
        (r"None\b|nil\b|undefined\b", "it is null"),
        (r"NaN|[-+]?Infinity|\+|\.[0-9]|[0-9]", "JSON has no such number"),
        (r"(permit|forbid)\s*\(|@\w+\s*\(", "this is Cedar's text; scripts/from-cedar makes a document of it"),
        (
            r"(namespace|entity|action|type)\s",
            "this is a schema in Cedar's text; scripts/from-cedar makes a document of it",
        ),
        (r"---|[\w-]+:\s", "this looks like YAML, not JSON"),
    ):
        if re.match(pattern, rest):
            return f" ({said})"
    return ""
