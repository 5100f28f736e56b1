"""JSON with places: reads a file's text, and finds where the value of a path is in it."""
import json
import re
from collections import Counter

from cedar.places import Place

SPACE = re.compile(r"[ \t\n\r]*")
LONG = 1 << 63
DEEPEST = 1000
SURROGATE = re.compile("[\ud800-\udfff]")


class Object(dict):
    """An object with members that are in it more than once: their names."""

    repeated = ()


CONTAINERS = frozenset((dict, list, Object))


class Number:
    """A number that is no whole number of 64 bits."""

    def __init__(self, text):
        self.text = text


def whole(text):
    if text == "-0" or len(text) > 20 or not -LONG <= int(text) < LONG:
        return Number(text)
    return int(text)


def members(pairs):
    made = dict(pairs)
    if len(made) == len(pairs):
        return made
    times = Counter(name for name, _ in pairs)
    made = Object(pairs)
    made.repeated = sorted(name for name in times if times[name] > 1)
    return made


def levels(value):
    """The objects and lists of a value, level by level."""
    left = [value] if type(value) in CONTAINERS else []
    while left:
        yield left
        parts = [x if type(x) is list else x.values() for x in left]
        left = [y for part in parts for y in part if type(y) in CONTAINERS]


def load(source, report):
    """The value of a JSON text, or None where it is none (then that is refused)."""
    top = Place(source)
    try:
        value = json.loads(
            source.text, object_pairs_hook=members, parse_int=whole, parse_float=Number, parse_constant=Number
        )
    except json.JSONDecodeError as fault:
        return report.no(Place(source, fault.pos), f"no JSON: {fault.msg}")
    except RecursionError:
        return report.no(top, f"JSON that nests deeper than {DEEPEST}")
    if value is None:
        return report.no(top, "`null`, where a value is expected")
    return value if sound(value, source) or tested(value, top, report) else None


def sound(value, source):
    """Whether `tested` has nothing to say, found out without places; halves of characters are only
    where there are escapes."""
    if "\\u" in source.text:
        return False
    source.depth = 0
    for level in levels(value):
        source.depth += 1
        if source.depth > DEEPEST or Object in set(map(type, level)):
            return False
    return True


def tested(value, top, report):
    """Tests what Python's reading of JSON lets through: repeated members, halves of characters, any
    depth."""
    left, good = [(value, top, 1)], True

    def no(place, why):
        nonlocal good
        good = False
        report.no(place, why)

    while left:
        x, place, depth = left.pop()
        if isinstance(x, str) and SURROGATE.search(x):
            no(place, "a text with half of a surrogate pair")
        elif isinstance(x, dict):
            for name in getattr(x, "repeated", ()):
                no(place[name], "a member that is there twice")
            for name in x:
                if SURROGATE.search(name):
                    no(place, "a member's name with half of a surrogate pair")
        if isinstance(x, (dict, list)):
            if depth > DEEPEST:
                no(place, f"JSON that nests deeper than {DEEPEST}")
                continue
            steps = x.items() if isinstance(x, dict) else enumerate(x)
            left += [(y, place[step], depth + 1) for step, y in steps if isinstance(y, (str, dict, list))]
    return good


class Finder:
    """Finds where the parts of a text are. What was once looked through is known."""

    def __init__(self):
        self.known = {}  # the steps out of an object or a list, by its offset

    def __call__(self, text, path):
        """The offset of the value at the end of a path, as far as the path goes; a name that is there twice counts
        where it is last."""
        at = SPACE.match(text, 0).end()
        for step in path:
            if at not in self.known:
                self.known[at] = dict(parts(text, at))
            found = self.known[at].get(step)
            if found is None:
                return at
            at = found
        return at


def end_of(text, start):
    """Where the value ends that begins at an offset; a character behind it where it is none."""
    try:
        return DECODER.raw_decode(text, start)[1]
    except (ValueError, RecursionError):
        return min(start + 1, len(text))


DECODER = json.JSONDecoder(parse_int=str, parse_float=str, parse_constant=str)


def parts(text, at):
    """The steps out of the object or list that begins at an offset, each with the offset of its value;
    nothing where there is no such."""
    opened = text[at : at + 1]
    if opened not in ("{", "["):
        return
    index = 0
    at = SPACE.match(text, at + 1).end()
    while text[at : at + 1] not in ("}", "]", ""):
        name = index
        try:
            if opened == "{":
                name, at = DECODER.raw_decode(text, at)
                at = SPACE.match(text, SPACE.match(text, at).end() + 1).end()
            yield name, at
            at = SPACE.match(text, DECODER.raw_decode(text, at)[1]).end()
        except (ValueError, RecursionError):
            return
        index += 1
        if text[at : at + 1] == ",":
            at = SPACE.match(text, at + 1).end()
