"""Reads entities in which nothing is refused, in less time than `entities`.

Where it meets anything else it gives nothing and reports nothing: `entities` then reads the same text. Members are
counted, in the text and where they are read, so that none is lost that is there twice."""
import json
import re
from functools import cached_property

from cedar.extensions import FUNCTIONS, stands_for_value
from cedar.json_text import LONG
from cedar.objects import is_name
from cedar.places import Place

ROOM = 40  # so deep may the value of an attribute nest here
DEPTH = ROOM + 6  # and a text, with what is around a value and inside of an entity's id or a call
MOST_SHAPES = 1000  # of the objects of one type
TEXTS = frozenset((str,))
MINUS_ZERO = re.compile(r"-0(?=[\s,\]}])")  # a number that is refused, and 0 for Python
SURROGATE_ESCAPE = re.compile(r"\\u[dD][89a-fA-F]")


ESCAPES = frozenset(("__entity", "__extn", "__expr"))


class Unusual(Exception):
    """What is left to `entities`."""


def unusual(_):
    raise Unusual


def once(pairs):
    """An object in which no member is there twice."""
    made = dict(pairs)
    if len(made) != len(pairs):
        raise Unusual
    return made


QUICK = json.JSONDecoder(parse_float=unusual, parse_constant=unusual)
CAREFUL = json.JSONDecoder(object_pairs_hook=once, parse_float=unusual, parse_constant=unusual)
BEFORE_COLON = (" :", "\t:", "\n:", "\r:")


class Expected:
    """The type that a value should have, as far as it says how the value is read."""

    def __init__(self, t):
        self.function = FUNCTIONS.get(t) if isinstance(t, str) else None
        self.parts = t if isinstance(t, dict) else {}
        self.is_entity = "entity" in self.parts

    @cached_property
    def element(self):
        return Expected(self.parts.get("set"))

    @cached_property
    def members(self):
        return Members(self.parts.get("record", {}).get)


class Members(dict):
    """What is expected under each name, looked up once in a function of the name. `shapes` has, by the names and kinds
    of the values of an object, the names of its whole numbers, and for the values that are read further their names,
    how they are read and what is expected."""

    def __init__(self, type_of):
        super().__init__()
        self.type_of = type_of
        self.shapes = {}

    def __missing__(self, name):
        t = self.type_of(name)
        found = self[name] = Expected(t["optional"] if isinstance(t, dict) and "optional" in t else t)
        return found


class Reader:
    """Reads the entities of one text."""

    def __init__(self, schema):
        self.schema = schema
        self.kinds = {}  # what is expected of attributes and of tags, by entity type
        self.members = 0  # of all objects that were read

    def learn(self, kind):
        if not is_name(kind):
            raise Unusual
        tags = self.schema.tags.get(kind)
        self.kinds[kind] = Members(self.schema.attributes.get(kind, {}).get), Members(lambda _: tags)

    def uid(self, u):
        """An entity's id: `type` and `id`, perhaps below `__entity`."""
        if len(u) == 1:
            u = u["__entity"]
            self.members += 1
        kind, eid = u["type"], u["id"]
        if len(u) != 2 or type(eid) is not str:
            raise Unusual
        self.members += 2
        if kind not in self.kinds:
            self.learn(kind)
        return [kind, eid]

    def entity(self, e):
        uid, attrs, parents = self.uid(e["uid"]), e["attrs"], e["parents"]
        if len(e) != (4 if "tags" in e else 3) or type(parents) is not list:
            raise Unusual
        self.members += len(e)
        made = {"id": uid}
        attributes, tags = self.kinds[uid[0]]
        found = self.values(attrs, attributes, ROOM)
        if found:
            made["attrs"] = found
        if "tags" in e:
            found = self.values(e["tags"], tags, ROOM)
            if found:
                made["tags"] = found
        if parents:
            made["parents"] = list(map(self.uid, parents))
        return made

    def values(self, made, expected, room):
        """The values of an object under their names, in its own place."""
        if type(made) is not dict:
            raise Unusual
        self.members += len(made)
        key = (*made, *map(type, made.values()))
        numbers, others = expected.shapes.get(key) or self.shape(made, expected, key)
        for name in numbers:
            if not -LONG <= made[name] < LONG:
                raise Unusual
        for name, read, inner in others:
            made[name] = read(made[name], inner, room)
        return made

    def shape(self, given, expected, key):
        numbers = [name for name, v in given.items() if type(v) is int]
        ways = [(name, self.way(v, expected[name]), expected[name]) for name, v in given.items()]
        found = numbers, [way for way in ways if way[1]]
        if len(expected.shapes) < MOST_SHAPES:
            expected.shapes[key] = found
        return found

    def way(self, v, expected):
        """How a value is read, or None where it is taken as it is, or a whole number."""
        kind = type(v)
        if kind is int or kind is bool or kind is str and not expected.function:
            return None
        if kind is dict:
            return self.reference if expected.is_entity else self.object
        if kind is list:
            return self.set
        if kind is str:
            return self.text
        raise Unusual

    def value(self, v, expected, room):
        kind = type(v)
        if kind is int and not -LONG <= v < LONG:
            raise Unusual
        read = self.way(v, expected)
        return read(v, expected, room) if read else v

    def reference(self, v, _, room):
        return {"id": self.uid(v)}

    def set(self, v, expected, room):
        element = expected.element
        if not element.function and TEXTS.issuperset(map(type, v)):
            return v
        if not room:
            raise Unusual
        return [self.value(x, element, room - 1) for x in v]

    def object(self, v, expected, room):
        if not room:
            raise Unusual
        if len(v) == 1 and "__entity" in v:
            return {"id": self.uid(v)}
        if len(v) == 1 and "__extn" in v:
            self.members += 1
            return self.call(v["__extn"])
        if expected.function:
            return self.call(v)
        found = self.values(v, expected.members, room - 1)
        if not ESCAPES.isdisjoint(found):
            raise Unusual
        return {"record": found}

    def call(self, v):
        """An extension value: `fn` and `arg`, or `args` with one text."""
        function, text = v["fn"], v.get("arg")
        if type(v.get("args")) is list:
            (text,) = v["args"]
        if len(v) != 2 or type(text) is not str:
            raise Unusual
        self.members += 2
        return self.extension(function, text)

    def text(self, v, expected, _):
        return self.extension(expected.function, v)

    def extension(self, function, text):
        if not stands_for_value(function, text):
            raise Unusual
        return {function: text}


def read(source, schema, known):
    """The entities of a text and their places, or None. `known` has the places of those of other texts by their ids, and
    then also of these."""
    if MINUS_ZERO.search(source.text):
        return None
    top = Place(source)
    try:
        found = quickly_read(source.text, schema) or all_read(Reader(schema), CAREFUL.decode(source.text))
        if "\\u" in source.text and (SURROGATE_ESCAPE.search(source.text) or not source.is_ascii):
            json.dumps(found, ensure_ascii=False).encode()  # halves of characters are none of UTF-8
    except (Unusual, KeyError, TypeError, ValueError, RecursionError):
        return None
    places = {tuple(e["id"]): Place(source, None, top, i) for i, e in enumerate(found)}
    if len(places) != len(found) or not known.keys().isdisjoint(places):
        return None
    known.update(places)
    source.depth = DEPTH
    return found, places.values()


def quickly_read(text, schema):
    """The entities, or None where a member may be there twice: fewer were read than the text has ends of names."""
    ends = text.count('":')
    if ends != text.count(":") and any(colon in text for colon in BEFORE_COLON):
        return None
    reader = Reader(schema)
    found = all_read(reader, QUICK.decode(text))
    return found if reader.members == ends else None


def all_read(reader, value):
    if type(value) is not list:
        raise Unusual
    for i, e in enumerate(value):
        value[i] = reader.entity(e)  # in place, so that memory is used again
    return value
