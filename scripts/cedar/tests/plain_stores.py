"""Entities are read with one answer by `plain_store` and by `entities`; the former gives up where anything is refused,
and reads what is usual itself."""
from cedar import documents, files, plain_store
from cedar.places import Source
from cedar.tests.refusals import ENTITIES

SCHEMA = """entity User in [Group, User] { age?: Long, name?: String, when?: datetime, host?: ipaddr, best?: User,
  friends?: Set<User>, hosts?: Set<ipaddr>, mail?: { text: String, type?: String, id?: String, when?: datetime } } tags String;
entity Group tags Set<duration>;"""
ATTRIBUTES = (
    "{}",
    '{"age": -9223372036854775808, "name": "\\u00e9\\ud83e\\udd5d", "x": [], "y": {}}',
    '{"when": "2023-02-28", "host": {"__extn": {"fn": "ip", "arg": "::1"}}}',
    '{"when": {"fn": "datetime", "arg": "2023-02-28"}, "x": {"__extn": {"fn": "decimal", "args": ["1.5"]}}}',
    '{"x": {"__extn": {"arg": "1.5", "fn": "decimal"}}, "when": {"args": ["2023-02-28"], "fn": "datetime"}}',
    '{"best": {"type": "User", "id": "b"}, "x": {"__entity": {"id": "b", "type": "Other"}}}',
    '{"friends": [{"type": "User", "id": "b"}, {"__entity": {"type": "User", "id": "c"}}], "hosts": ["10.0.0.1", "::1"]}',
    '{"mail": {"type": "User", "id": "b", "text": "-0:", "when": "2023-02-28"}, "x": {"type": "User", "id": "b"}}',
    '{"x": [[true, 1, "a"], [{"a": [{"when": "no date"}]}]], "when\\u0032": "no date"}',
)
COLONS = '{"age" :1, "name"\t\n: ":", "mail": {"text":":\\":", "x\\":":"\\"", " :": ": "}}'
TAGS = ("", ', "tags": {}', ', "tags": {"a": "b", "c": "d"}')
GROUP = '{"parents": [], "attrs": {}, "uid": {"__entity": {"type": "Group", "id": "g"}}, "tags": {"t": ["1h", "2d"]}}'


def usual():
    """Texts of which nothing is refused."""
    for attributes in ATTRIBUTES:
        for tags in TAGS:
            user = f'"attrs": {attributes}, "parents": [{{"type": "Group", "id": "g"}}]{tags}}}'
            yield f'[{GROUP}, {{"uid": {{"type": "User", "id": "a"}}, {user}, {{"uid": {{"type": "N::Other", "id": "a"}}, {user}]'
    yield with_attributes('{"name": ":"}')
    yield with_attributes(COLONS)
    yield "[]"


def with_attributes(attributes):
    return f'[{{"uid": {{"type": "User", "id": "a"}}, "attrs": {attributes}, "parents": []}}]'


REFUSED = (  # values that are calls, but for a part
    '{"fn": "ip"}',
    '{"fn": "ip", "arg": "::1", "x": 1}',
    '{"fn": "ip", "args": ["::1", "::1"]}',
    '{"fn": "ip", "args": "::1"}',
    '{"fn": "ip", "arg": 1}',
    '{"fn": "ip", "arg": "::1", "arg": "::1"}',
    '{"fn": ["ip"], "arg": "::1"}',
    '{"fn": "isInRange", "arg": "::1"}',
    '[["fn", "ip"], ["arg", "::1"]]',
    '["fn", "ip"]',
    "{}",
    "null",
    '"::1"',
)
REPEATED = (  # objects with a member twice, also where colons are inside of texts or have a space before them
    '{"age": 1, "age": 1}',
    '{"age":1,"age":1}',
    '{"age" :1,"age" :1}',
    '{"age" :1,"name":":","age" :1}',
    '{"mail":{"text":"a","text":"a"}}',
    '{"best":{"type":"User","id":"b","id":"b"}}',
    '{"x":{"__entity":{"type":"User","id":"b","type":"User"}}}',
    '{"x":{"__entity":{"type":"User","id":"b"},"__entity":{"type":"User","id":"b"}}}',
    '{"x":[{"a":1,"a":1}]}',
    '{"a\\u0065":1,"ae":1}',
)
LINES = (  # lists of objects, and their lines in a document: texts between objects are inside of them too
    ([], ""),
    ([{"a": 1}], '{"a":1}'),
    ([{"a": ["\n"]}, {"\n": "\n"}], '{"a":["\\n"]},\n  {"\\n":"\\n"}'),
    ([{"a": ["b", "\n", "c"]}, {}], '{"a":["b","\\n","c"]},\n  {}'),
    ([{}] * 201, ",\n  ".join(["{}"] * 201)),
    ([{}, {"a": ["b", "\n", "\n", "c"]}], '{},\n  {"a":["b","\\n","\\n","c"]}'),
)


def wrong_lines():
    """The lists of LINES whose text is another."""
    for items, text in LINES:
        found = documents.text_of({"schema": {"entityTypes": {}, "actions": []}, "entities": items})
        if found.partition('"entities":')[2] != (f"[\n  {text}\n]" if items else "[]") + "}\n":
            yield f"{items}: {found}"


def answers(texts):
    """What is made of entities with `plain_store` and without it, and whether that has read each text."""
    read, took = plain_store.read, []

    def watched(*given):
        found = read(*given)
        took.append(found is not None)
        return found

    def made():
        given = {"schema": Source("s", SCHEMA), "entities": [Source(str(i), text) for i, text in enumerate(texts)]}
        found = files.make(given)
        places = [place.short() for place in found.stored]
        return found.report.lines() or (documents.text_of(found.document), places)

    try:
        plain_store.read = watched
        quick = made()
        plain_store.read = lambda *_: None
        return quick, made(), all(took)
    finally:
        plain_store.read = read


def test(_):
    good = list(usual())
    rows = [([text], True) for text in good] + [([text], False) for text, _, _ in ENTITIES if isinstance(text, str)]
    calls = [f'{{"x": {{"__extn": {call}}}}}' for call in REFUSED]
    rows += [([with_attributes(attributes)], False) for attributes in (*calls, *REPEATED)]
    twice = ('"attrs":{},"attrs":{}', '"attrs":{},"tags":{},"tags":{}')
    rows += [([f'[{{"uid":{{"type":"Group","id":"g"}},"parents":[],{two}}}]'], False) for two in twice]
    rows += [([good[0], good[0]], False), ([good[0], "[]"], True)]
    wrong = list(wrong_lines())
    for texts, is_usual in rows:
        quick, slow, took = answers(texts)
        if quick != slow or took != is_usual or isinstance(slow, list) == is_usual:
            wrong.append(f"{texts}: {quick}, and {slow}; read by plain_store: {took}")
    return len(rows) + len(LINES), wrong
