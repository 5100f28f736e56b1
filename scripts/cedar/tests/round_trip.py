"""Random documents, to Cedar's JSON and to its text and back: the same document but for places, and the
same answers."""
import json

from cedar import to_command
from cedar.tests.random_documents import document
from cedar.tests.shared import COMMANDS, make, plain, run, text_of, without_places
from cedar.to_text import Unsayable

DOCUMENTS, ANSWERED = 60, 12


def to_cedar(d, as_json):
    """The files that say a document in Cedar's forms."""
    parts = {part: to_command.PARTS[part](d, as_json) for part in ("schema", "policies", "entities", "request")}
    if not as_json:
        parts["links"] = to_command.links(d, False)
    return parts


NO_FORM = "{}: not of the document's form"
# What Cedar has no words for: a part, members of the document, and words of what is reported.
UNSAYABLE = (
    (
        "policies",
        {"policies": [{"id": "p", "effect": "permit", "body": [{"when": {"call": ["foo", 1]}}]}]},
        "policies[0]: Cedar has no `foo`",
    ),
    (
        "policies",
        {"policies": [{"id": "p", "effect": "permit", "principal": {"==": ["if", "a"]}}]},
        "`if` is no name of Cedar",
    ),
    (
        "policies",
        {"policies": [{"id": "p", "effect": "permit"}, {"id": "q"}]},
        "policies[1]: not of the document's form",
    ),
    ("policies", {"policies": [{"id": "p", "effect": "permit", "body": {}}]}, NO_FORM.format("policies[0]")),
    ("policies", {"policies": [{"id": "p", "effect": "permit", "body": ""}]}, NO_FORM.format("policies[0]")),
    ("policies", {"policies": [{"id": "p", "effect": "permit", "body": None}]}, NO_FORM.format("policies[0]")),
    ("policies", {"policies": [{"id": "p", "effect": "permit", "body": [{}]}]}, NO_FORM.format("policies[0]")),
    ("policies", {"policies": [{"id": "p", "effect": "permit", "principal": None}]}, NO_FORM.format("policies[0]")),
    ("policies", {"policies": [{"id": "p", "effect": "permit", "resource": None}]}, NO_FORM.format("policies[0]")),
    ("policies", {"policies": [{"id": "p", "effect": "permit", "action": None}]}, NO_FORM.format("policies[0]")),
    ("policies", {"policies": {}}, NO_FORM.format("policies")),
    ("links", {"policies": {}}, NO_FORM.format("policies")),
    ("entities", {"entities": {}}, NO_FORM.format("entities")),
    ("policies", {"policies": ""}, NO_FORM.format("policies")),
    ("links", {"policies": ""}, NO_FORM.format("policies")),
    ("entities", {"entities": ""}, NO_FORM.format("entities")),
    ("policies", {"policies": None}, NO_FORM.format("policies")),
    ("links", {"policies": None}, NO_FORM.format("policies")),
    ("entities", {"entities": None}, NO_FORM.format("entities")),
    ("policies", {"policies": False}, NO_FORM.format("policies")),
    ("links", {"policies": False}, NO_FORM.format("policies")),
    ("entities", {"entities": False}, NO_FORM.format("entities")),
    ("entities", {"entities": [{"id": ["U", "a"], "parents": {}}]}, NO_FORM.format("entities[0]")),
    ("entities", {"entities": [{"id": ["U", "a"], "parents": ""}]}, NO_FORM.format("entities[0]")),
    ("entities", {"entities": [{"id": ["U", "a"], "parents": None}]}, NO_FORM.format("entities[0]")),
    ("entities", {"entities": [{"id": ["U", "a"], "attrs": None}]}, NO_FORM.format("entities[0]")),
    ("entities", {"entities": [{"id": ["U", "a"], "tags": None}]}, NO_FORM.format("entities[0]")),
    ("entities", {"entities": [{"id": ["U", "a"], "tags": 0}]}, NO_FORM.format("entities[0]")),
    ("schema", {"schema": {"entityTypes": {"A": {"memberOf": {}}}, "actions": []}}, NO_FORM.format("schema")),
    ("schema", {"schema": {"entityTypes": {"A": {"attributes": None}}, "actions": []}}, NO_FORM.format("schema")),
    ("schema", {"schema": {"entityTypes": {"A": {"memberOf": None}}, "actions": []}}, NO_FORM.format("schema")),
    ("schema", {"schema": {"entityTypes": {}, "actions": [{"id": ["Action", "x"], "memberOf": {}}]}}, NO_FORM.format("schema")),
    ("schema", {"schema": {"entityTypes": {}, "actions": [{"id": ["Action", "x"], "memberOf": ""}]}}, NO_FORM.format("schema")),
    ("schema", {"schema": {"entityTypes": {}, "actions": [{"id": ["Action", "x"], "principals": None}]}}, NO_FORM.format("schema")),
    ("schema", {"schema": {"entityTypes": {}, "actions": [{"id": ["Action", "x"], "context": None}]}}, NO_FORM.format("schema")),
    ("schema", {"schema": {"actions": [{"id": ["Deed", "a"]}]}}, "Deed"),
    ("schema", {"schema": {"entityTypes": {"A": {}, "Z::A": {}}}}, "the type `Z::A` beside the type `A`"),
    (
        "schema",
        {"schema": {"actions": [{"id": ["Action", "x"]}, {"id": ["N::Action", "x"]}]}},
        'the action N::Action::"x" beside one of the empty namespace',
    ),
    ("schema", {"schema": {"entityTypes": {"in": {}}}}, "`in` is no name of Cedar"),
    (
        "entities",
        {"entities": [{"id": ["U", "a"], "attrs": {"t": {"datetime": 253402300800000}}}]},
        "entities[0]: a datetime outside the years",
    ),
    ("entities", {"entities": [{"id": ["U", "a"], "attrs": {"t": {"record": {"__expr": 1}}}}]}, "means something else"),
    ("request", {}, "request: an unknown principal"),
)
INSTANTS = (0, -1, 1, 86399999, -62167219200000, -62135596800001, -62135596800000, 253402300799999, 951782400000)


def unsayable():
    """What is wrong with what is reported of documents that Cedar can't say."""
    for part, members, words in UNSAYABLE:
        for as_json in (False, True):
            d = {"schema": {}, **members}
            try:
                yield f"{part} {members}: {to_command.PARTS[part](d, as_json)}"
            except Unsayable as why:
                if words not in str(why):
                    yield f"{part} {members}: {why}"


def instants(program):
    """Datetimes as milliseconds, through their texts: what `slice` writes of them has to be the
    same."""
    for milliseconds in INSTANTS:
        t = {"get": [{"var": "principal"}, "t"]}
        d = {
            "schema": {
                "entityTypes": {"U": {"attributes": {"t": "datetime"}}},
                "actions": [{"id": ["Action", "a"], "principals": ["U"], "resources": ["U"]}],
            },
            "policies": [{"id": "p", "effect": "permit", "body": [{"when": {"==": [t, t]}}]}],
            "entities": [{"id": ["U", "a"], "attrs": {"t": {"datetime": milliseconds}}}],
            "request": {"principal": ["U", "a"], "action": ["Action", "a"], "resource": ["U", "b"], "context": {}},
        }
        expected, back = run(program, ["slice"], json.dumps(d).encode()), text_of(make(to_cedar(d, True)))
        if expected[0] != 0 or run(program, ["slice"], back) != expected:
            yield f"{milliseconds}: {expected}: {back}"


def test(program):
    wrong, decided = [*unsayable(), *instants(program)], 0
    for seed in range(DOCUMENTS):
        d = document(seed)
        back = {form: make(to_cedar(d, form == "JSON")) for form in ("JSON", "text")}
        for form, made in back.items():
            wrong += [f"{seed} {form}: {line}" for line in made.lines if ": refused: " in line]
            if plain(made.document) != plain(d):
                wrong.append(f"{seed} {form}: another document")
        if seed >= ANSWERED:
            continue
        given = json.dumps(d).encode()
        for command in COMMANDS:
            expected = run(program, command, given)
            if command == ["decide"] and expected[0] == 0:
                decided += 1
            for form, made in back.items():
                answer = run(program, command, text_of(made))
                if answer != expected and (form == "JSON" or without_places(answer) != without_places(expected)):
                    wrong.append(f"{seed} {form} {' '.join(command)}: {answer}, and {expected} is expected")
    if decided < ANSWERED // 3:
        wrong.append(f"of {ANSWERED} documents no more than {decided} are decided")
    return DOCUMENTS + len(UNSAYABLE) + len(INSTANTS), wrong
