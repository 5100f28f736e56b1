"""What is refused: files with a fault each, the place that is reported, and words of the text."""
import json

from cedar.tests.shared import make

SCHEMA = "entity User in [Group] { age: Long, when?: datetime } tags String;\nentity Group;\nentity Doc { owner: User };\naction view, edit appliesTo { principal: User, resource: Doc, context: { ip: ipaddr } };\n"
POLICY = "permit (principal, action, resource);"
ENTITY = '{"uid": {"type": "User", "id": "a"}, "attrs": {"age": 1}, "parents": []}'


def when(text):
    return f"permit (principal, action, resource) when {{ {text} }};"


def est(body):
    return '{"effect": "permit", "principal": {"op": "All"}, "action": {"op": "All"}, "resource": {"op": "All"}, "conditions": [{"kind": "when", "body": %s}]}' % body


ANY = {"op": "All"}
ALL = {"effect": "permit", "principal": ANY, "action": ANY, "resource": ANY, "conditions": []}
STOP = {**ALL, "effect": "forbid", "principal": {"op": "==", "slot": "?principal"}}


def without(member):
    return json.dumps({name: part for name, part in ALL.items() if name != member})


def policy_set(part, name, policy):
    return json.dumps({"staticPolicies": {}, "templates": {}, "templateLinks": [], part: {name: policy}})


# Conditions in text, with the column inside.
CONDITIONS = (
    ("1 < 2 < 3", 7, "don't follow one another"),
    ("principal has age == true", 19, "don't follow one another"),
    ("principal = resource", 11, "expected `==`"),
    ("4 / 2 == 2", 3, "no `/`"),
    ("4 % 2 == 0", 3, "no `%`"),
    ("!!!!!true", 5, "more than four"),
    ("!-1 == 2", 2, "parentheses are needed"),
    ("9223372036854775808 == 1", 1, "outside 64 bits"),
    ("-9223372036854775809 == 1", 1, "outside 64 bits"),
    ("principal == User", 14, "`User` is no variable"),
    ("principal == ?principal", 14, "a slot may be in the scope only"),
    ("foo(1)", 1, "no function `foo`"),
    ("principal.foo(1)", 11, "no method `foo`"),
    ("unknown(\"x\")", 1, "unknown values"),
    ("lessThan(1, 2)", 1, "is a method"),
    ("\"1.0\".decimal()", 7, "is a function"),
    ("[1].contains()", 5, "takes one argument, not 0"),
    ("[1].isEmpty(1)", 5, "takes no argument, not 1"),
    ("principal.in", 11, "reserved word"),
    ("principal has if", 15, "reserved word"),
    ("{if: 1} == {}", 2, "reserved word"),
    ("{a: 1, a: 2} == {}", 8, "two members `a`"),
    ("principal[age]", 11, "in quotes"),
    ("principal[\"age\" + 1]", 17, "expected `]`"),
    ("principal.name like name", 21, "expected a pattern in quotes"),
    ("\"a\\*b\" == \"\"", 3, "in a pattern of `like` alone"),
    ("\"\\q\" == \"\"", 2, "no escape"),
    ("\"\\u{d800}\" == \"\"", 2, "no escape"),
    ("\"\\u{1234567}\" == \"\"", 2, "no escape"),
    ("\"\\x80\" == \"\"", 2, "no escape"),
    ("\"a\" like \"b\\x2a\"", 12, "a star in a pattern"),
    ("principal is \"User\"", 14, "expected a type"),
    ("principal is User::\"a\"", 14, "found an entity"),
    ("true && if true then true else true", 9, "parentheses are needed"),
    ("if true then true", 19, "expected `else`"),
    ("", 2, "expected an expression"),
    ("true true", 6, "expected `}`"),
    ("User::{a: 1} == 1", 7, "expected an expression"),
    ("a::b == 1", 1, "no variable"),
    ("(1 + 2", 8, "expected `)`"),
    ("[1, 2", 7, "expected `]`"),
    ("principal # 1", 11, "the character '#'"),
    ("__cedar::User::\"a\" == principal", 1, "reserved word"),
    ("principal(1)", 1, "no function `principal`"),
    ("(principal.age)(1)", 16, "no function"),
    ("\"a", 1, "without its closing quote"),
    ("true &", 6, "the character '&'"),
    ("1.5 == 1", 3, 'no fractions; a decimal is written decimal("1.5")'),
    ("true and false", 6, "found `and` (write `&&`)"),
    ("'a' == \"a\"", 1, "texts are written in double quotes"),
)
POLICIES = (
    (without("conditions"), "1:1", "`conditions` is missing"),
    (without("resource"), "1:1", "`resource` is missing"),
    (policy_set("staticPolicies", "stop", STOP), "1:29: staticPolicies.stop", "is written under `templates`"),
    (policy_set("templates", "all", ALL), "1:45: templates.all", "is written under `staticPolicies`"),
    ('{"staticPolicies": {}, "templates": {}}', "1:1", "`templateLinks` is missing"),
    ('{"staticPolicies": {}, "templateLinks": []}', "1:1", "`templates` is missing"),
    ('{"templates": {}, "templateLinks": []}', "1:1", "`staticPolicies` is missing"),
    ("permit (principal, action);", "1:26", "expected `,`"),
    ("permit (principal, action, resource)", "1:37", "expected `;`, found the end"),
    ("allow (principal, action, resource);", "1:1", "`permit` or `forbid`"),
    ("/* all */ " + POLICY, "1:1", "comments begin with `//`"),
    ("permit (resource, action, principal);", "1:9", "expected `principal`"),
    ("permit (principal: User, action, resource);", "1:18", "an old form"),
    ("permit (principal == ?resource, action, resource);", "1:22", "has no place in the part of principal"),
    ("permit (principal, action == ?action, resource);", "1:30", "has no place in the part of action"),
    ("permit (principal in [User::\"a\"], action, resource);", "1:22", "expected an entity"),
    ("permit (principal, action is Action, resource);", "1:27", "expected `,`"),
    ("permit (principal, action == User::\"a\", resource);", "1:30", "an action's type"),
    ("permit (principal == User, action, resource);", "1:22", "an entity as"),
    ("permit (principal, action, resource) if { true };", "1:38", "expected `;`"),
    ("@id(x) " + POLICY, "1:5", "a text in quotes"),
    ("@id " + POLICY, "1:2", "`@id` without a text"),
    ("@a(\"\") @a(\"\") " + POLICY, "1:9", "is there twice"),
    ("// one\n@id(\"p\") " + POLICY + "\n@id(\"p\") " + POLICY, "3:1", "two policies have the id `p`; the other is at policies:2:1"),
    ("@id(\"policy1\") " + POLICY + POLICY, "1:53", "two policies have the id `policy1`"),
    ("\ufeff" + POLICY, "1:1", "byte order mark"),
    (b"permit \xff", "1:8", "no UTF-8"),
    ("\u00e9", "1:1", "the character"),
    ("permit (principal, action, resource) when { \"\u00e9\U0001f95d\" == 1 / 2 };", "1:55", "no `/`"),
    (when("+".join("1" for _ in range(70)) + " == 2"), "1:1", "nest deeper than 127"),
    (when("(" * 500 + "true" + ")" * 500), "1:445", "nests deeper than 400"),
    ("[]", "1:1", "are an object"),
    ("{\"staticPolicies\": []}", "1:20: staticPolicies", "policies by their ids"),
    ("{\"policies\": {}}", "1:14: policies", "has no counterpart"),
    ("{", "1:2", "no JSON"),
    ("{\"staticPolicies\": {\"a\": {}, \"a\": {}}}", "1:35: staticPolicies.a", "is there twice"),
    ("{\"staticPolicies\": {\"p\": {\"effect\": \"allow\"}}}", "1:26: staticPolicies.p", "`principal` is missing"),
    (est('{"Unknown": {"name": "x"}}'), ": conditions[0].body.Unknown", "no counterpart"),
    (est('{"Slot": "?principal"}'), ": conditions[0].body.Slot", "in the scope only"),
    (est('{"Value": 1.5}'), ": conditions[0].body.Value", "1.5 is no whole number"),
    (est('{"Value": null}'), ": conditions[0].body.Value", "no value"),
    (est('{"Value": {"__expr": "1"}}'), ": conditions[0].body.Value", "no value"),
    (est('{"Var": "user"}'), ": conditions[0].body.Var", "no variable"),
    (est('{"==": {"left": {"Value": 1}}}'), ': conditions[0].body["=="]', "`right` is missing"),
    (est('{"a": 1, "b": 2}'), ": conditions[0].body", "no expression"),
    (est('{"like": {"left": {"Var": "principal"}, "pattern": "a*"}}'), ": conditions[0].body.like.pattern", "a pattern is a list"),
    (est('{"foo": [{"Value": 1}]}'), ": conditions[0].body.foo", "no counterpart"),
    (est('{"Value": {"__extn": {"fn": "offset", "args": [1, 2]}}}'), ": conditions[0].body.Value", "is no value here"),
    (est('{"is": {"left": {"Var": "principal"}, "entity_type": "in"}}'), ": conditions[0].body.is.entity_type", "no name"),
    (est('{"Value": 1}').replace('"when"', '["when"]'), ": conditions[0].kind", "expected `when` or `unless`"),
    (est('{"Value": 1}').replace('"principal": {"op": "All"}', '"principal": {"op": "==", "slot": "?resource"}'), ": principal.slot", "has no place"),
    (est('{"Value": 1}').replace('"action": {"op": "All"}', '"action": {"op": "is", "entity_type": "Action"}'), ": action", "no part of a scope"),
    (est('{"Value": "\\ud800"}'), ": conditions[0].body.Value", "surrogate"),
    (est('{"!": {"arg":' * 450 + '{"Value": true}' + "}}" * 450), "", "nests deeper than 400"),
    (est('{"Value": ' + "[" * 5000 + "]" * 5000 + "}"), "", "nests deeper than 1000"),
)
SCHEMAS = (
    ('{"": {"entityTypes": {}}}', '1:6: [""]', "`actions` is missing"),
    ('{"": {"actions": {}}}', '1:6: [""]', "`entityTypes` is missing"),
    ('{"": {"entityTypes": {"U": {"shape": {"type": "Record"}}}, "actions": {}}}', '1:38: [""].entityTypes.U.shape', "`attributes` is missing"),
    ('{"": {"entityTypes": {}, "actions": {"a": {"appliesTo": {"resourceTypes": []}}}}}', '1:57: [""].actions.a.appliesTo', "`principalTypes` is missing"),
    ('{"": {"entityTypes": {}, "actions": {"a": {"appliesTo": {"principalTypes": [], "resourceTypes": [], "context": null}}}}}', '1:112: [""].actions.a.appliesTo.context', "expected a type"),
    ("entity User", "1:12", "expected `;`"),
    ("entity in;", "1:8", "reserved word"),
    ("entity User; entity User;", "1:21", "declared twice"),
    ("entity User { a: Strin };", "1:18", "no type `Strin`"),
    ("entity User in [Grup];", "1:17", "\"Grup\" is not declared"),
    ("entity U { a: Long, a: Long };", "1:21", "two attributes `a`"),
    ("entity U { in: Long };", "1:12", "a reserved word is written in quotes"),
    ("entity U enum [];", "1:15", "one text or more"),
    ("type A = B;\ntype B = Set<A>;", "2:14", "is defined by itself"),
    ("type Long = String;", "1:6", "a meaning of its own"),
    ("entity Action;", "1:8", "a meaning of its own"),
    ("action a in [b];", "1:14", "is not declared"),
    ("action a appliesTo { principal: U };", "1:20", "`resource` is missing"),
    ("entity U; action a appliesTo { principal: U, principal: U, resource: U };", "1:46", "is there twice"),
    ("action a attributes { x: Long };", "1:10", "no counterpart"),
    ("entity U; action a appliesTo { principal: U, resource: U, context: Long };", "1:68", "expected a record type"),
    ("entity U; namespace N { entity U; }", "1:32", "hides `U`"),
    ("action a; namespace N { action a; }", "1:32", "hides Action::\"a\""),
    ("namespace N { } namespace N { }", "1:27", "is there twice"),
    ("namespace N { entity U", "1:23", "expected `;`"),
    ("class U;", "1:1", "or `namespace`"),
    ("entity U { a: Set<Long };", "1:24", "expected `>`"),
    ("entity U { a: " + "Set<" * 300, "", "nests deeper than 200"),
    ('{"": {"entityTypes": {"U": {"shape": {"type": "Record", "attributes": {"x": {"type": "Nope"}}}}}}}',
     '1:86: [""].entityTypes.U.shape.attributes.x.type',
     "no type `Nope`"),
    ('{"": {"entityTypes": {"U": {"shape": {"type": "Record", "additionalAttributes": true}}}}}', "", "records are closed"),
    ('{"": {"entityTypes": {}, "actions": {"a": {"memberOf": {}}}}}', ': [""].actions.a.memberOf: refused', "a list of actions"),
    ('{"": {"entityTypes": {}, "actions": {"a": {"memberOf": ""}}}}', ': [""].actions.a.memberOf: refused', "a list of actions"),
    ('{"": {"entityTypes": {}, "actions": {"a": {"memberOf": 0}}}}', ': [""].actions.a.memberOf: refused', "a list of actions"),
    ('{"": {"entityTypes": {}, "actions": {"a": {"memberOf": false}}}}', ': [""].actions.a.memberOf: refused', "a list of actions"),
    ('{"": {"entityTypes": {}, "actions": {"a": {"attributes": []}}}}', ': [""].actions.a.attributes: refused', "attributes of actions"),
    ('{"": {"entityTypes": {}, "actions": {"a": {"attributes": ""}}}}', ': [""].actions.a.attributes: refused', "attributes of actions"),
    ('{"": {"entityTypes": {}, "actions": {"a": {"attributes": false}}}}', ': [""].actions.a.attributes: refused', "attributes of actions"),
    ('{"": {"entityTypes": {"U": {"shape": {"type": "Record", "attributes": {}, "additionalAttributes": null}}}, "actions": {}}}',
     ': [""].entityTypes.U.shape.additionalAttributes: refused',
     "records are closed"),
    ('{"": {"actions": {"a": {"attributes": {"x": 1}}}}}', '1:39: [""].actions.a.attributes', "attributes of actions"),
    ('{"": {"actions": {"a": {"appliesTo": {"principalTypes": []}}}}}', '1:38: [""].actions.a.appliesTo', "`resourceTypes` is missing"),
    ('{"N": {"entityTypes": {"U": {"memberOfTypes": ["G"]}}}}', "1:48: N.entityTypes.U.memberOfTypes[0]", "\"G\" is not declared"),
    ('{"": {"entityTypes": {"U": {"shape": {"type": "Extension", "name": "ip"}}}}}', '1:68: [""].entityTypes.U.shape.name', "no extension type"),
    ('{"": {"things": {}}}', '1:17: [""].things', "no counterpart"),
    ('{"a b": {}}', '1:9: ["a b"]', "no name of a namespace"),
    ("[]", "1:1", "expected an object"),
)
NOTHING = ("null", "1:1", "`null`, where a value is expected")
ENTITIES = (
    NOTHING,
    ('[{"uid": {"type": "User", "id": "a"}, "attrs": {"age": 1}}]', "1:2: [0]", "the member `parents` is missing"),
    ('[{"uid": {"type": "User", "id": "a"}, "parents": []}]', "1:2: [0]", "the member `attrs` is missing"),
    ('[{"uid": {"type": "User", "id": "a"}, "attrs": {}, "parents": null}]', "1:63: [0].parents", "a list of ids"),
    ('[{"uid": {"type": "User", "id": "a"}, "attrs": {}, "parents": [], "tags": null}]', "1:75: [0].tags", "expected an object"),
    ("{}", "1:1", "a list of entities"),
    ("[{}]", "1:2: [0]", "`uid` is missing"),
    ('[{"uid": "User::\\"a\\""}]', "1:10: [0].uid", "expected an entity's id"),
    (f"[{ENTITY}, {ENTITY}]", "1:84: [1].uid", "two entities have this id"),
    ('[{"uid": {"type": "User", "id": "a"}, "attrs": {"age": 1.5}}]', "1:56: [0].attrs.age", "no whole number"),
    ('[{"uid": {"type": "User", "id": "a"}, "attrs": {"age": null}}]', "1:56: [0].attrs.age", "`null`"),
    ('[{"uid": {"type": "User", "id": "a"}, "attrs": {"when": "tomorrow"}}]', "1:57: [0].attrs.when", "no text of `datetime`"),
    ('[{"uid": {"type": "User", "id": "a"}, "attrs": {"when": {"__extn": {"fn": "datetime", "arg": "2023-02-29"}}}}]', "", "no text of `datetime`"),
    ('[{"uid": {"type": "User", "id": "a"}, "attrs": {"x": {"__expr": "1"}}}]', "1:54: [0].attrs.x", "`__expr`"),
    ('[{"uid": {"type": "User", "id": "a", "x": 1}}]', "1:43: [0].uid.x", "no counterpart"),
    ('[{"uid": {"type": "if", "id": "a"}}]', "1:19: [0].uid.type", "no name"),
    ('[{"uid": {"type": "User", "id": "a"}, "parents": {}}]', "1:50: [0].parents", "a list of ids"),
    ('[{"uid": {"type": "User", "id": "a"}, "attrs": []}]', "1:48: [0].attrs", "expected an object"),
    ("entity", "1:1", "no JSON"),
    ('[{"uid": {"type": "User", "id": "a"}, "attrs": {"x": ' + "[" * 130 + "]" * 130 + '}, "parents": []}]', "1:1", "nests deeper than 127"),
    ('[{"uid": {"type": "User", "id": "a"}, "attrs": {"age": -0}}]', "1:56: [0].attrs.age", "-0 is no whole number"),
    ('[{"uid": {"type": "User", "id": "a"}, "attrs": {"age": 1, "age": 2}, "parents": []}]', ": [0].attrs.age: refused", "a member that is there twice"),
    ('[{"uid": {"type": "User", "id": "a"}, "attrs": {"m": {"a": 1, "a": 1}}, "parents": []}]', ": [0].attrs.m.a: refused", "a member that is there twice"),
    ('[{"uid": {"type": "User", "id": "a"}, "attrs": {"m": [{"a": 1, "a": 1}]}, "parents": []}]', ": [0].attrs.m[0].a: refused", "a member that is there twice"),
    ('[{"uid": {"type": "User", "id": "b", "id": "a"}, "attrs": {"age": 1}, "parents": []}]', ": [0].uid.id: refused", "a member that is there twice"),
    ('[{"uid": {"type": "User", "id": "a"}, "attrs": {"age": 1}, "parents": [{"type": "Group", "id": "b", "id": "a"}]}]', ": [0].parents[0].id: refused", "a member that is there twice"),
    ('[{"uid": {"type": "User", "id": "a"}, "attrs": {"age": 1}, "parents": [], "parents": []}]', ": [0].parents: refused", "a member that is there twice"),
    ('[{"uid": {"type": "User", "id": "a"}, "attrs": {"age": 1}, "parents": [], "attrs": {}}]', ": [0].attrs: refused", "a member that is there twice"),
    ('[{"uid": {"type": "User", "id": "a"}, "attrs": {"age": 1}, "parents": [], "x": {}}]', ": [0].x: refused", "no counterpart"),
    ('[[["uid", {"type": "User", "id": "a"}], ["attrs", {}], ["parents", []]]]', ": [0]: refused", "expected an object"),
    ('[{"uid": {"type": "User", "id": "a"}, "attrs": [["age", 1]], "parents": []}]', ": [0].attrs: refused", "expected an object"),
    ('[{"uid": [["type", "User"], ["id", "a"]], "attrs": {"age": 1}, "parents": []}]', ": [0].uid: refused", "expected an entity's id"),
    ('[{"uid": {"__entity": [["type", "User"], ["id", "a"]]}, "attrs": {"age": 1}, "parents": []}]', ": [0].uid.__entity: refused", "expected an entity's id"),
    ('[{"uid": {"__entity": {"type": "User", "id": "a"}, "x": 1}, "attrs": {"age": 1}, "parents": []}]', ": [0].uid.x: refused", "no counterpart"),
    ('[{"uid": {"type": ["User"], "id": "a"}, "attrs": {"age": 1}, "parents": []}]', ": [0].uid.type: refused", "no name"),
    ('[{"uid": {"type": "User", "id": 7}, "attrs": {"age": 1}, "parents": []}]', ": [0].uid.id: refused", "expected a text"),
    ('[{"uid": {"type": "User", "id": "a"}, "attrs": {"age": 9223372036854775808}, "parents": []}]', ": [0].attrs.age: refused", "no whole number"),
    ('[{"uid": {"type": "User", "id": "a"}, "attrs": {"m": [[-9223372036854775809]]}, "parents": []}]', ": [0].attrs.m[0][0]: refused", "no whole number"),
    ('[{"uid": {"type": "User", "id": "a"}, "attrs": {"m": [[1, 1e3]]}, "parents": []}]', ": [0].attrs.m[0][1]: refused", "no whole number"),
    ('[{"uid": {"type": "User", "id": "a"}, "attrs": {"m": [[null]]}, "parents": []}]', ": [0].attrs.m[0][0]: refused", "`null` is no value"),
    ('[{"uid": {"type": "User", "id": "a"}, "attrs": {"m": {"__entity": {"type": "User", "id": "a"}, "__expr": "1"}}, "parents": []}]', ": [0].attrs.m: refused", "`__expr`"),
    ('[{"uid": {"type": "User", "id": "a"}, "attrs": {"when": {"__extn": {"fn": "datetime", "arg": "2023-02-28"}, "x": 1}}, "parents": []}]', ": [0].attrs.when.x: refused", "no counterpart"),
    ('[{"uid": {"type": "User", "id": "a"}, "attrs": {"when": {"__extn": {"fn": "datetime", "fn": "ip", "arg": "2023-02-28"}}}, "parents": []}]', ": [0].attrs.when.__extn.fn: refused", "a member that is there twice"),
    ('[{"uid": {"type": "User", "id": "a"}, "attrs": {"m": "\\ud800"}, "parents": []}]', ": [0].attrs.m: refused", "half of a surrogate pair"),
    ('[{"uid": {"type": "User", "id": "a"}, "attrs": {"\\ud800": 1}, "parents": []}]', ": [0].attrs: refused", "half of a surrogate pair"),
    ('[{"uid": {"type": "User", "id": "a"}, "attrs": {"age": 1}, "parents": [], "tags": {"t": "a", "t": "a"}}]', ": [0].tags.t: refused", "a member that is there twice"),
)
REQUEST = '{"principal": "User::\\"a\\"", "action": "Action::\\"view\\"", "resource": "Doc::\\"d\\"", "context": %s}'
REQUESTS = (
    NOTHING,
    ((REQUEST % "{}").replace(', "context": {}', ""), "1:1", "`context` is missing"),
    (REQUEST % "null", "1:97: context", "expected an object"),
    ("{}", "1:1", "`principal` is missing"),
    (REQUEST % "[]", "1:97: context", "expected an object"),
    (REQUEST % '{"ip": "10.0.0.256"}', "1:104: context.ip", "no text of `ip`"),
    (REQUEST % '{"ip": {"fn": "ip", "arg": 1}}', "1:104: context.ip", "is no value here"),
    ((REQUEST % "{}").replace("User::", "User:"), "1:15: principal", "as User::"),
    ((REQUEST % "{}").replace("User::", "if::"), "1:15: principal", "as User::"),
    ((REQUEST % "{}").replace('"a\\"', '"\\\\q\\"'), "1:15: principal", "as User::"),
)
LINKS = (
    NOTHING,
    ('[{"templateId": "t", "newId": "l", "values": {}}]', "1:2: [0]", "no template with the id `t`"),
    ('[{"templateId": "policy0", "newId": "l", "values": {}}]', "1:2: [0]", "no template"),
    ("{}", "1:1", "a list of links"),
    ('[{"template_id": "policy1", "link_id": "l", "args": {}}]', "1:2: [0]", "expected values for `?principal`"),
    ('[{"template_id": "policy1", "link_id": "l", "args": {"?x": "User::\\"a\\""}}]', '1:60: [0].args["?x"]', "a slot is"),
    ('[{"template_id": "policy1", "link_id": "policy0", "args": {"?principal": "User::\\"a\\""}}]', "1:2: [0]", "two policies have the id `policy0`"),
    ('[{"template_id": "policy1", "link_id": 1, "args": {}}]', "1:40: [0].link_id", "expected a text"),
)
# Files with several faults: all are reported, and nothing that follows from one of them alone.
SEVERAL = (
    ("policies", "permit (principal, action, resource) when { 1 = 2 } unless { principal.in } when { {a: 1}.a == };", 3),
    ("policies", "permit (principal, action, resource) when { (1 + } when { true };\n" + when("'a'"), 2),
    ("policies", "permit (principal, action, resource) when { ((( };\nallow (principal);\n" + POLICY + "\n" + when("foo(1) && " + "(" * 397 + "true" + ")" * 397 + " && bar(1)"), 4),
    ("schema", "entity User in [Nope] = { a: };\ntype T = Set<;\nentity B { t: T, u: User };\nnamespace N { entity C; action }\nentity D { c: N::C };", 3),
    ("entities", '[{"uid": 1, "attrs": {"a": null}, "parents": [1]}, {"uid": {"type": "User", "id": 1}}]', 6),
)
TEMPLATE = POLICY + "permit (principal == ?principal, action, resource);"


def cases():
    """The files of each case, the one with the fault, and what is expected."""
    for text, column, words in CONDITIONS:
        yield {"schema": SCHEMA, "policies": when(text)}, "policies", f"1:{column + 44}", words
    for rows, word, also in ((POLICIES, "policies", {}), (SCHEMAS, "schema", {}), (ENTITIES, "entities", {}), (REQUESTS, "request", {}), (LINKS, "links", {"policies": TEMPLATE})):
        for text, place, words in rows:
            yield {"schema": SCHEMA, **also, word: text}, word, place, words
    yield {"schema": SCHEMA, "principal": "User::a", "action": 'Action::"view"', "resource": 'Doc::"d"'}, "--principal", "1:1", "as User::"


def test(_):
    wrong, count = [], 0
    for given, word, place, words in cases():
        count += 1
        lines = [line for line in make(given).lines if ": refused: " in line]
        front = place if place[:1] in (":", "") else f"{word}:{place}: refused"
        if not any(line.startswith(word) and front in line and words in line for line in lines):
            wrong.append(f"expected {given[word] if word in given else given}: {lines}, and {word}:{place} {words}")
    for word, text, expected in SEVERAL:
        count += 1
        lines = [line for line in make({"schema": SCHEMA, word: text}).lines if ": refused: " in line]
        if len(lines) != expected:
            wrong.append(f"expected {text}: {expected} refusals: {lines}")
    return count, wrong
