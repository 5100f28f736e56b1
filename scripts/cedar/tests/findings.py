"""Places of findings: what --explain shows of policies with faults, of a store and of a request."""
from cedar import explain
from cedar.tests.shared import make

SCHEMA = "entity User in [Group] = { age?: Long, name: String } tags String;\nentity Group;\nentity Doc { owner: User };\naction view appliesTo { principal: User, resource: Doc };\n"
# Each with the finding's place, kind, and what is marked of the line (nothing where the place is that of the policy).
CONDITIONS = (
    ("principal.age >= 18", "1:45", "UnsafeOptionalAttributeAccess", "principal.age"),
    ('"\u00e9\U0001f95d" == principal.nam', "1:53", "UnsafeAttributeAccess", "principal.nam"),
    ("true &&\n\tprincipal.nam == 1", "2:2", "UnsafeAttributeAccess", "principal.nam"),
    ('principal.name like "a*" && (resource.owner).age == 1', "1:73", "UnsafeOptionalAttributeAccess", "(resource.owner).age"),
    ("resource.owner.nam.a.b == 1", "1:45", "UnsafeAttributeAccess", "resource.owner.nam"),
    ("(if principal == resource.owner\n then 1 else \"a\") == 1", "1:46", "IncompatibleTypes", "if principal == resource.owner"),
    ("if 1 == 2 then 1 == 1 else if principal.name == \"\" then true else 2 == 2 && 1", "1:121", "UnexpectedType", "1"),
    ('principal.getTag("x") == "y"', "1:45", "UnsafeTagAccess", 'principal.getTag("x")'),
    ("1 == -\"a\"", "1:51", "UnexpectedType", '"a"'),
    ("!principal.name", "1:46", "UnexpectedType", "principal.name"),
    ("principal has \"age\" && principal.age + \"a\" > 1", "1:84", "UnexpectedType", '"a"'),
    ("[1, principal.name].contains(1)", "1:45", "IncompatibleTypes", "[1, principal.name]"),
    ("[] == []", "1:45", "EmptySetForbidden", "[]"),
    ('ip("10.0.0.256").isIpv4()', "1:45", "FunctionArgumentValidation", 'ip("10.0.0.256")'),
    ('ip("::1").isInRange()', "1:45", "WrongNumberArguments", 'ip("::1").isInRange()'),
    ("principal is Usr", "1:45", "UnrecognizedEntityType", "principal is Usr"),
    ('action in [Action::"vew"]', "1:56", "UnrecognizedActionId", 'Action::"vew"'),
    ("principal has name.a && true", "1:45", "UnexpectedType", "principal has name.a"),
)
ENTITIES = '[{"uid": {"type": "User", "id": "q\\"\\n"}, "attrs": {"name": "a"}, "parents": []},\n {"uid": {"type": "Group", "id": "q\\"\\n"}, "attrs": {"x": 1}, "parents": []}]'
REQUEST = '{"principal": {"type": "Group", "id": "g"},\n "action": "Action::\\"view\\"", "resource": "Doc::\\"d\\"", "context": {}}'
SCOPES = "permit (principal, action, resource);\npermit (principal in Usr::\"a\", action, resource);\npermit (principal == ?principal, action, resource);"
LINKS = '[{"template_id": "policy2", "link_id": "l", "args": {"?principal": "Usr::\\"a\\""}}]'


def explained(program, command, given):
    answer = explain.run(program, command, make(given))
    return answer.status, str(answer).split("\n")


def marked(lines, index):
    """What the carets below a finding's line mark of the line above them."""
    if index + 2 >= len(lines) or "^" not in lines[index + 2]:
        return ""
    text, under = lines[index + 1], lines[index + 2]
    return text[under.index("^"):under.rindex("^") + 1]


def test(program):
    wrong = []
    for text, place, kind, snippet in CONDITIONS:
        given = {"schema": SCHEMA, "policies": f"permit (principal, action, resource) when {{ {text} }};"}
        status, lines = explained(program, ["check"], given)
        found = [(line.split(": ")[0].partition(":")[2], marked(lines, i)) for i, line in enumerate(lines) if f" error {kind}: " in line]
        found = [(at.rpartition("policies:")[2], mark) for at, mark in found]
        if status != 1 or (place, snippet) not in found:
            wrong.append(f"{text}: {place} {snippet} is expected: {lines}")
    others = (
        (["check"], {"policies": SCOPES, "links": LINKS}, 1, "policies:2:22: error UnrecognizedEntityType: for policy `policy1`"),
        (["check"], {"policies": SCOPES, "links": LINKS}, 1, "policies:2:1: error InvalidActionApplication: for policy `policy1`"),
        (["check"], {"policies": SCOPES, "links": LINKS}, 1, "links:1:2: error UnrecognizedEntityType: for policy `l`"),
        (["level", "0"], {"policies": SCOPES, "links": LINKS}, 1, "policies:2:22: error UnrecognizedEntityType: for policy `policy1`"),
        (["request"], {"entities": ENTITIES}, 5, "entities:2:59: entity: Group::\"q\\\"\\n\": attribute `x` is not declared"),
        (["request"], {"request": REQUEST}, 4, "request:1:15: request: principal type `Group` is not valid"),
        (["nothing"], {}, 2, "usage: "),
        (["manifest"], {}, 0, "{\"perAction\":[]}"),
    )
    for command, given, expected, text in others:
        status, lines = explained(program, command, {"schema": SCHEMA, **given})
        if status != expected or not any(text in line for line in lines):
            wrong.append(f"{command}: {expected} {text} is expected: {status} {lines}")
    return len(CONDITIONS) + len(others), wrong
