"""What was probably meant where a document has not its form: usual slips, and what Cedar's own JSON has
in its place."""
import difflib
import json

OPERATORS = {
    "!=": '{"not":{"==":[a,b]}}',
    ">": '{"not":{"<=":[a,b]}}',
    ">=": '{"not":{"<":[a,b]}}',
    "&&": '{"all":[a,b,..]}',
    "||": '{"any":[a,b,..]}',
    "!": '{"not":a}',
    ".": '{"get":[a,"name"]}',
    "if-then-else": '{"if":[test,then,else]}',
    "Value": "the value itself",
    "Var": '{"var":"principal"}',
    "Slot": '"?" in the scope',
    "Set": "a list",
    "Record": '{"record":{..}}',
    "__entity": '{"id":["Type","eid"]}',
    "__extn": '{"decimal":"1.5"}, {"ip":"10.0.0.1"}, {"datetime":".."} or {"duration":".."} in values, '
    '{"call":["ip","10.0.0.1"]} in conditions',
    "and": '{"all":[a,b,..]}',
    "or": '{"any":[a,b,..]}',
    "ip": '{"call":["ip","10.0.0.1"]}',
    "decimal": '{"call":["decimal","1.5"]}',
    "datetime": '{"call":["datetime","2025-01-31"]}',
    "duration": '{"call":["duration","1h"]}',
}
MEMBERS = {
    "uid": '"id"',
    "memberOfTypes": '"memberOf"',
    "shape": '"attributes":{..}',
    "appliesTo": '"principals":[..], "resources":[..], "context":{..}',
    "principalTypes": '"principals"',
    "resourceTypes": '"resources"',
    "commonTypes": "each type, written out where it is used",
    "conditions": '"body":[{"when":EXPRESSION},..]',
    "templateId": '"link"',
    "newId": '"id"',
    "values": '"principal":ID and "resource":ID',
    "op": '{"==":ID}, {"in":ID}, {"is":TYPE}; no scope at all for all',
    "kind": '{"when":EXPRESSION} or {"unless":EXPRESSION}',
    "attr": "attrs",
    "attributes": "attrs",
    "attrs": "attributes",
    "actions": "actions",
    "staticPolicies": "a list of policies",
    "templates": "the same list as that of the policies",
    "templateLinks": 'the same list as that of the policies, as {"id":..,"link":..}',
    "annotations": "nothing: annotations decide nothing",
    "required": '{"optional":TYPE} round a type that may be absent',
    "when": '"body":[{"when":EXPRESSION}]',
    "unless": '"body":[{"unless":EXPRESSION}]',
}
TYPES = {
    "Boolean": '"Bool"',
    "boolean": '"Bool"',
    "bool": '"Bool"',
    "Int": '"Long"',
    "Integer": '"Long"',
    "int": '"Long"',
    "Number": '"Long"',
    "long": '"Long"',
    "string": '"String"',
    "Text": '"String"',
    "ip": '"ipaddr"',
    "Set": '{"set":TYPE}',
    "Record": '{"record":{..}}',
    "Entity": '{"entity":NAME}',
}
KNOWN_TYPES = ("Bool", "Long", "String", "decimal", "ipaddr", "datetime", "duration")


def shown(value):
    """A value as a text of at most 60 characters."""
    text = json.dumps(value, ensure_ascii=False, separators=(",", ":"))
    return text if len(text) <= 60 else text[:57] + "..."


def near(word, words):
    found = difflib.get_close_matches(word, words, 1)
    return f"; did you mean {shown(found[0])}?" if found else ""


ALONE = {
    "enum": 'an enumerated type has the member "enum" alone',
    "link": 'a link has the members "id", "link", "principal" and "resource" alone',
    "is": '"is" is used alone, or with "in"',
    "remove": 'an edit that removes has the member "remove" alone',
    "==": '"==" is used alone',
}


def of_member(name, known, definition):
    """What was probably meant by a member that has no meaning where it is."""
    if name in ALONE and definition in (None, "scope", "policy", "link"):
        return f"; {ALONE[name]}"
    if definition in ("expression", "value") and name in OPERATORS:
        return f"; here it is {OPERATORS[name]}"
    if name in MEMBERS and (MEMBERS[name] not in ("attrs", "attributes", "actions") or MEMBERS[name] in known):
        return f"; here it is {MEMBERS[name]}"
    if "entityTypes" in known:
        return (
            near(name, known) or "; a schema of Cedar, by namespaces, is brought into this form by scripts/from-cedar"
        )
    return near(name, known) or (f"; {', '.join(map(shown, known))} may" if 0 < len(known) <= 8 else "")


def of_value(value, definition):
    """What was probably meant by a value of another form than is expected."""
    if isinstance(value, float):
        return "; numbers are whole, without a point, an exponent or -0"
    if definition == "type":
        return of_type(value)
    if definition in ("uid", "reference"):
        return of_id(value)
    if isinstance(value, dict) and definition in ("expression", "value", "time"):
        return of_operator(value, definition)
    if definition == "scope" and isinstance(value, dict) and "op" in value:
        return f"; here it is {MEMBERS['op']}"
    if definition == "two" and isinstance(value, dict):
        return "; here it is [left,right]"
    if isinstance(value, dict) and {"staticPolicies", "templates", "templateLinks"} & set(value):
        return "; a policy set of Cedar is brought into this form by scripts/from-cedar"
    if definition == "clause" and isinstance(value, dict) and "kind" in value:
        return f"; here it is {MEMBERS['kind']}"
    return ""


def of_type(value):
    if isinstance(value, str):
        return (
            f"; here it is {TYPES[value]}"
            if value in TYPES
            else near(value, KNOWN_TYPES) or f'; if it is a type of entities, it is {{"entity":{shown(value)}}}'
        )
    if isinstance(value, dict) and isinstance(value.get("type"), str):
        kind = value["type"]
        if kind == "Extension":
            return f"; here it is {shown(value.get('name'))}"
        if kind in ("Entity", "EntityOrCommon"):
            return f'; here it is {{"entity":{shown(value.get("name"))}}}, or the name of a basic type'
        return f"; here it is {TYPES.get(kind, shown(kind))}"
    return "; an optional attribute is no type" if isinstance(value, dict) and "optional" in value else ""


def of_id(value):
    if isinstance(value, str) and "::" in value:
        kind, _, eid = value.rpartition("::")
        return f"; here it is {shown([kind, eid.strip(chr(34))])}"
    if isinstance(value, str):
        return '; an id is a list of two, so a list of ids is [["Type","eid"],..]'
    if isinstance(value, dict):
        inner = value.get("__entity", value)
        inner = inner if isinstance(inner, dict) else {}
        if "type" in inner and "id" in inner:
            return f"; here it is {shown([inner['type'], inner['id']])}"
        if "id" in inner:
            return f"; here it is {shown(inner['id'])}"
    return ""


def of_operator(value, definition):
    """What was meant by an object that has none of the members of an expression or a value."""
    for name in value:
        if name in OPERATORS:
            return f"; {shown(name)} is written {OPERATORS[name]}"
    if set(value) == {"type", "id"}:
        return f'; an id is {{"id":{shown([value["type"], value["id"]])}}}'
    if definition == "value":
        return '; a record is {"record":{..}}'
    return "; one object has one operator" if len(value) > 1 else ""
