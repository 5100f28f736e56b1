"""The form of a document: what in a value is not as docs/schema/document.schema.json has it, each fault
with its place."""
import json
import pathlib
import re

import slips
import values

SCHEMA = json.loads(
    (pathlib.Path(__file__).resolve().parents[2] / "docs/schema/document.schema.json").read_text(encoding="utf-8")
)
TYPES = {"object": dict, "array": list, "string": str, "integer": int, "null": type(None)}
EXPECTED = {
    "name": "the name of a type: components of letters, digits and _ joined by ::, none of them __cedar",
    "uid": 'an id, ["Type","eid"]',
    "reference": 'an id, ["Type","eid"], or "?", the slot of this part',
    "scope": '{"==":ID}, {"in":ID}, {"is":TYPE} or {"is":TYPE,"in":ID}',
    "clause": '{"when":EXPRESSION} or {"unless":EXPRESSION}',
    "attributes": "an object with the type of each attribute under its name",
    "type": '"Bool", "Long", "String", "decimal", "ipaddr", "datetime", "duration", {"set":TYPE}, {"entity":NAME} or '
    '{"record":{..}}',
    "whole": "a whole number of 64 bits",
    "values": "an object with a value under each name",
    "value": "true, false, a whole number, a text, a list, or an object with one of "
    '"id", "record", "decimal", "ip", "datetime", "duration"',
    "time": "a text, or a whole number of milliseconds",
    "expression": "true, false, a whole number, a text, a list, or an object with one operator",
    "expressions": "a list of one expression or more",
    "two": "a list of the left and the right operand",
    "place": "a number of bytes, to 4294967295",
    "request": "an object with a principal, an action, a resource and a context",
    "policy": 'an object with "id" and "effect"',
    "link": 'an object with "id" and "link"',
}
NOUNS = {
    "uid": "id",
    "reference": "id",
    "scope": "scope",
    "clause": "condition",
    "type": "type",
    "whole": "whole number of 64 bits",
    "value": "value",
    "time": "text or number of milliseconds",
    "expression": "expression",
    "two": "list of two operands",
    "name": "name of a type",
}
KINDS = {"object": "an object", "array": "a list", "string": "a text", "integer": "a whole number", "null": "null"}


class Fault:
    """What is wrong with the part at a path; with `name`, with the name of that member."""

    def __init__(self, path, what, name=False):
        self.path, self.what, self.name = path, what, name


def form_faults(value, schema=SCHEMA, path=(), definition=None):
    """The faults of a value against a schema; `definition` is the name of the definition that the
    schema is."""
    if "$ref" in schema:
        name = schema["$ref"].rsplit("/", 1)[1]
        return form_faults(value, SCHEMA["$defs"][name], path, name)
    if "anyOf" in schema:
        return nearest(value, schema, path, definition)
    if "enum" in schema:
        fits = any(type(value) is type(choice) and value == choice for choice in schema["enum"])
        return [] if fits else [unfit(value, path, definition, schema)]
    if "type" in schema and type(value) is not TYPES[schema["type"]]:
        return [unfit(value, path, definition, schema)]
    if isinstance(value, dict):
        return object_faults(value, schema, path, definition)
    if isinstance(value, list):
        return list_faults(value, schema, path, definition)
    fits = True
    if isinstance(value, str) and "pattern" in schema:
        fits = re.search(schema["pattern"].replace("$", r"\Z"), value) is not None
    if isinstance(value, int) and not isinstance(value, bool):
        fits = schema.get("minimum", value) <= value <= schema.get("maximum", value)
    return [] if fits else [unfit(value, path, definition, schema)]


def expected_of(schema):
    """What a schema expects, in a few words."""
    if "$ref" in schema:
        return EXPECTED[schema["$ref"].rsplit("/", 1)[1]]
    if "anyOf" in schema:
        return ", or ".join(map(expected_of, schema["anyOf"]))
    if "enum" in schema:
        return " or ".join(map(json.dumps, schema["enum"]))
    members = schema.get("required", [])
    return KINDS[schema["type"]] + (" with " + " and ".join(map(json.dumps, members)) if members else "")


def unfit(value, path, definition, schema):
    named = definition or next(
        (option["$ref"].rsplit("/", 1)[1] for option in schema.get("anyOf", []) if "$ref" in option), None
    )
    slip = slips.of_value(value, named)
    if slip and named in NOUNS:
        return Fault(path, f"{slips.shown(value)} is no {NOUNS[named]}{slip}")
    expected = EXPECTED[definition] if definition in EXPECTED else expected_of(schema)
    return Fault(path, f"expected {expected}; found {slips.shown(value)}{slip}")


def nearest(value, schema, path, definition):
    """None where one of the options fits; else the faults of the option that was most likely meant."""
    if definition in ("value", "expression") and isinstance(value, dict) and set(value) == {"type", "id"}:
        return [unfit(value, path, definition, schema)]  # an id, as Cedar's JSON has it
    meant = []
    for option in schema["anyOf"]:
        if resembles(value, option):
            meant.append(form_faults(value, option, path, definition))
            if not meant[-1]:
                return []
    if not meant and definition is None and isinstance(value, dict):
        return form_faults(value, schema["anyOf"][0], path)  # a type of entities
    if not meant:
        return [unfit(value, path, definition, schema)] + operand_faults(value, schema, path, definition)
    return min(meant, key=lambda faults: (sum(is_at(fault, path) for fault in faults), len(faults)))


def operand_faults(value, schema, path, definition):
    """The faults in what is under an operator that is written otherwise here."""
    if definition != "expression" or not isinstance(value, dict):
        return []
    lists = [(name, inner) for name, inner in value.items() if name in slips.OPERATORS and isinstance(inner, list)]
    return [
        fault
        for name, inner in lists
        for i, operand in enumerate(inner)
        for fault in form_faults(operand, schema, path + (name, i), definition)
    ]


def is_at(fault, path):
    """Whether a fault is in the members that an object has or lacks, and not deeper."""
    return fault.path == path or (fault.name and fault.path[:-1] == path)


def resembles(value, schema):
    """Whether a form may be the one that was meant: of the value's kind, and for an object with a
    member in common."""
    if "$ref" in schema:
        return resembles(value, SCHEMA["$defs"][schema["$ref"].rsplit("/", 1)[1]])
    if "anyOf" in schema:
        return any(resembles(value, option) for option in schema["anyOf"])
    if "enum" in schema:
        return any(type(choice) is type(value) and choice == value for choice in schema["enum"])
    if type(value) is not TYPES[schema["type"]]:
        return False
    return (
        not isinstance(value, dict)
        or not value
        or "properties" not in schema
        or not schema["properties"].keys().isdisjoint(value)
    )


def object_faults(value, schema, path, definition):
    known, others = schema.get("properties", {}), schema.get("additionalProperties", {})
    strange = [name for name in value if others is False and name not in known]
    found = [
        Fault(
            path + (name,),
            f"no member {slips.shown(name)} belongs here" + slips.of_member(name, known, definition),
            True,
        )
        for name in strange
    ]
    found += [
        Fault(path, f'the member "{name}" is missing') for name in schema.get("required", []) if name not in value
    ]
    for first, other in (pair["required"] for pair in schema.get("not", {}).get("anyOf", [])):
        if first in value and other in value:
            found.append(Fault(path + (other,), f'no command takes the member "{other}" beside "{first}"', True))
    least, most = schema.get("minProperties", 0), schema.get("maxProperties", len(value))
    if not strange and not least <= len(value) <= most:
        found.append(unfit(value, path, definition, schema))
    for name, inner in value.items():
        if name not in strange:
            found += name_faults(name, schema, path) + form_faults(inner, known.get(name, others), path + (name,))
            found += text_faults(name, inner, path) if definition == "value" else []
    return found


def name_faults(name, schema, path):
    if not form_faults(name, schema.get("propertyNames", {})):
        return []
    return [Fault(path + (name,), f"expected {EXPECTED['name']}; found {slips.shown(name)}", True)]


def text_faults(kind, text, path):
    """What is wrong with the text of a value of an extension."""
    wrong = values.READERS[kind](text) if kind in values.READERS and isinstance(text, str) else None
    return [Fault(path + (kind,), f"{slips.shown(text)} is no {kind}: {wrong}")] if wrong else []


def list_faults(value, schema, path, definition):
    first, rest = schema.get("prefixItems", []), schema.get("items", {})
    least, most = schema.get("minItems", 0), len(first) if rest is False else len(value)
    found = []
    if not least <= len(value) <= most:
        expected = EXPECTED.get(definition, f"a list of {least}{' or more' if rest is not False else ''}")
        found.append(Fault(path, f"expected {expected}; found a list of {len(value)}" + slips.of_value(value, definition)))
    elif path[-1:] == ("if",) and least == 3 and len(value) % 2 == 0:
        found.append(
            Fault(
                path,
                "expected an odd number of expressions, tests each with what it leads to and last what else; "
                f"found {len(value)}",
            )
        )
    elif path[-1:] == ("at",) and least == 2 and all(type(v) is int for v in value) and value[0] > value[1]:
        found.append(Fault(path, "the place ends before it begins"))
    for i, inner in enumerate(value[:most]):
        found += form_faults(inner, first[i] if i < len(first) else rest, path + (i,))
    return found
