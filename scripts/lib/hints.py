"""The name that was probably meant where a finding says that one is not known."""
import re

from findings import uid
from misfits import near

MOST = 100  # so many findings have a hint
LONGEST = 1000  # a longer text has no hint: its names are none that were written by hand
ATTRIBUTE = re.compile(r", attribute `(.*?)`(?: on entity types? `(.*)`| in context for (.*))? not found", re.DOTALL)
TYPE = re.compile(r", unrecognized entity type `(.*)`\Z", re.DOTALL)
ACTION = re.compile(r", unrecognized action `(.*)`\Z", re.DOTALL)
LISTED = re.compile(r": entity `(\S+?)::\".*\"` is of an enumerated entity type, but `\"(.*)\"` is not declared", re.DOTALL)
FUNCTION = re.compile(r", undefined extension function: (.*)\Z", re.DOTALL)
REQUEST_TYPE = re.compile(r"request: (?:principal|resource) type `(.*)` is not declared")
REQUEST_ACTION = re.compile(r"request: request's action `(.*)` is not declared", re.DOTALL)
FUNCTIONS = (
    "ip decimal datetime duration lessThan lessThanOrEqual greaterThan greaterThanOrEqual isIpv4 isIpv6 isLoopback "
    "isMulticast isInRange offset durationSince toDate toTime toMilliseconds toSeconds toMinutes toHours toDays"
).split()


def give(found, schema):
    """Gives findings their hints, the first of them at least."""
    hints = Hints(schema)
    for finding in found[:MOST]:
        finding.hint = hints.of(finding)
    return found


class Hints:
    """The names of a schema, in which the meant ones are looked up."""

    def __init__(self, schema):
        self.types = schema.get("entityTypes", {})
        self.actions = {uid(action["id"]): action for action in schema.get("actions", [])}
        self.all_attributes = None

    def of(self, finding):
        """`did you mean ..?`, or None."""
        if finding.kind == "TooDeep":
            return "in place of many `x == A || x == B` write `[A, B].contains(x)`, which nests no deeper"
        text = finding.text.removeprefix(f"for policy `{finding.policy}`")
        if len(text) > LONGEST:
            return None
        for pattern, known in (
            (TYPE, self.types),
            (ACTION, self.actions),
            (FUNCTION, FUNCTIONS),
            (REQUEST_TYPE, self.types),
            (REQUEST_ACTION, self.actions),
        ):
            found = pattern.match(text)
            if found:
                return asked(near(found[1], known))
        found = LISTED.match(text)
        if found:
            return asked(near(found[2], self.types.get(found[1], {}).get("enum", [])))
        found = ATTRIBUTE.match(text)
        return asked(self.attribute(*found.groups())) if found else None

    def attribute(self, access, types, action):
        """The attribute that was probably meant by the last name of an access, of the types that are named."""
        known = set(self.actions.get(action, {}).get("context", {}))
        for kind in types.split("`, `") if types else ():
            known |= set(self.types.get(kind, {}).get("attributes", {}))
        meant = near(access, known) if "." not in access else None
        return meant or near(access.rpartition(".")[2], self.everywhere())

    def everywhere(self):
        """The names of all attributes, those of records too."""
        if self.all_attributes is None:
            left = [type_.get("attributes", {}) for type_ in self.types.values()]
            left += [action.get("context", {}) for action in self.actions.values()]
            self.all_attributes = set()
            while left:
                attributes = left.pop()
                self.all_attributes |= set(attributes)
                left += [inner for type_ in attributes.values() for inner in records_in(type_)]
        return self.all_attributes


def records_in(type_):
    while isinstance(type_, dict):
        kind, inner = next(iter(type_.items()))
        if kind == "record":
            return [inner]
        type_ = inner if kind in ("optional", "set") else None
    return []


def asked(meant):
    return f"did you mean `{meant}`?" if meant else None
