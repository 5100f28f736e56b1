"""Values that are not of their types: where inside an entity or a context, what is expected there, and what was found.
All of a document that has its form; the program reports the first alone, and no more than the attribute."""
import difflib
import json
from dataclasses import dataclass

from findings import uid

EXTENSIONS = {"decimal": "decimal", "ip": "ipaddr", "datetime": "datetime", "duration": "duration"}
MOST = 10  # so many names are listed
MOST_COMPARED, LONGEST_NAME = 200, 100


@dataclass(frozen=True)
class Misfit:
    """The path in the document, and what is wrong there."""

    path: tuple
    text: str


def near(name, known):
    """The known name that was probably meant, or None; of many known ones few are compared."""
    if len(name) > LONGEST_NAME:
        return None
    most = 2 + len(name) // 4
    pool = [one for one in known if abs(len(one) - len(name)) <= most and (one[:1] == name[:1] or one[-1:] == name[-1:])]
    found = difflib.get_close_matches(name, pool[:MOST_COMPARED], 1, 0.6)
    meant = found[0] if found else next((one for one in known if one.lower() == name.lower()), None)
    return meant if meant != name else None


def or_near(name, known):
    meant = near(name, known)
    return f"; did you mean `{meant}`?" if meant else ""


def quoted(text):
    return json.dumps(text, ensure_ascii=False)


def type_text(type_):
    """A type in words."""
    if isinstance(type_, str):
        return type_
    kind, inner = next(iter(type_.items()))
    if kind == "set":
        return f"a set of {type_text(inner)}"
    if kind == "entity":
        return f"an entity of type {inner}"
    names = sorted(name + "?" * is_optional(of) for name, of in inner.items())
    return "a record {" + ", ".join(names[:MOST]) + (", .." if len(names) > MOST else "") + "}"


def is_optional(type_):
    return isinstance(type_, dict) and "optional" in type_


def value_text(value):
    """A value in words."""
    if isinstance(value, bool):
        return f"the Bool {json.dumps(value)}"
    if isinstance(value, int):
        return f"the Long {value}"
    if isinstance(value, str):
        return f"the String {quoted(value if len(value) <= 60 else value[:60] + '..')}"
    if isinstance(value, list):
        return "a set"
    kind, inner = next(iter(value.items()))
    if kind == "id":
        return f"the entity {uid(inner)}"
    return "a record" if kind == "record" else f"the {EXTENSIONS[kind]} {quoted(inner)}"


class Types:
    """The types of a schema, against which values are held."""

    def __init__(self, schema):
        self.entities = schema.get("entityTypes", {})
        self.actions = {tuple(action["id"]): action for action in schema.get("actions", [])}
        self.listed = {name: type_["enum"] for name, type_ in self.entities.items() if "enum" in type_}

    def record(self, values, types, path):
        """The misfits of the values of a record, an entity or a context."""
        for name, type_ in types.items():
            if name not in values and not is_optional(type_):
                other = near(name, [one for one in values if one not in types])
                hint = f"; did you mean it by `{other}`?" if other else ""
                yield Misfit(path, f"the required attribute `{name}`, {type_text(type_)}, is missing{hint}")
        for name, value in values.items():
            if name in types:
                type_ = types[name]
                yield from self.value(value, type_["optional"] if is_optional(type_) else type_, (*path, name))
            else:
                yield Misfit((*path, name), f"the attribute `{name}` is not declared" + or_near(name, types))

    def value(self, value, type_, path):
        """The misfits in a value."""
        wrong = Misfit(path, f"expected {type_text(type_)}, found {value_text(value)}")
        if isinstance(type_, str):
            if not is_of(value, type_):
                yield wrong
            return
        kind, inner = next(iter(type_.items()))
        if kind == "set" and isinstance(value, list):
            for i, item in enumerate(value):
                yield from self.value(item, inner, (*path, i))
        elif kind == "record" and isinstance(value, dict) and "record" in value:
            yield from self.record(value["record"], inner, (*path, "record"))
        elif kind == "entity" and isinstance(value, dict) and value.get("id", [None])[0] == inner:
            yield from self.id(value["id"], path)
        else:
            yield wrong

    def id(self, id_, path):
        """The misfit of an id of an enumerated type that is not listed."""
        kind, eid = id_
        if kind in self.listed and eid not in self.listed[kind]:
            known = ", ".join(map(quoted, self.listed[kind][:MOST])) + (", .." if len(self.listed[kind]) > MOST else "")
            text = f"the type `{kind}` lists {known}, and not {quoted(eid)}" + or_near(eid, self.listed[kind])
            yield Misfit(path, text)

    def entity(self, entity, path):
        kind = entity["id"][0]
        if kind.rpartition("::")[2] == "Action":
            return
        if kind not in self.entities:
            text = f"the type `{kind}` of the entity {uid(entity['id'])} is not declared" + or_near(kind, self.entities)
            yield Misfit((*path, "id"), text)
            return
        yield from self.id(entity["id"], (*path, "id"))
        type_ = self.entities[kind]
        yield from self.record(entity.get("attrs", {}), type_.get("attributes", {}), (*path, "attrs"))
        for name, value in entity.get("tags", {}).items():
            if "tags" in type_:
                yield from self.value(value, type_["tags"], (*path, "tags", name))
            else:
                yield Misfit((*path, "tags", name), f"entities of type `{kind}` have no tags")

    def request(self, request, path):
        action = self.actions.get(tuple(request.get("action") or ()))
        for part in ("principal", "resource"):
            id_ = request.get(part)
            if id_ and id_[0] not in self.entities:
                text = f"the type `{id_[0]}` is not declared" + or_near(id_[0], self.entities)
                yield Misfit((*path, part), text)
            elif id_:
                yield from self.id(id_, (*path, part))
        if request.get("action") and action is None:
            ids = {uid(one): one for one in self.actions}
            text = f"the action {uid(request['action'])} is not declared" + or_near(uid(request["action"]), ids)
            yield Misfit((*path, "action"), text)
        if action is not None and request.get("context") is not None:
            yield from self.record(request["context"], action.get("context", {}), (*path, "context"))


def is_of(value, type_):
    """Whether a value is of a type that has no parts."""
    if type_ == "Bool":
        return isinstance(value, bool)
    if type_ == "Long":
        return isinstance(value, int) and not isinstance(value, bool)
    if type_ == "String":
        return isinstance(value, str)
    return isinstance(value, dict) and EXTENSIONS.get(next(iter(value))) == type_


def misfits_of(document, of_entities=True, of_requests=True):
    """The misfits of the entities and of the requests of a document that has its form."""
    types, found = Types(document["schema"]), []
    for i, entity in enumerate(document.get("entities", []) if of_entities else []):
        found += types.entity(entity, ("entities", i))
    if of_requests:
        found += types.request(document.get("request", {}), ("request",))
        for i, request in enumerate(document.get("requests", [])):
            found += types.request(request, ("requests", i))
    return found
