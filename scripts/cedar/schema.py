"""Makes the document's schema of Cedar's JSON schema: names are resolved, common types are written
out."""
from cedar.extensions import FUNCTIONS
from cedar.nodes import is_action_type
from cedar.objects import is_list, is_name, is_text, members, shown
from misfits import or_near

PRIMITIVE = {"String": "String", "Long": "Long", "Bool": "Bool", "Boolean": "Bool"}
RESERVED_TYPES = frozenset(("Bool", "Boolean", "Entity", "Extension", "Long", "Record", "Set", "String"))
SLIPS = {"Boolean": "Bool", "boolean": "Bool", "Int": "Long", "Integer": "Long", "int": "Long", "Number": "Long"}
KINDS = {"Set": "element", "Entity": "name", "Extension": "name", "EntityOrCommon": "name"}
NESTED = 127  # so deep may JSON nest
DEEPEST = 60  # so deep may common types be one in another
MOST = 1000000  # so many parts may a schema have, common types written out


def qualified(name, space):
    return f"{space}::{name}" if space else name


def measured(value, known):
    """How many parts JSON has and how deep it nests; a part that is shared is counted at each place,
    and looked at once."""
    if not isinstance(value, (dict, list)):
        return 1, 0
    if id(value) not in known:
        inner = [measured(x, known) for x in (value.values() if isinstance(value, dict) else value)]
        known[id(value)] = (
            1 + sum(parts for parts, _ in inner),
            1 + max([height for _, height in inner], default=0),
            value,
        )
    return known[id(value)][:2]


def candidates(name, space):
    """What a name may mean, the nearest first: one of its own namespace, then one of the empty
    namespace."""
    return [f"{space}::{name}", name] if space and "::" not in name else [name]


class Schema:
    """What is declared, and what it means here. `attributes`, `tags` and `contexts` are the types of
    what entities and requests hold."""

    def __init__(self, report):
        self.report = report
        self.commons, self.resolved, self.open = {}, {}, []
        self.entities, self.action_ids, self.annotated = {}, {}, {}
        self.types, self.actions = {}, []
        self.attributes, self.tags, self.contexts = {}, {}, {}
        self.measures = {}

    def no(self, place, why):
        return self.report.no(place, why)

    def has(self, value, place, needed=(), known=()):
        if isinstance(value, dict) and value.get("annotations"):
            for name in value["annotations"] if isinstance(value["annotations"], dict) else ():
                self.annotated.setdefault(name, place)
        return members(value, place, self.report, needed, (*known, "annotations"))

    def read(self, value, top):
        if not members(value, top, self.report, (), value if isinstance(value, dict) else ()):
            return
        parts = [(space, part, top[space]) for space, part in value.items() if self.declare(space, part, top[space])]
        self.tell_shadows()
        for space, part, place in parts:
            for name in part.get("commonTypes", {}):
                self.common(qualified(name, space))
            for name, e in part.get("entityTypes", {}).items():
                self.entity(qualified(name, space), e, space, place["entityTypes"][name])
            for name, a in part.get("actions", {}).items():
                self.action(name, a, space, place["actions"][name])
        if measured([self.types, self.actions], self.measures)[0] > MOST:
            self.no(top, f"with its common types written out the schema has more than {MOST} parts")
        if self.annotated:
            self.report.dropped(
                next(iter(self.annotated.values())),
                "annotations of the schema: " + " ".join(f"@{name}" for name in self.annotated),
            )

    def declare(self, space, part, place):
        """Notes what a namespace declares."""
        if space and not is_name(space):
            return bool(self.no(place, f"no name of a namespace: {shown(space)}"))
        self.has(part, place, ("entityTypes", "actions"), ("commonTypes",))
        if not isinstance(part, dict):
            return False
        for member in ("commonTypes", "entityTypes", "actions"):
            if not isinstance(part.get(member, {}), dict):
                return bool(self.no(place[member], f"expected an object, found {shown(part[member])}"))
        for member, table in (("commonTypes", self.commons), ("entityTypes", self.entities)):
            for name, t in part.get(member, {}).items():
                at = place[member][name]
                if not is_name(name, single=True):
                    self.no(at, f"no name of a type: {shown(name)}")
                elif member == "commonTypes" and name in RESERVED_TYPES or name == "Action" and member == "entityTypes":
                    self.no(at, f"`{name}` can't be declared: it has a meaning of its own")
                table[qualified(name, space)] = (t, space, at)
        for name in part.get("actions", {}):
            self.action_ids[(qualified("Action", space), name)] = place["actions"][name]
        return True

    def tell_shadows(self):
        """What a namespace declares may not have a name that the empty namespace declares too."""
        empty = {name for table in (self.commons, self.entities) for name in table if "::" not in name}
        for table in (self.commons, self.entities):
            for name, (_, space, place) in table.items():
                if space and name.rsplit("::", 1)[-1] in empty:
                    self.no(
                        place,
                        f"`{name}` hides `{name.rsplit('::', 1)[-1]}` of the empty namespace, which Cedar refuses",
                    )
        for (kind, name), place in self.action_ids.items():
            if kind != "Action" and ("Action", name) in self.action_ids:
                hidden = f"the action {kind}::{shown(name)} hides Action::{shown(name)}"
                self.no(place, f"{hidden} of the empty namespace, which Cedar refuses")

    # Types.

    def entity_name(self, name, space, place):
        found = (
            next((full for full in candidates(name, space) if full in self.entities), None)
            if isinstance(name, str)
            else None
        )
        if found is None:
            near = or_near(name, self.entities) if isinstance(name, str) and not self.report.is_full else ""
            self.no(place, f"the entity type {shown(name)} is not declared{near}")
        return found

    def entity_names(self, names, space, place):
        """Names of entity types; one that is there twice counts once."""
        if not is_list(names, place, self.report, "entity types"):
            return []
        return list(dict.fromkeys(self.entity_name(n, space, place[i]) for i, n in enumerate(names)))

    def type(self, t, space, place, also=()):
        """The document's type, or None with a refusal."""
        if not isinstance(t, dict) or not isinstance(t.get("type"), str):
            return self.no(place, f"expected a type, found {shown(t)}")
        kind = t["type"]
        if kind == "Record":
            return {"record": self.record(t, space, place, also)}
        more = (KINDS[kind],) if kind in KINDS else ()
        if not self.has(t, place, ("type",) + more, also):
            return None
        if kind == "Set":
            return {"set": self.type(t["element"], space, place["element"])}
        if more and not is_text(t, place, self.report, "name"):
            return None
        if kind == "Entity":
            return {"entity": self.entity_name(t["name"], space, place["name"])}
        if kind == "Extension":
            return (
                t["name"]
                if t["name"] in FUNCTIONS
                else self.no(place["name"], f"there is no extension type {shown(t['name'])}")
            )
        if kind in PRIMITIVE and kind != "Bool":
            return PRIMITIVE[kind]
        return self.named(t["name"] if more else kind, space, place["name" if more else "type"], bool(more))

    def named(self, name, space, place, entities_too):
        for full in candidates(name, space):
            if full in self.commons:
                return self.common(full, place)
            if entities_too and full in self.entities:
                return {"entity": full}
        own = name[len("__cedar::") :] if name.startswith("__cedar::") else name
        if own in PRIMITIVE and own != "Boolean":
            return PRIMITIVE[own]
        return own if own in FUNCTIONS else self.no(place, f"there is no type `{name}`" + self.meant_type(name))

    def meant_type(self, name):
        """The type that was probably meant, as the end of a sentence."""
        if self.report.is_full:
            return ""
        if name in SLIPS:
            return f"; did you mean `{SLIPS[name]}`?"
        return or_near(name, [*self.commons, *self.entities, *PRIMITIVE, *FUNCTIONS])

    def common(self, full, place=None):
        """A common type's meaning, which is found out once."""
        if full in self.open:
            return self.no(place or self.commons[full][2], f"the common type `{full}` is defined by itself")
        if full not in self.resolved:
            body, home, at = self.commons[full]
            self.open.append(full)
            found = self.type(body, home, at) if len(self.open) <= DEEPEST else None
            if len(self.open) > DEEPEST or measured(found, self.measures)[1] > NESTED:
                found = self.no(at, "common types that nest too deep")
            self.resolved[full] = found
            self.open.pop()
        return self.resolved[full]

    def record(self, t, space, place, also=()):
        """The attributes of a record type."""
        self.has(t, place, ("type", "attributes"), ("additionalAttributes", *also))
        if t.get("additionalAttributes", False) is not False:
            self.no(place["additionalAttributes"], "records are closed here")
        given, made = t.get("attributes", {}), {}
        if not isinstance(given, dict):
            return self.no(place["attributes"], f"expected an object, found {shown(given)}") or {}
        for name, a in given.items():
            at = place["attributes"][name]
            found = self.type(a, space, at, also=("required",))
            required = a.get("required", True) if isinstance(a, dict) else True
            if not isinstance(required, bool):
                self.no(at["required"], f"expected true or false, found {shown(required)}")
            made[name] = found if required else {"optional": found}
        return made

    def attributes_of(self, t, space, place):
        """The attributes of a record type, or of a common type that is one."""
        if isinstance(t, dict) and t.get("type") == "Record":
            return self.record(t, space, place)
        found = self.type(t, space, place)
        if isinstance(found, dict) and "record" in found:
            return found["record"]
        return (found is not None and self.no(place, "expected a record type")) or {}

    # Declarations.

    def entity(self, full, e, space, place):
        if isinstance(e, dict) and "enum" in e:
            if self.has(e, place, ("enum",)) and is_list(e["enum"], place["enum"], self.report, "texts"):
                if not e["enum"] or not all(isinstance(x, str) for x in e["enum"]):
                    self.no(place["enum"], "expected one text or more")
                self.types[full] = {"enum": e["enum"]}
            return
        if not self.has(e, place, (), ("memberOfTypes", "shape", "tags")):
            return
        made = self.types[full] = {}
        above = self.entity_names(e.get("memberOfTypes", []), space, place["memberOfTypes"])
        if above:
            made["memberOf"] = above
        if "shape" in e:
            self.attributes[full] = self.attributes_of(e["shape"], space, place["shape"])
            if self.attributes[full]:
                made["attributes"] = self.attributes[full]
        if "tags" in e:
            made["tags"] = self.tags[full] = self.type(e["tags"], space, place["tags"])

    def action(self, name, a, space, place):
        if not self.has(a, place, (), ("memberOf", "appliesTo", "attributes")):
            return
        if a.get("attributes") not in (None, {}):
            self.no(place["attributes"], "attributes of actions have no counterpart")
        made = {"id": [qualified("Action", space), name]}
        applies, at = a.get("appliesTo"), place["appliesTo"]
        if applies is not None and self.has(applies, at, ("principalTypes", "resourceTypes"), ("context",)):
            made["principals"] = self.entity_names(applies["principalTypes"], space, at["principalTypes"])
            made["resources"] = self.entity_names(applies["resourceTypes"], space, at["resourceTypes"])
            if "context" in applies:
                self.contexts[tuple(made["id"])] = self.attributes_of(applies["context"], space, at["context"])
                if self.contexts[tuple(made["id"])]:
                    made["context"] = self.contexts[tuple(made["id"])]
        above = a.get("memberOf")
        if above is not None and is_list(above, place["memberOf"], self.report, "actions") and above:
            found = [self.above(m, space, place["memberOf"][i]) for i, m in enumerate(above)]
            made["memberOf"] = list({tuple(uid or ()): uid for uid in found}.values())
        self.actions.append(made)

    def above(self, m, space, place):
        """An action that another is a member of; without a type it is of the same namespace."""
        if not members(m, place, self.report, ("id",), ("type",)) or not is_text(m, place, self.report, "id"):
            return None
        given = m.get("type")
        if given is not None and not (is_name(given) and is_action_type(given)):
            return self.no(place["type"], f"no type of actions: {shown(given)}")
        for kind in candidates(given or "Action", space):
            if (kind, m["id"]) in self.action_ids:
                return [kind, m["id"]]
        near = "" if self.report.is_full else or_near(m["id"], [name for _, name in self.action_ids])
        return self.no(place, f"the action {shown(m['id'])} is not declared{near}")

    def document(self):
        return {"entityTypes": self.types, "actions": self.actions}
