"""Reads entities and a request in Cedar's JSON; what Cedar lets out by the schema's types is put in."""
from cedar.extensions import FUNCTIONS, stands_for_value
from cedar.json_text import Number
from cedar.objects import extension_call, is_list, members, plain_uid, shown, uid


class Values:
    """Reads values by their types, which are as in the document, without `optional`; None for a type that is not
    known."""

    def __init__(self, report):
        self.report = report

    def value(self, v, t, place):
        if isinstance(v, (bool, int)):
            return v
        if isinstance(v, str):
            return self.extension(FUNCTIONS[t], v, place) if isinstance(t, str) and t in FUNCTIONS else v
        if isinstance(v, list):
            element = t.get("set") if isinstance(t, dict) else None
            return [self.value(x, element, place[i]) for i, x in enumerate(v)]
        if v is None:
            return self.report.no(place, "`null` is no value")
        if isinstance(v, Number):
            return self.report.no(place, f"{v.text} is no whole number of 64 bits")
        return self.object(v, t, place)

    def object(self, v, t, place):
        if "__expr" in v:
            return self.report.no(place, "`__expr` has no counterpart")
        if "__entity" in v or (isinstance(t, dict) and "entity" in t):
            return {"id": plain_uid(v) or uid(v, place, self.report)}
        if "__extn" in v or (isinstance(t, str) and t in FUNCTIONS):
            call = extension_call(v, place, self.report)
            return self.extension(*call, place) if call else None
        of = t.get("record", {}) if isinstance(t, dict) else {}
        return {"record": self.values(v, of, place)}

    def values(self, given, types, place):
        """Values under their names; the types are a table of types, or one function of the name."""
        of, made = types if callable(types) else types.get, {}
        for name, v in given.items():
            if isinstance(v, (bool, int)):
                made[name] = v
                continue
            t = of(name)
            t = t["optional"] if isinstance(t, dict) and "optional" in t else t
            is_plain = isinstance(v, str) and (isinstance(t, dict) or t not in FUNCTIONS)
            made[name] = v if is_plain else self.value(v, t, place[name])
        return made

    def extension(self, function, text, place):
        if not stands_for_value(function, text):
            return self.report.no(place, f"{shown(text)} is no text of `{function}` (docs/FORMAT.md, Values)")
        return {function: text}


def entity(e, place, schema, report):
    members(e, place, report, ("uid", "attrs", "parents"), ("tags",))
    if not isinstance(e, dict) or "uid" not in e:
        return None
    made = {"id": plain_uid(e["uid"]) or uid(e["uid"], place["uid"], report)}
    kind = made["id"][0] if made["id"] else None
    for member in ("attrs", "tags"):
        given = e.get(member)
        if given is None and member not in e or given == {}:
            continue
        if not isinstance(given, dict):
            report.no(place[member], f"expected an object, found {shown(given)}")
            continue
        tags = schema.tags.get(kind)
        types = schema.attributes.get(kind, {}) if member == "attrs" else lambda name: tags  # noqa: B023
        made[member] = Values(report).values(given, types, place[member])
    parents = e.get("parents", [])
    if not isinstance(parents, list):
        is_list(parents, place["parents"], report, "ids")
    elif parents:
        made["parents"] = [
            plain_uid(p) or uid(p, place["parents"][i], report) for i, p in enumerate(parents)
        ]
    return made


def store(value, top, schema, report, known):
    """The entities with their places, each id once; `known` has the places of those of other files."""
    if not is_list(value, top, report, "entities"):
        return []
    made = []
    for i, e in enumerate(value):
        found = entity(e, top[i], schema, report)
        if found and found["id"]:
            key = tuple(found["id"])
            if key in known:
                report.no(top[i]["uid"], f"two entities have this id; the other is at {known[key].short()}")
            known.setdefault(key, top[i])
            made.append((found, top[i]))
    return made


def missing_actions(made, schema, place, report):
    """The entities of actions that the schema puts below others and that are not there: Cedar adds them."""
    below = [a for a in schema.actions if "memberOf" in a]
    there = {tuple(e["id"]) for e in made} if below else ()
    added = [{"id": a["id"], "parents": a["memberOf"]} for a in below if tuple(a["id"]) not in there]
    if added:
        names = ", ".join(f"{kind}::{shown(eid)}" for kind, eid in (e["id"] for e in added))
        report.added(place, f"the entities of the actions that the schema puts below others: {names}")
    return added


PARTS = ("principal", "action", "resource")


def request(value, top, schema, report, optional=()):
    """A request; the parts that are optional may be absent, and are unknown then."""
    if isinstance(value, list):
        return report.no(top, "expected one request; a list of them is for `batch`")
    if not members(value, top, report, [part for part in (*PARTS, "context") if part not in optional], optional):
        return {}
    made = {part: uid(value[part], top[part], report, text=True) for part in PARTS if part in value}
    made["context"] = context(value["context"], made.get("action"), top["context"], schema, report)
    return made


def context(value, action, place, schema, report):
    if not isinstance(value, dict):
        return report.no(place, f"expected an object, found {shown(value)}")
    return Values(report).values(value, schema.contexts.get(tuple(action or ()), {}), place)
