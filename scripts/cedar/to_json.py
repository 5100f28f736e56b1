"""Writes a document's parts in Cedar's JSON."""
import datetime

from cedar import nodes
from cedar.to_text import Unsayable, bare, name, space_of, uid as uid_text

UNARY = {"not": "!", "neg": "neg", "isEmpty": "isEmpty"}
FOLDED = {"all": "&&", "any": "||"}


def uid(u):
    kind, eid = u
    return {"type": name(kind), "id": eid}


# Expressions.


def both(operator, left, right):
    return {operator: {"left": left, "right": right}}


def expression(e):
    e = bare(e)
    if isinstance(e, list):
        return {"Set": [expression(x) for x in e]}
    if not isinstance(e, dict):
        return {"Value": e}
    ((form, x),) = e.items()
    if form == "id":
        return {"Value": {"__entity": uid(x)}}
    if form == "var":
        return {"Var": x}
    if form in FOLDED:
        made = expression(x[0])
        for y in x[1:]:
            made = both(FOLDED[form], made, expression(y))
        return made
    if form == "if":
        made = expression(x[-1])
        for i in range(len(x) - 3, -1, -2):
            made = {"if-then-else": {"if": expression(x[i]), "then": expression(x[i + 1]), "else": made}}
        return made
    if form in UNARY:
        return {UNARY[form]: {"arg": expression(x)}}
    return other(form, x)


def other(form, x):
    if form == "get":
        made = expression(x[0])
        for attribute in x[1:]:
            made = {".": {"left": made, "attr": attribute}}
        return made
    if form == "has":
        return {"has": {"left": expression(x[0]), "attr": x[1]}}
    if form == "like":
        return {
            "like": {"left": expression(x[0]), "pattern": ["Wildcard" if p is None else {"Literal": p} for p in x[1]]}
        }
    if form == "is":
        return {"is": {"left": expression(x[0]), "entity_type": name(x[1])}}
    if form == "record":
        return {"Record": {k: expression(y) for k, y in x.items()}}
    if form == "call":
        if x[0] not in nodes.CONSTRUCTORS and x[0] not in nodes.METHODS:
            raise Unsayable(f"Cedar has no `{x[0]}`")
        return {x[0]: [expression(y) for y in x[1:]]}
    left, right = x
    return both(form, expression(left), expression(right))


# Policies.


def scope(own, part):
    if part is None:
        return {"op": "All"}

    def reference(r):
        return {"slot": f"?{own}"} if r == "?" else {"entity": uid(r)}

    if "is" in part:
        return {"op": "is", "entity_type": name(part["is"]), **({"in": reference(part["in"])} if "in" in part else {})}
    if "in" in part and own == "action":
        return {"op": "in", "entities": [uid(u) for u in part["in"]]}
    ((operator, r),) = part.items()
    return {"op": operator, **reference(r)}


def is_template(p):
    return any("?" in p.get(own, {}).values() for own in ("principal", "resource"))


def policy(p):
    parts = {own: scope(own, p.get(own)) for own in ("principal", "action", "resource")}
    conditions = [{"kind": kind, "body": expression(e)} for c in p.get("body", []) for kind, e in c.items()]
    return {"effect": p["effect"], **parts, "conditions": conditions}


def values_of_link(p):
    return {f"?{slot}": p[slot] for slot in ("principal", "resource") if slot in p}


def policy_set(policies):
    made, known = {"staticPolicies": {}, "templates": {}, "templateLinks": []}, set()
    for p in policies:
        if p["id"] in known:
            raise Unsayable(f"two policies have the id `{p['id']}`")
        known.add(p["id"])
        if "link" in p:
            made["templateLinks"].append(
                {
                    "templateId": p["link"],
                    "newId": p["id"],
                    "values": {slot: {"__entity": uid(u)} for slot, u in values_of_link(p).items()},
                }
            )
        else:
            made["templates" if is_template(p) else "staticPolicies"][p["id"]] = policy(p)
    return made


def links(policies):
    """Links as the `cedar` command keeps them."""
    return [
        {
            "template_id": p["link"],
            "link_id": p["id"],
            "args": {slot: uid_text(u) for slot, u in values_of_link(p).items()},
        }
        for p in policies
        if "link" in p
    ]


# The schema.


def type_of(t):
    if isinstance(t, str):
        return (
            {"type": {"Bool": "Boolean"}.get(t, t)}
            if t in ("Bool", "Long", "String")
            else {"type": "Extension", "name": t}
        )
    ((form, x),) = t.items()
    if form == "set":
        return {"type": "Set", "element": type_of(x)}
    return {"type": "Entity", "name": name(x)} if form == "entity" else record(x)


def record(attributes):
    made = {}
    for k, t in attributes.items():
        optional = isinstance(t, dict) and "optional" in t
        made[k] = {**type_of(t["optional"]), "required": False} if optional else type_of(t)
    return {"type": "Record", "attributes": made}


def schema(given):
    made = {}

    def part(full):
        space = space_of(full)
        return made.setdefault(space and name(space), {"entityTypes": {}, "actions": {}})

    for full, t in given.get("entityTypes", {}).items():
        here = part(name(full))["entityTypes"]
        if "enum" in t:
            here[full.rsplit("::", 1)[-1]] = {"enum": t["enum"]}
            continue
        here[full.rsplit("::", 1)[-1]] = {
            "memberOfTypes": t.get("memberOf", []),
            "shape": record(t.get("attributes", {})),
            **({"tags": type_of(t["tags"])} if "tags" in t else {}),
        }
    for a in given.get("actions", []):
        kind, eid = a["id"]
        here = part(kind)["actions"]
        if not nodes.is_action_type(kind) or eid in here:
            raise Unsayable(f"the action {uid_text(a['id'])}, of a type that is no action's or declared twice")
        here[eid] = {"memberOf": [uid(m) for m in a.get("memberOf", [])]}
        if a.get("principals") or a.get("resources") or a.get("context"):
            here[eid]["appliesTo"] = {
                "principalTypes": a.get("principals", []),
                "resourceTypes": a.get("resources", []),
                "context": record(a.get("context", {})),
            }
    return made


# Values, entities, the request.

DAY = 86400000
FIRST = -719528  # the day 0000-01-01, counted from 1970-01-01
ERA = 146097  # the days of 400 years


def instant(milliseconds):
    """A datetime's text; Python's dates begin with the year 1, so the year 0 is taken 400 years on."""
    day, rest = divmod(milliseconds, DAY)
    shift = 400 if day < FIRST + 366 else 0
    if not FIRST <= day <= 2932896:
        raise Unsayable("a datetime outside the years 0000 to 9999")
    date = datetime.date.fromordinal(day + 719163 + (ERA if shift else 0))
    second, thousandth = divmod(rest, 1000)
    day = f"{date.year - shift:04}-{date.month:02}-{date.day:02}"
    return f"{day}T{second // 3600:02}:{second // 60 % 60:02}:{second % 60:02}.{thousandth:03}Z"


def value(v):
    if isinstance(v, list):
        return [value(x) for x in v]
    if not isinstance(v, dict):
        return v
    ((form, x),) = v.items()
    if form == "id":
        return {"__entity": uid(x)}
    if form == "record":
        if {"__entity", "__extn", "__expr"} & set(x):
            raise Unsayable("a record with a member that means something else in Cedar's JSON")
        return {k: value(y) for k, y in x.items()}
    if not isinstance(x, str):
        x = f"{x}ms" if form == "duration" else instant(x)
    return {"__extn": {"fn": form, "arg": x}}


def values(given):
    return {k: value(v) for k, v in given.items()}


def entity(e):
    return {
        "uid": uid(e["id"]),
        "attrs": values(e.get("attrs", {})),
        "parents": [uid(p) for p in e.get("parents", [])],
        **({"tags": values(e["tags"])} if e.get("tags") else {}),
    }


def request(r):
    parts = ("principal", "action", "resource")
    unknown = [part for part in (*parts, "context") if r.get(part) is None]
    if unknown:
        raise Unsayable(f"an unknown {unknown[0]}")
    return {**{part: uid_text(r[part]) for part in parts}, "context": values(r["context"])}
