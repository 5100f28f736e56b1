"""Reads policies in Cedar's JSON: a policy set (static policies, templates, links), one policy, or the
links of the `cedar` command."""
from cedar import nodes
from cedar.json_text import Number
from cedar.nodes import Node
from cedar.objects import extension_call, is_text, members, shown, type_name, uid

BINARY = frozenset(("==", "<", "<=", "+", "-", "*", "in", "contains", "containsAll", "containsAny", "hasTag", "getTag"))
DEEPEST = 400
SET_PARTS = ("staticPolicies", "templates", "templateLinks")


def read(value, top, report, before=0):
    """Static policies and templates, and links; other policies are before them."""
    if isinstance(value, dict) and "effect" in value:
        return [p for p in [PolicyReader(report).policy(f"policy{before}", value, top)] if p], []
    if not isinstance(value, dict):
        report.no(top, "policies as JSON are an object: a policy set, or one policy")
        return [], []
    members(value, top, report, SET_PARTS)
    found = []
    for part in SET_PARTS[:2]:
        here = value.get(part, {})
        if isinstance(here, dict):
            found += [in_part(part, key, p, top[part][key], report) for key, p in here.items()]
        else:
            report.no(top[part], "expected an object: policies by their ids")
    return [p for p in found if p], links(value.get("templateLinks", []), top["templateLinks"], report)


def in_part(part, key, value, place, report):
    """A policy of one of the two tables: a template has slots, a static policy has none."""
    found = PolicyReader(report).policy(key, value, place)
    if found and found.slots() and part == "staticPolicies":
        report.no(place, "a policy with a slot is a template, and is written under `templates`")
    if found and not found.slots() and part == "templates":
        report.no(place, "a policy without a slot is no template; it is written under `staticPolicies`")
    return found


def links(value, top, report):
    """Links as a policy set has them, and as `cedar link` writes them."""
    if isinstance(value, dict) and set(value) == {"templateLinks"}:
        value, top = value["templateLinks"], top["templateLinks"]
    if not isinstance(value, list):
        report.no(top, "expected a list of links")
        return []
    made = [one_link(v, top[i], report) for i, v in enumerate(value)]
    return [l for l in made if l]


def one_link(value, place, report):
    of_command = isinstance(value, dict) and "template_id" in value
    template, name, values = ("template_id", "link_id", "args") if of_command else ("templateId", "newId", "values")
    if not members(value, place, report, (template, name, values)) or not is_text(value, place, report, template, name):
        return None
    if not isinstance(value[values], dict):
        return report.no(place[values], "expected an object: ids by slots")
    made = {}
    for slot, u in value[values].items():
        if slot not in ("?principal", "?resource"):
            report.no(place[values][slot], "a slot is `?principal` or `?resource`")
        made[slot[1:]] = uid(u, place[values][slot], report, text=of_command)
    return nodes.Link(value[name], value[template], made, place)


class PolicyReader:
    def __init__(self, report):
        self.report, self.depth = report, 0

    def no(self, place, why):
        return self.report.no(place, why)

    def policy(self, key, p, place):
        parts = ("principal", "action", "resource")
        if not members(p, place, self.report, ("effect", *parts, "conditions"), ("annotations",)):
            return None
        if p["effect"] not in ("permit", "forbid"):
            self.no(place["effect"], "expected `permit` or `forbid`")
        scope = {}
        for own in parts:
            part = self.scope(p[own], own, place[own])
            if part:
                scope[own] = part
        clauses = self.clauses(p["conditions"], place["conditions"])
        return nodes.Policy(self.named(key, p.get("annotations", {}), place), p["effect"], scope, clauses, place, key)

    def named(self, key, annotations, place):
        if not isinstance(annotations, dict):
            self.no(place["annotations"], "expected an object")
            return key
        lost = " ".join(f"@{name}" for name in annotations if name != "id")
        if lost:
            self.report.dropped(place, lost)
        name = annotations.get("id", key)
        return name if isinstance(name, str) else self.no(place["annotations"]["id"], "`@id` without a text")

    def clauses(self, conditions, place):
        if not isinstance(conditions, list):
            self.no(place, "expected a list of conditions")
            return []
        found = []
        for i, c in enumerate(conditions):
            if members(c, place[i], self.report, ("kind", "body")):
                if c["kind"] not in ("when", "unless"):
                    self.no(place[i]["kind"], "expected `when` or `unless`")
                body = self.expr(c["body"], place[i]["body"])
                found.append(("unless" if c["kind"] == "unless" else "when", body))
        return found

    # The scope.

    def scope(self, s, own, place):
        op = s.get("op") if isinstance(s, dict) else None
        if op in ("All", "all") and members(s, place, self.report, ("op",)):
            return None
        if op == "==" and self.one_of(s, place, "op", "entity", "slot"):
            return {"==": self.reference(s, own, place)}
        if op == "in" and own == "action" and "entities" in s and members(s, place, self.report, ("op", "entities")):
            if not isinstance(s["entities"], list):
                return self.no(place["entities"], "expected a list of entities")
            return {"in": [self.action(u, place["entities"][i]) for i, u in enumerate(s["entities"])]}
        if op == "in" and self.one_of(s, place, "op", "entity", "slot"):
            reference = self.reference(s, own, place)
            return {"in": [reference] if own == "action" else reference}
        if op == "is" and own != "action" and members(s, place, self.report, ("op", "entity_type"), ("in",)):
            made = {"is": type_name(s["entity_type"], place["entity_type"], self.report)}
            if "in" in s and self.one_of(s["in"], place["in"], None, "entity", "slot"):
                made["in"] = self.reference(s["in"], own, place["in"])
            return made
        return self.no(place, f"no part of a scope: {shown(s)}")

    def one_of(self, s, place, also, *names):
        """An object with just one of these members."""
        there = [name for name in names if isinstance(s, dict) and name in s]
        if len(there) != 1:
            return self.no(place, "expected `entity` or `slot`")
        return members(s, place, self.report, tuple(there) + ((also,) if also else ()))

    def reference(self, s, own, place):
        if "slot" in s:
            if own == "action" or s["slot"] != f"?{own}":
                self.no(place["slot"], f"the slot {shown(s['slot'])} has no place in the part of {own}")
            return "?"
        return (
            self.action(s["entity"], place["entity"])
            if own == "action"
            else uid(s["entity"], place["entity"], self.report)
        )

    def action(self, u, place):
        made = uid(u, place, self.report)
        if made and not nodes.is_action_type(made[0]):
            self.no(place, f"an action's type is `Action`, or ends with `::Action`, and `{made[0]}` does not")
        return made

    # Expressions.

    def expr(self, e, place):
        self.depth += 1
        made = (
            self.no(place, f"an expression that nests deeper than {DEEPEST}")
            if self.depth > DEEPEST
            else self.one(e, place)
        )
        self.depth -= 1
        return made or Node("literal", (True,))

    def one(self, e, place):
        if not isinstance(e, dict) or len(e) != 1:
            return self.no(place, f"no expression, which is an object with one member: {shown(e)}")
        ((op, x),) = e.items()
        place = place[op]
        if op == "Value":
            return self.value(x, place)
        if op == "Var":
            return Node("var", (x,)) if x in nodes.VARIABLES else self.no(place, f"no variable: {shown(x)}")
        if op == "Slot":
            return self.no(place, "a slot may be in the scope only")
        if op in ("!", "neg", "isEmpty"):
            return (
                Node("not" if op == "!" else op, (self.expr(x["arg"], place["arg"]),))
                if members(x, place, self.report, ("arg",))
                else None
            )
        if op in ("&&", "||") or op in BINARY or op in nodes.NEGATED:
            if not members(x, place, self.report, ("left", "right")):
                return None
            word = {"&&": "all", "||": "any"}.get(op, op)
            return nodes.comparison(word, self.expr(x["left"], place["left"]), self.expr(x["right"], place["right"]))
        if op == "if-then-else":
            parts = ("if", "then", "else")
            return (
                Node("if", tuple(self.expr(x[p], place[p]) for p in parts))
                if members(x, place, self.report, parts)
                else None
            )
        return self.other(op, x, place)

    def other(self, op, x, place):
        if op in (".", "has"):
            if members(x, place, self.report, ("left", "attr")) and is_text(x, place, self.report, "attr"):
                return Node("get" if op == "." else op, (self.expr(x["left"], place["left"]), x["attr"]))
            return None
        if op == "like":
            if members(x, place, self.report, ("left", "pattern")):
                return Node("like", (self.expr(x["left"], place["left"]), self.pattern(x["pattern"], place["pattern"])))
            return None
        if op == "is":
            if not members(x, place, self.report, ("left", "entity_type"), ("in",)):
                return None
            left, kind = self.expr(x["left"], place["left"]), type_name(
                x["entity_type"], place["entity_type"], self.report
            )
            return nodes.is_in(left, kind, self.expr(x["in"], place["in"])) if "in" in x else Node("is", (left, kind))
        if op == "Set" and isinstance(x, list):
            return Node("set", tuple(self.expr(y, place[i]) for i, y in enumerate(x)))
        if op == "Record" and isinstance(x, dict):
            return Node("record", tuple((name, self.expr(y, place[name])) for name, y in x.items()))
        if (op in nodes.CONSTRUCTORS or op in nodes.METHODS) and isinstance(x, list):
            return Node("call", (op, *(self.expr(y, place[i]) for i, y in enumerate(x))))
        return self.no(place, f"`{op}` has no counterpart")

    def value(self, v, place):
        """A value in an expression: sets and records are literals of their parts, extension
        values are calls."""
        made = None
        if isinstance(v, (bool, int, str)):
            made = Node("literal", (v,))
        elif isinstance(v, list):
            made = Node("set", tuple(self.value(x, place[i]) for i, x in enumerate(v)))
        elif not isinstance(v, dict) or "__expr" in v:
            self.no(
                place,
                f"{v.text} is no whole number of 64 bits"
                if isinstance(v, Number)
                else f"no value of Cedar: {shown(v)}",
            )
        elif "__entity" in v:
            made = Node("id", (uid(v, place, self.report),))
        elif "__extn" in v:
            call = extension_call(v, place, self.report)
            made = Node("call", (call[0], Node("literal", (call[1],)))) if call else None
        else:
            made = Node("record", tuple((name, self.value(x, place[name])) for name, x in v.items()))
        return made or Node("literal", (True,))

    def pattern(self, p, place):
        if not isinstance(p, list):
            return self.no(place, 'a pattern is a list of "Wildcard" and {"Literal":text}')
        made = []
        for i, q in enumerate(p):
            if q == "Wildcard":
                made.append(None)
            elif isinstance(q, dict) and set(q) == {"Literal"} and isinstance(q["Literal"], str):
                if made and made[-1] is not None:
                    made[-1] += q["Literal"]
                elif q["Literal"]:
                    made.append(q["Literal"])
            else:
                self.no(place[i], f'expected "Wildcard" or {{"Literal":text}}, found {shown(q)}')
        return made
