"""Writes a document's policies and schema in Cedar's text."""
from cedar import nodes
from cedar.objects import is_name
from cedar.tokens import RESERVED

WIDE = 100
OR, AND, RELATION, SUM, PRODUCT, UNARY, MEMBER = range(1, 8)
UNNEGATED = {operator: word for word, operator in nodes.NEGATED.items()}
BINARY = {"==": RELATION, "<": RELATION, "<=": RELATION, "in": RELATION, "+": SUM, "-": SUM, "*": PRODUCT}
ESCAPES = {"\n": "\\n", "\r": "\\r", "\t": "\\t", "\0": "\\0", "\\": "\\\\", '"': '\\"'}


class Unsayable(Exception):
    """What Cedar's form has no words for."""


def quoted(text, star="*"):
    return (
        '"'
        + "".join(
            ESCAPES.get(c) or (star if c == "*" else c if c.isprintable() else f"\\u{{{ord(c):x}}}") for c in text
        )
        + '"'
    )


def name(text):
    if not is_name(text):
        raise Unsayable(f"`{text}` is no name of Cedar")
    return text


def uid(u):
    kind, eid = u
    return f"{name(kind)}::{quoted(eid)}"


def key(text):
    """The name of an attribute, in quotes where it is no name."""
    return text if is_name(text, single=True) else quoted(text)


# Expressions: each is written with how tightly it holds together; a looser one is in parentheses.


def expression(e, level=0):
    text, own = written(e)
    return text if own >= level else f"({text})"


def written(e):
    if isinstance(e, bool):
        return ("true" if e else "false"), MEMBER
    if isinstance(e, int):
        return str(e), MEMBER if e >= 0 else UNARY
    if isinstance(e, str):
        return quoted(e), MEMBER
    if isinstance(e, list):
        return f"[{comma(e)}]", MEMBER
    if "at" in e:
        return written(e["of"])
    ((form, x),) = e.items()
    if form in ("all", "any") and len(x) > 1:
        mark, own = (" && ", AND) if form == "all" else (" || ", OR)
        return mark.join(expression(y, own + 1) for y in x), own
    if form in ("all", "any"):
        return written(x[0])
    if form == "not":
        return negated(bare(x))
    if form in BINARY:
        return binary(form, x, form), BINARY[form]
    return other(form, x)


def bare(e):
    while isinstance(e, dict) and "at" in e:
        e = e["of"]
    return e


def binary(form, x, word):
    own = BINARY[form]
    left, right = x
    return f"{expression(left, own + (own == RELATION))} {word} {expression(right, own + 1)}"


def negated(x):
    for operator, word in UNNEGATED.items():
        if isinstance(x, dict) and operator in x:
            return binary(operator, x[operator], word), RELATION
    return f"!{expression(x, MEMBER)}", UNARY


def comma(list_of):
    return ", ".join(expression(x) for x in list_of)


def other(form, x):
    if form == "neg":
        operand = bare(x)
        number = isinstance(operand, int) and not isinstance(operand, bool)
        return (f"-({expression(operand)})" if number else f"-{expression(operand, MEMBER)}"), UNARY
    if form == "id":
        return uid(x), MEMBER
    if form == "var":
        if x not in nodes.VARIABLES:
            raise Unsayable(f"there is no variable {x}")
        return x, MEMBER
    if form == "if":
        text = expression(x[-1])
        for i in range(len(x) - 3, -1, -2):
            text = f"if {expression(x[i])} then {expression(x[i + 1])} else {text}"
        return text, 0
    if form == "get":
        return (
            expression(x[0], MEMBER) + "".join(f".{n}" if is_name(n, single=True) else f"[{quoted(n)}]" for n in x[1:]),
            MEMBER,
        )
    if form == "has":
        return f"{expression(x[0], SUM)} has {key(x[1])}", RELATION
    if form == "is":
        return f"{expression(x[0], SUM)} is {name(x[1])}", RELATION
    if form == "like":
        return (
            f"{expression(x[0], SUM)} like "
            + '"'
            + "".join("*" if p is None else quoted(p, star="\\*")[1:-1] for p in x[1])
            + '"',
            RELATION,
        )
    if form == "record":
        return "{" + ", ".join(f"{key(k)}: {expression(y)}" for k, y in x.items()) + "}", MEMBER
    if form == "isEmpty":
        return f"{expression(x, MEMBER)}.isEmpty()", MEMBER
    return call(form, x), MEMBER


def call(form, x):
    function, arguments = (x[0], x[1:]) if form == "call" else (form, x)
    if form == "call" and function in nodes.CONSTRUCTORS:
        return f"{function}({comma(arguments)})"
    if form == "call" and function not in nodes.METHODS or form != "call" and form not in nodes.OPERATOR_METHODS:
        raise Unsayable(f"Cedar has no `{function}`")
    if not arguments:
        raise Unsayable(f"a call of `{function}` without an argument")
    return f"{expression(arguments[0], MEMBER)}.{function}({comma(arguments[1:])})"


# Policies.


def scope(own, part):
    if part is None:
        return own

    def reference(r):
        return f"?{own}" if r == "?" else uid(r)

    text = own
    if "is" in part:
        text += f" is {name(part['is'])}"
    if "==" in part:
        text += f" == {reference(part['=='])}"
    if "in" in part:
        text += " in " + (f"[{', '.join(map(uid, part['in']))}]" if own == "action" else reference(part["in"]))
    return text


def clause(kind, e):
    text = expression(e)
    e = bare(e)
    for form, mark, level in (("all", "&&", AND), ("any", "||", OR)):
        if len(text) > WIDE and isinstance(e, dict) and form in e and len(e[form]) > 1:
            text = f" {mark}\n  ".join(expression(y, level + 1) for y in e[form])
            return f"\n{kind} {{\n  {text}\n}}"
    return f"\n{kind} {{ {text} }}"


def policy(p):
    parts = [scope(own, p.get(own)) for own in ("principal", "action", "resource")]
    one_line = f"{p['effect']} ({', '.join(parts)})"
    several = f"{p['effect']} (\n  " + ",\n  ".join(parts) + "\n)"
    head = one_line if len(one_line) <= WIDE else several
    body = "".join(clause(kind, e) for c in p.get("body", []) for kind, e in c.items())
    return f"@id({quoted(p['id'])})\n{head}{body};\n"


# The schema.


class SchemaWriter:
    def __init__(self, schema):
        self.types, self.actions = schema.get("entityTypes", {}), schema.get("actions", [])
        self.declared = {name.rsplit("::", 1)[-1] for name in self.types}

    def type(self, t, indent):
        if isinstance(t, str):
            own = {"Bool": "Bool", "Long": "Long", "String": "String"}.get(t, t)
            return f"__cedar::{own}" if own in self.declared else own
        ((form, x),) = t.items()
        if form == "set":
            return f"Set<{self.type(x, indent)}>"
        return name(x) if form == "entity" else self.record(x, indent)

    def record(self, attributes, indent=""):
        if not attributes:
            return "{}"
        lines = []
        for k, t in attributes.items():
            optional = isinstance(t, dict) and "optional" in t
            lines.append(
                f"{indent}  {key(k)}{'?' if optional else ''}: {self.type(t['optional'] if optional else t, indent + '  ')}"
            )
        return "{\n" + ",\n".join(lines) + f"\n{indent}}}"

    def entity(self, full, t, indent):
        text = f"{indent}entity {full.rsplit('::', 1)[-1]}"
        if "enum" in t:
            return f"{text} enum [{', '.join(map(quoted, t['enum']))}];"
        text += self.above(map(name, t.get("memberOf", [])))
        text += f" = {self.record(t['attributes'], indent)}" if t.get("attributes") else ""
        return text + (f" tags {self.type(t['tags'], indent)}" if "tags" in t else "") + ";"

    def above(self, names):
        found = list(names)
        return f" in [{', '.join(found)}]" if found else ""

    def action(self, a, indent):
        text = f"{indent}action {key(a['id'][1])}" + self.above(map(uid, a.get("memberOf", [])))
        principals, resources = a.get("principals", []), a.get("resources", [])
        if not principals and not resources and not a.get("context"):
            return text + ";"
        parts = [f"principal: [{', '.join(map(name, principals))}]", f"resource: [{', '.join(map(name, resources))}]"]
        parts += [f"context: {self.record(a['context'], indent + '  ')}"] if a.get("context") else []
        return text + " appliesTo {\n" + ",\n".join(f"{indent}  {p}" for p in parts) + f"\n{indent}}};"

    def text(self):
        spaces = {}
        for full, t in self.types.items():
            if full.rsplit("::", 1)[-1] in RESERVED:
                raise Unsayable(f"`{full}` is no name of Cedar")
            spaces.setdefault(space_of(full), []).append((self.entity, (full, t)))
        for a in self.actions:
            if not nodes.is_action_type(a["id"][0]):
                raise Unsayable(f"an action of the type `{a['id'][0]}`")
            spaces.setdefault(space_of(a["id"][0]), []).append((self.action, (a,)))
        made = []
        for space, declared in spaces.items():
            indent = "  " if space else ""
            lines = [write(*parts, indent) for write, parts in declared]
            made.append("\n".join([f"namespace {name(space)} {{", *lines, "}"] if space else lines) + "\n")
        return "\n".join(made)


def space_of(full):
    return full.rpartition("::")[0]
