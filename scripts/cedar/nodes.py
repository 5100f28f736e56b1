"""Policies between their readers and the document: expressions as trees, each with its span in the
text, if it has one."""

VARIABLES = ("principal", "action", "resource", "context")
CONSTRUCTORS = ("ip", "decimal", "datetime", "duration")
METHODS = frozenset(
    """lessThan lessThanOrEqual greaterThan greaterThanOrEqual isIpv4 isIpv6 isLoopback isMulticast isInRange
offset durationSince toDate toTime toMilliseconds toSeconds toMinutes toHours toDays""".split()
)
OPERATOR_METHODS = {
    "contains": 1,
    "containsAll": 1,
    "containsAny": 1,
    "isEmpty": 0,
    "getTag": 1,
    "hasTag": 1,
}  # with their arguments
NEGATED = {"!=": "==", ">": "<=", ">=": "<"}  # as Cedar reads them: a > b is !(a <= b)
LONG = 1 << 63


class Node:
    """An expression: its form (the document's word for it, or `literal`, `set`), its parts, and its
    span or None.

    literal: a value. id: an entity's id. var: a name. all, any: two nodes. if: three. not, neg,
    isEmpty: one. get, has, is: a node and a name. like: a node and a pattern. set: nodes. record: pairs
    of a name and a node. call: a name, then nodes. Else: two nodes."""

    __slots__ = ("form", "parts", "span")

    def __init__(self, form, parts, span=None):
        self.form, self.parts, self.span = form, parts, span


class Policy:
    """A static policy or a template: its scope's parts are as in the document, absent ones are not
    there.

    `key` is its key in a policy set; of text `head` is the span from its effect to its scope's end, and
    `named_in_scope` has the spans of types and ids in the scope, by what the program prints of them."""

    head, named_in_scope = None, ()

    def __init__(self, name, effect, scope, clauses, place, key=None):
        self.name, self.effect, self.scope, self.clauses, self.place = name, effect, scope, clauses, place
        self.key = name if key is None else key

    def slots(self):
        return {part for part, scope in self.scope.items() if "?" in scope.values()}


class Link:
    """What a template makes: the template's key or name, and an id for each slot."""

    head = None

    def __init__(self, name, template, values, place):
        self.name, self.template, self.values, self.place = name, template, values, place


def comparison(operator, left, right, span=None):
    """The node of a binary operator of Cedar, also of those that the document writes with another
    one."""
    if operator in NEGATED:
        return Node("not", (Node(NEGATED[operator], (left, right), span),), span)
    return Node(operator, (left, right), span)


def has_path(left, names, span=None):
    """`e has a.b.c`: `e has a && e.a has b && e.a.b has c`."""
    made = None
    for name in names:
        test = Node("has", (left, name), span)
        made = test if made is None else Node("all", (made, test), span)
        left = Node("get", (left, name), span)
    return made


def is_in(left, kind, above, span=None):
    """`e is T in x`: `e is T && e in x`."""
    return Node("all", (Node("is", (left, kind), span), Node("in", (left, above), span)), span)


ESCAPES = {"\\": "\\\\", '"': '\\"', "\n": "\\n", "\r": "\\r", "\t": "\\t", "\0": "\\0"}


def printed(uid):
    """An id as the program prints it."""
    kind, eid = uid
    return f'{kind}::"' + "".join(ESCAPES.get(c, c) for c in eid) + '"'


def is_action_type(name):
    return name.rsplit("::", 1)[-1] == "Action"
