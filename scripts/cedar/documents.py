"""The document: writes policies as its JSON, tests how deep it nests, and puts it out."""
import json

from cedar.json_text import levels

NESTED = 127  # so deep may a document nest
MARK = "\n"  # between objects
AT_ONCE = 100  # so many are written in one call: fewer calls take more time, and so do longer texts
PLACES, CHAINS, PLAIN = "places", "chains", "plain"


class TooDeep(Exception):
    """An expression whose JSON nests deeper than is read."""


class Writer:
    """Writes one policy's expressions. PLACES: each has its `at`; CHAINS: those inside `.` and `if`
    chains have none; PLAIN: none has."""

    def __init__(self, source, mode):
        self.source, self.mode = source, mode

    def expression(self, node, room):
        """The JSON of a node, which may nest `room` deep."""
        placed = node.span is not None and self.mode != PLAIN
        made = self.form(node, room - 1 if placed else room)
        if not placed:
            return made
        if room < 2:
            raise TooDeep
        start, end = (self.source.base + self.source.byte(offset) for offset in node.span)
        return {"at": [start, end], "of": made}

    def form(self, node, room):
        form, parts = node.form, node.parts
        if form == "literal":
            return parts[0]
        if room < 2:
            raise TooDeep
        if form in ("id", "var"):
            return {form: parts[0]}
        if form == "set":
            return self.all_of(parts, room - 1)
        if form == "record":
            return {"record": {name: self.expression(x, room - 2) for name, x in parts}}
        if form in ("all", "any"):
            first, rest = self.spine(node, 0, flat=True)
            return {form: self.all_of([first] + [x.parts[1] for x in reversed(rest)], room - 2)}
        if form == "get":
            first, rest = self.spine(node, 0, flat=node.span is None or self.mode != PLACES)
            return {"get": [self.expression(first, room - 2)] + [x.parts[1] for x in reversed(rest)]}
        if form == "if":
            last, rest = self.spine(node, 2, flat=node.span is None or self.mode != PLACES)
            return {"if": self.all_of([x for n in rest for x in n.parts[:2]] + [last], room - 2)}
        if form in ("not", "neg", "isEmpty"):
            return {form: self.expression(parts[0], room - 1)}
        if form in ("has", "is", "like"):
            return {form: [self.expression(parts[0], room - 2), parts[1]]}
        if form == "call":
            return {"call": [parts[0]] + self.all_of(parts[1:], room - 2)}
        return {form: self.all_of(parts, room - 2)}

    def all_of(self, nodes, room):
        return [self.expression(x, room) for x in nodes]

    def spine(self, node, side, flat):
        """What a chain of nodes of one form begins (or ends) with, and its nodes from the outermost; of
        one node alone where it isn't flat."""
        form, found = node.form, [node]
        node = node.parts[side]
        while flat and node.form == form:
            found.append(node)
            node = node.parts[side]
        return node, found


def policy(p, report):
    """The JSON of a policy, with as many places as fit into the depth that is read."""
    for mode in (PLACES, CHAINS, PLAIN):
        writer = Writer(p.place.source, mode)
        try:
            body = [{kind: writer.expression(node, NESTED - 5)} for kind, node in p.clauses]
        except TooDeep:
            continue
        if mode == PLAIN and any(node.span for _, node in p.clauses):
            report.dropped(
                p.place, f"the places of policy `{p.name}`: with them its JSON would nest deeper than {NESTED}"
            )
        return {"id": p.name, "effect": p.effect, **p.scope, **({"body": body} if body else {})}
    return report.no(
        p.place,
        f"policy `{p.name}` has an expression whose JSON would nest deeper than {NESTED}, which is not read "
        "(chains of `&&`, of `||`, of `.` and of `if` nest no deeper than one of them)",
    )


def policies(static, links, report):
    """The document's policies: static ones and templates, then links; each id once, each slot of a
    template once."""
    made, known = [], {}

    def note(one):
        if one.name in known:
            report.no(
                one.place, f"two policies have the id `{one.name}`; the other is at {known[one.name].place.short()}"
            )
        known.setdefault(one.name, one)

    for p in static:
        note(p)
        made.append(policy(p, report))
    templates = {p.name: p for p in static if p.slots()}
    keys = {}  # in a policy set links go by keys
    for p in (p for p in static if p.slots()):
        if keys.setdefault(p.key, p) is not p:
            report.no(p.place, f"two templates have the key `{p.key}`; the other is at {keys[p.key].place.short()}")
    templates.update(keys)
    for l in links:
        note(l)
        template = templates.get(l.template)
        if template is None:
            report.no(l.place, f"there is no template with the id `{l.template}`")
            continue
        if template.slots() != set(l.values):
            expected = ", ".join(f"`?{s}`" for s in sorted(template.slots()))
            report.no(l.place, f"expected values for {expected}, the slots of the template `{l.template}`")
        made.append({"id": l.name, "link": template.name, **l.values})
    return made


def depth(value):
    """How deep JSON nests."""
    return sum(1 for _ in levels(value))


def text_of(document, in_one_line=False):
    """The document's text, with a line for each entity type, action, policy and entity, or in one line."""

    compact = json.JSONEncoder(ensure_ascii=False, check_circular=False, separators=(",", ":")).encode

    def lines(opening, items, closing):
        return opening + ("\n  " + ",\n  ".join(items) + "\n" if items else "") + closing

    def listed(items):
        return "[" + (f"\n  {in_lines(items, compact)}\n" if items else "") + "]"

    if in_one_line:
        return compact(document) + "\n"
    schema = document["schema"]
    types = lines("{", [f"{compact(name)}:{compact(t)}" for name, t in schema["entityTypes"].items()], "}")
    parts = [f'{{"schema":{{"entityTypes":{types},\n"actions":{listed(schema["actions"])}}}']
    parts += [f'"{member}":{listed(document[member])}' for member in ("policies", "entities") if member in document]
    parts += [f'"request":{compact(document["request"])}'] if "request" in document else []
    if "requests" in document:
        parts.append(f'"requests":{listed(document["requests"])}')
    return ",\n".join(parts) + "}\n"


def in_lines(items, compact):
    """The objects of a list, with a line for each."""
    return ",\n  ".join([joined(items[i : i + AT_ONCE], compact) for i in range(0, len(items), AT_ONCE)])


def joined(items, compact):
    """The same of a few objects, written in one call with a text between each two; where that text is inside of one as
    well, each object is written by itself."""
    marked = [MARK] * (2 * len(items) - 1)
    marked[::2] = items
    between, text = f",{compact(MARK)},", compact(marked)
    if text.count(between) == len(items) - 1:
        return text[1:-1].replace(between, ",\n  ")
    return ",\n  ".join(map(compact, items))
