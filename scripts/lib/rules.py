"""The rules that a document keeps beside its form: declared names, distinct ids, templates and slots,
depths, and what is its own ancestor.

Each function takes the parts of a document that have the expected form, and gives faults (of `form`) with
their places."""
from form import Fault
from slips import near, shown

DEEPEST = 400


def schema_faults(schema):
    types, actions = schema.get("entityTypes", {}), schema.get("actions", [])
    ids = [tuple(action["id"]) for action in actions]
    found = []
    for name, declared in types.items():
        found += type_faults(name, declared, types)
    for i, action in enumerate(actions):
        found += action_faults(("schema", "actions", i), action, ids[:i], types, ids)
    direct = {}
    for id_, action in zip(ids, actions):
        direct.setdefault(id_, []).extend(tuple(above) for above in action.get("memberOf", []))
    found += [
        Fault(
            ("schema", "actions", ids.index(id_), "memberOf"),
            f"the action {shown(id_)} is, by its groups, its own member",
        )
        for id_ in on_cycles(direct)
    ]
    return found


def undeclared(name, types):
    return f"the type {shown(name)} is not declared{near(name, types)}"


def type_faults(name, declared, types):
    path = ("schema", "entityTypes", name)
    found = []
    if name.rsplit("::", 1)[-1] == "Action":
        found.append(
            Fault(path, "no type of entities may have the basename Action: actions are declared in `actions`", True)
        )
    if declared.get("enum") == []:
        found.append(Fault(path + ("enum",), "the type is enumerated and lists no id"))
    found += [
        Fault(path + ("memberOf", i), undeclared(above, types))
        for i, above in enumerate(declared.get("memberOf", []))
        if above not in types
    ]
    found += record_faults(declared.get("attributes", {}), path + ("attributes",), types)
    return found + (named_faults(declared["tags"], path + ("tags",), types) if "tags" in declared else [])


def record_faults(attributes, path, types):
    return [fault for name, type_ in attributes.items() for fault in named_faults(type_, path + (name,), types)]


def named_faults(type_, path, types):
    """The types that a type names and that are not declared."""
    if isinstance(type_, str):
        return []
    kind, inner = next(iter(type_.items()))
    if kind == "entity":
        return [] if inner in types else [Fault(path + (kind,), undeclared(inner, types))]
    return (record_faults if kind == "record" else named_faults)(inner, path + (kind,), types)


def action_faults(path, action, earlier, types, ids):
    found = []
    if tuple(action["id"]) in earlier:
        found.append(Fault(path + ("id",), f"an earlier action has the id {shown(action['id'])}"))
    if action["id"][0].rsplit("::", 1)[-1] != "Action":
        found.append(
            Fault(
                path + ("id", 0),
                f"the basename of an action's type is Action, and that of {shown(action['id'][0])} is another",
            )
        )
    for part in ("principals", "resources"):
        found += [
            Fault(path + (part, i), undeclared(name, types))
            for i, name in enumerate(action.get(part, []))
            if name not in types
        ]
    found += [
        Fault(path + ("memberOf", i), f"the action {shown(above)} is not declared")
        for i, above in enumerate(action.get("memberOf", []))
        if tuple(above) not in ids
    ]
    return found + record_faults(action.get("context", {}), path + ("context",), types)


def on_cycles(direct):
    """The keys that are reached from themselves by one step or more; steps to what is no key go
    nowhere. By Tarjan's algorithm, without recursion."""
    number, low, stack, on_stack, found = {}, {}, [], set(), set()
    for root in direct:
        work = [(root, iter(direct[root]))] if root not in number else []
        while work:
            node, following = work[-1]
            if node not in number:
                number[node] = low[node] = len(number)
                stack.append(node)
                on_stack.add(node)
            step = next((n for n in following if n in direct), None)
            if step is None:
                work.pop()
                if work:
                    low[work[-1][0]] = min(low[work[-1][0]], low[node])
                if low[node] == number[node]:
                    group = stack[stack.index(node) :]
                    del stack[len(stack) - len(group) :]
                    on_stack.difference_update(group)
                    found.update(group if len(group) > 1 or node in direct[node] else [])
            elif step not in number:
                work.append((step, iter(direct[step])))
            elif step in on_stack:
                low[node] = min(low[node], number[step])
    return [key for key in direct if key in found]


def policy_faults(policies):
    """The faults of policies; one that has not the expected form is None, except that its id may be
    known."""
    first, slots, found = {}, {}, []
    for i, policy in enumerate(policies):
        path = ("policies", i)
        if not isinstance(policy, dict):
            continue
        id_ = policy.get("id")
        if isinstance(id_, str):
            if first.setdefault(id_, i) != i:
                found.append(Fault(path + ("id",), f"policies[{first[id_]}] has this id, {shown(id_)}, already"))
            slots.setdefault(id_, slots_of(policy))
        if "link" in policy:
            found += link_faults(policy, path, slots, policies)
        elif "faulty" not in policy:
            found += depth_faults(policy, path)
    return found


def depth_faults(policy, path):
    """A condition that is nested too deep."""
    depth = depth_of(policy)
    if depth <= DEEPEST:
        return []
    why = f"the condition is nested {depth} deep, and {DEEPEST} is the most: `all` and `any` of n are nested n deep"
    return [Fault(path + ("body",), why)]


def edit_faults(edits):
    """The faults of edits, of which one that has not the expected form is None; which are refused, `live` says."""
    added = [(i, edit) for i, edit in enumerate(edits) if edit is not None and "effect" in edit]
    return [fault for i, edit in added for fault in depth_faults(edit, ("edits", i))]


def slots_of(policy):
    """The slots of a template; none of a static policy or a link; nothing known of what has not the expected
    form."""
    if "faulty" in policy:
        return None
    parts = ("principal", "resource") if "link" not in policy else ()
    return {part for part in parts if "?" in policy.get(part, {}).values()}


def link_faults(link, path, slots, policies):
    template = link["link"]
    expected = slots.get(template, set()) if template != link.get("id") else set()
    if expected is None:
        return []
    if not expected:
        later = any(isinstance(p, dict) and p.get("id") == template for p in policies[path[1] :])
        why = (
            "a static policy or a link has this id"
            if template in slots and template != link.get("id")
            else "it has to be earlier in the list"
            if later
            else "there is none" + near(template, slots)
        )
        return [Fault(path + ("link",), f"no template with the id {shown(template)}: {why}")]
    given = {part for part in ("principal", "resource") if part in link}
    found = [
        Fault(path, f"the template {shown(template)} has a slot for the {part}, and this link no id for it")
        for part in sorted(expected - given)
    ]
    return found + [
        Fault(path + (part,), f"the template {shown(template)} has no slot for the {part}", True)
        for part in sorted(given - expected)
    ]


def depth_of(policy):
    """How deep the condition of a policy is nested: ((principal && action) && resource) && body."""
    depth = 0
    for part in ("principal", "action", "resource"):
        scope = policy.get(part, {})
        own = 1 if not scope else 3 if len(scope) > 1 or (part == "action" and scope.get("in")) else 2
        depth = own if part == "principal" else 1 + max(depth, own)
    return 1 + max(depth, body_depth(policy.get("body", [])))


def body_depth(body):
    return (
        chain([depth(clause["when"]) if "when" in clause else 1 + depth(clause["unless"]) for clause in body])
        if body
        else 1
    )


def chain(depths):
    """The depth of operands that a binary operator joins from the left."""
    whole = depths[0]
    for other in depths[1:]:
        whole = 1 + max(whole, other)
    return whole


def depth(expression):
    """How deep an expression is nested."""
    if isinstance(expression, list):
        return 1 + max(map(depth, expression), default=0)
    if not isinstance(expression, dict):
        return 1
    if "of" in expression:
        return depth(expression["of"])
    kind, inner = next(iter(expression.items()))
    if kind in ("id", "var"):
        return 1
    if kind in ("all", "any"):
        return chain([depth(operand) for operand in inner])
    if kind == "if":
        return conditional_depth([depth(operand) for operand in inner])
    if kind == "get":
        return depth(inner[0]) + len(inner) - 1
    if kind in ("not", "neg", "isEmpty"):
        return 1 + depth(inner)
    if kind in ("has", "like", "is"):
        return 1 + depth(inner[0])
    operands = inner.values() if kind == "record" else inner[1:] if kind == "call" else inner
    return 1 + max(map(depth, operands), default=0)


def conditional_depth(depths):
    whole = depths[-1]
    for i in range(len(depths) - 3, -1, -2):
        whole = 1 + max(depths[i], depths[i + 1], whole)
    return whole


def entity_faults(entities):
    """The faults of stored entities; one that has not the expected form is None."""
    first, direct, found = {}, {}, []
    for i, entity in enumerate(entities):
        if entity is None:
            continue
        id_ = tuple(entity["id"])
        if first.setdefault(id_, i) != i:
            found.append(Fault(("entities", i, "id"), f"entities[{first[id_]}] has this id, {shown(id_)}, already"))
        direct.setdefault(id_, [tuple(parent) for parent in entity.get("parents", [])])
    found += [
        Fault(("entities", first[id_], "parents"), f"the entity {shown(id_)} is, by parents, its own ancestor")
        for id_ in on_cycles(direct)
    ]
    return found
