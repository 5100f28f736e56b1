"""What is legal in a document and likely wrong: findings of these scripts' own, of which the program
says nothing."""
import json
from collections import deque

from findings import Finding, uid


def habits_of(document):
    """The findings of a document that has its form."""
    policies, actions = document.get("policies", []), document["schema"].get("actions", [])
    found = unlisted_actions(document, actions, policies) + unknown_entries(document)
    return found + unlinked_templates(policies) + without_permit(policies) + idle_actions(actions)


def warning(kind, text, path, help=None, policy=None):
    return Finding("warning", kind, text, path, help=help, policy=policy)


MOST_GROUPS = 20  # so many groups a help lists


def above(id_, direct):
    """The groups of an action, of any number of steps, the nearest first; None where there are too many to list."""
    found, left = {}, deque(direct.get(id_, []))
    while left:
        group = left.popleft()
        if group not in found:
            found[group] = True
            left += direct.get(group, [])
            if len(found) > MOST_GROUPS:
                return None
    return list(found)


def nearest_above(direct, wanted):
    """For each action below one of the wanted groups the nearest of these."""
    members = {}
    for id_, groups in direct.items():
        for group in groups:
            members.setdefault(group, []).append(id_)
    found, left = {}, deque((group, group) for group in wanted)
    while left:
        group, top = left.popleft()
        for id_ in members.get(group, []):
            if id_ not in found:
                found[id_] = top
                left.append((id_, top))
    return found


def unlisted_actions(document, actions, policies):
    """Actions that are no entities here, so that they are in no group, though policies name a group of
    theirs."""
    if not any(document.get(part) for part in ("entities", "request", "requests")):
        return []
    direct = {tuple(action["id"]): [tuple(group) for group in action.get("memberOf", [])] for action in actions}
    stored = {tuple(entity["id"]) for entity in document.get("entities", [])}
    named = {}
    for policy in policies:
        for id_ in set(ids_in([policy.get("action"), policy.get("body")])):
            named.setdefault(id_, policy["id"])
    nearest, found = nearest_above(direct, named), []
    for i, action in enumerate(actions):
        id_ = tuple(action["id"])
        if id_ in nearest and id_ not in stored:
            group = nearest[id_]
            text = (
                f"action `{uid(id_)}` is not among the entities, so it is in no group when policies are "
                f"evaluated: `in` with `{uid(group)}` is false of it, as in policy `{named[group]}`"
            )
            groups = above(id_, direct)
            entity = compact({"id": action["id"], "parents": groups})
            help_ = None if groups is None else f"add to the entities {entity}"
            found.append(warning("UnlistedAction", text, ("schema", "actions", i), help_))
    return found


def compact(value):
    return json.dumps(value, ensure_ascii=False, separators=(",", ":"))


def ids_in(part):
    """All ids in a scope of actions or a body, as pairs."""
    if isinstance(part, list):
        if len(part) == 2 and all(isinstance(text, str) for text in part):
            yield tuple(part)
        for inner in part:
            yield from ids_in(inner)
    elif isinstance(part, dict):
        for inner in part.values():
            yield from ids_in(inner)


def unknown_entries(document):
    """Entries of the requests that are unknown, so that neither they are tested nor a decision is
    made."""
    if "requests" in document:
        return [
            found
            for i, request in enumerate(document["requests"])
            for found in unknown_in(request, ("requests", i), "`batch` decides nothing on it")
        ]
    if "request" not in document:
        text = "there is no request: `request` tests the entities alone, and `slice` and `decide` end with status 6"
        return [warning("UnknownRequest", text, ())] if document.get("entities") else []
    ends = "`request` does not test what is unknown, and `slice` and `decide` end with status 6"
    return unknown_in(document["request"], ("request",), ends)


def unknown_in(request, path, ends):
    """The entries of one request, which is at the path, that are unknown, and what follows."""
    unknown = [entry for entry in ("principal", "action", "resource", "context") if request.get(entry) is None]
    if not unknown:
        return []
    text = f"of the request {', '.join(unknown)} {'is' if len(unknown) == 1 else 'are'} unknown: {ends}"
    help_ = 'an empty context is "context":{}' if unknown == ["context"] else None
    return [warning("UnknownRequest", text, path, help_)]


def is_template(policy):
    return "link" not in policy and any("?" in policy.get(part, {}).values() for part in ("principal", "resource"))


def unlinked_templates(policies):
    linked = {policy["link"] for policy in policies if "link" in policy}
    return [
        warning(
            "UnlinkedTemplate",
            f"template `{policy['id']}` has no link, so it says nothing",
            ("policies", i),
            policy=policy["id"],
        )
        for i, policy in enumerate(policies)
        if is_template(policy) and policy["id"] not in linked
    ]


def without_permit(policies):
    """Policies of which none permits: no request can be allowed."""
    effects = {policy["id"]: policy["effect"] for policy in policies if "link" not in policy}
    deciding = [
        effects[policy["link"]] if "link" in policy else policy["effect"]
        for policy in policies
        if not is_template(policy)
    ]
    if not deciding or "permit" in deciding:
        return []
    return [warning("NoPermit", "no policy and no link permits, so that each request is denied", ("policies",))]


def idle_actions(actions):
    """Actions that apply to nothing and that are no groups."""
    groups = {tuple(group) for action in actions for group in action.get("memberOf", [])}
    found = []
    for i, action in enumerate(actions):
        lacks = [part for part in ("principals", "resources") if not action.get(part)]
        if lacks and tuple(action["id"]) not in groups:
            text = (
                f"action `{uid(action['id'])}` has no {' and no '.join(lacks)}, and is no group: it applies to nothing"
            )
            found.append(warning("IdleAction", text, ("schema", "actions", i)))
    return found
