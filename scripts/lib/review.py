"""What `review` says, as a table for people: which policies can be true on which actions, which never, and which
requests no permit reaches."""
import re
import secrets
from dataclasses import dataclass

from findings import Broken, ask, put_back, uid, with_ids
from visible import visible

VERDICT = re.compile(r"(may|never) (\w+): ([\w:]+), (.*), ([\w:]+)")
LEVEL = re.compile(r"level (\w+): (\w+)")
MOST = 20  # so many types of requests are listed


@dataclass
class Review:
    """The verdicts by policy and type of requests, and the levels; policies are given by their places in the list."""

    policies: list
    may: dict  # of a place the types of requests on which it may be true
    levels: dict
    environments: list

    def effect(self, place):
        policy = self.policies[place]
        if "link" in policy:
            return next(one["effect"] for one in self.policies if one["id"] == policy["link"])
        return policy["effect"]

    def never(self):
        return [place for place, true_on in self.may.items() if not true_on]

    def unreached(self):
        """The types of requests on which no permit may be true."""
        reached = set()
        for place, true_on in self.may.items():
            if self.effect(place) == "permit":
                reached |= true_on
        return [one for one in self.environments if one not in reached]

    def level(self, place):
        policy = self.policies[place]
        places = {one["id"]: i for i, one in enumerate(self.policies)}
        return self.levels.get(place, self.levels.get(places.get(policy.get("link")), ""))


def reviewed(program, document, ask=ask):
    """What the program's `review` says. Policies are asked about by ids that nobody can have foreseen, as true ones may
    hold any text."""
    token, policies = secrets.token_hex(8) + "x", document.get("policies", [])
    renamed = document | {"policies": with_ids(policies, token)}
    status, reported = ask(program, ["review"], renamed)
    if status != 0:
        raise Broken(status, f"review ended with {status}: {put_back(reported, token, [one['id'] for one in policies])}")
    may, levels, environments = {}, {}, {}
    for line in reported.split("\n"):
        found, level = VERDICT.fullmatch(line), LEVEL.fullmatch(line)
        if found:
            environment = found[4], found[3], found[5]
            environments[environment] = True
            may.setdefault(int(found[2].removeprefix(token)), set()).update({environment} if found[1] == "may" else ())
        elif level:
            levels[int(level[1].removeprefix(token))] = level[2]
    order = sorted(may, key=lambda place: policies[place]["id"])
    return Review(policies, {place: may[place] for place in order}, levels, sorted(environments))


def as_table(review):
    """The review in numbers: of each policy and action, on how many types of requests it may be true."""
    actions = by_action(review)
    rows = [
        {
            "policy": review.policies[place]["id"],
            "effect": review.effect(place),
            "counts": [len(true_on.intersection(of_action)) for of_action in actions.values()],
            "level": review.level(place),
        }
        for place, true_on in review.may.items()
    ]
    return {
        "actions": [{"action": action, "most": len(of_action)} for action, of_action in actions.items()],
        "rows": rows,
        "never": [review.policies[place]["id"] for place in review.never()],
        "unreached": [f"{action}: {principal} on {resource}" for action, principal, resource in review.unreached()],
    }


def by_action(review):
    """The types of requests by their actions."""
    actions = {}
    for environment in review.environments:
        actions.setdefault(environment[0], []).append(environment)
    return actions


def cell(true_on, of_action):
    """`x` where a policy may be true on all types of requests of an action, `.` on none, else on how many of them."""
    count = len(true_on.intersection(of_action))
    return "." if not count else "x" if count == len(of_action) else f"{count}/{len(of_action)}"


def table(program, document):
    """The review as a text of lines."""
    review = reviewed(program, document)
    actions = by_action(review)
    lines = ["actions:"] + [f"  {i}  {visible(action)}" for i, action in enumerate(actions, 1)]
    rows = [["policy", "effect", *(str(i) for i in range(1, len(actions) + 1)), "level"]]
    for place, true_on in review.may.items():
        cells = [cell(true_on, of_action) for of_action in actions.values()]
        rows.append([visible(review.policies[place]["id"]), review.effect(place), *cells, review.level(place)])
    widths = [max(map(len, column)) for column in zip(*rows)]
    lines += ["", *("  ".join(text.ljust(wide) for text, wide in zip(row, widths)).rstrip() for row in rows)]
    lines += listed("never true", [visible(review.policies[place]["id"]) for place in review.never()])
    unreached = [f"{visible(action)}: {principal} on {resource}" for action, principal, resource in review.unreached()]
    return "\n".join(lines + listed("no permit reaches, so always Deny", unreached)) + "\n"


def listed(title, found):
    if not found:
        return ["", f"{title}: none"]
    more = [f"  .. {len(found) - MOST} more"] if len(found) > MOST else []
    return ["", f"{title}:", *(f"  {one}" for one in found[:MOST]), *more]
