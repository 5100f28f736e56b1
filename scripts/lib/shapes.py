"""Shapes of documents, each a function of a size: what there is SIZE of is what its text says. For
measurements of growth."""
import math

USER = {
    "memberOf": ["Group"],
    "attributes": {
        "dept": "String",
        "labels": {"set": "String"},
        "level": "Long",
        "manager": {"entity": "User"},
        "name": "String",
    },
    "tags": "String",
}
PHOTO = {"attributes": {"owner": {"entity": "User"}, "size": "Long", "title": "String"}}
TYPES = {"Group": {"memberOf": ["Group"]}, "User": USER, "Photo": PHOTO}
VIEW = {"id": ["Action", "view"], "principals": ["User"], "resources": ["Photo"]}
REQUEST = {"principal": ["User", "u1"], "action": ["Action", "view"], "resource": ["Photo", "x"], "context": {}}


def get(variable, *names):
    return {"get": [{"var": variable} if isinstance(variable, str) else variable, *names]}


def ref(kind, eid):
    return {"id": [kind, eid]}


def permit(i, when, **scope):
    return {"id": f"p{i}", "effect": "permit", **scope, "body": [{"when": when}]}


def user(i, group=0):
    attrs = {
        "dept": f"d{i % 7}",
        "labels": [f"l{i % 5}", f"l{i % 3}"],
        "level": i % 100,
        "manager": ref("User", f"u{i // 2}"),
        "name": f"n{i}",
    }
    return {"id": ["User", f"u{i}"], "attrs": attrs, "tags": {"t1": "a"}, "parents": [["Group", f"g{group}"]]}


def photo():
    return {"id": ["Photo", "x"], "attrs": {"owner": ref("User", "u1"), "size": 5, "title": "t"}}


def document(policies, entities=None, types=None, actions=None, request=None):
    return {
        "schema": {"entityTypes": types or TYPES, "actions": actions or [VIEW]},
        "policies": policies,
        "entities": [user(0), user(1), photo()] if entities is None else entities,
        "request": request or REQUEST,
    }


def with_attributes(attributes, **more):
    """The types, with these attributes more for users."""
    return TYPES | {"User": USER | {"attributes": USER["attributes"] | attributes}} | more


def halved(parts, operator):
    """One expression of all parts, joined in pairs, so that it is not nested deep."""
    if len(parts) == 1:
        return parts[0]
    middle = len(parts) // 2
    return {operator: [halved(parts[:middle], operator), halved(parts[middle:], operator)]}


def compared(i):
    return {
        "all": [
            {"==": [get("principal", "name"), f"n{i}"]},
            {"<": [get("principal", "manager", "level"), i]},
            {"==": [get("resource", "owner", "dept"), get("principal", "dept")]},
        ]
    }


def square(environments):
    """Types and an action with this many environments, a square number."""
    root = math.isqrt(environments)
    users, photos = [f"User{i}" for i in range(root)], [f"Photo{i}" for i in range(root)]
    types = {
        name: USER | {"memberOf": [], "attributes": USER["attributes"] | {"manager": {"entity": name}}}
        for name in users
    }
    types |= {
        name: {"attributes": PHOTO["attributes"] | {"owner": {"entity": owner}}} for name, owner in zip(photos, users)
    }
    request = REQUEST | {"principal": ["User0", "a"], "resource": ["Photo0", "x"]}
    return {
        "types": types,
        "actions": [VIEW | {"principals": users, "resources": photos}],
        "request": request,
        "entities": [],
    }


def users(size):
    """users, each in one of ten groups"""
    return document(
        [permit(i, {"<": [get("principal", "manager", "level"), i]}) for i in range(5)],
        [user(i, i % 10) for i in range(size)] + [photo()],
    )


def requests(size):
    """users, each with a request of its own"""
    made = users(size)
    del made["request"]
    return made | {"requests": [REQUEST | {"principal": ["User", f"u{i}"]} for i in range(size)]}


def members(size):
    """users, of whom one of twenty is in the group that a policy permits"""
    people = [{"id": ["User", f"u{i}"], "parents": [["Group", f"g{i % 20}"]]} for i in range(size)]
    types = {"Group": {}, "Photo": {}, "User": {"memberOf": ["Group"]}}
    return document([{"id": "p", "effect": "permit", "principal": {"in": ["Group", "g7"]}}], people, types)


def shared_photo(viewers):
    """A photo with a set of viewers, and the types for it."""
    types = TYPES | {"Photo": {"attributes": {"viewers": {"set": {"entity": "User"}}}}}
    photo_ = {"id": ["Photo", "x"], "attrs": {"viewers": [ref("User", f"u{i}") for i in viewers]}}
    return types, photo_


def viewers(size):
    """viewers of a photo, whom a quarter as many requests ask about, each by ten policies"""
    types, photo_ = shared_photo(range(size))
    made = document(
        [permit(i, {"contains": [get("resource", "viewers"), {"var": "principal"}]}) for i in range(10)], [photo_], types
    )
    del made["request"]
    return made | {"requests": [REQUEST | {"principal": ["User", f"u{3 * i}"]} for i in range(size // 4)]}


def access_list(size):
    """users, of whom each third may view a photo, and one of nine groups is kept out"""
    types, photo_ = shared_photo(range(0, size, 3))
    forbid = {"id": "f", "effect": "forbid", "principal": {"in": ["Group", "g7"]}}
    allow = permit(0, {"contains": [get("resource", "viewers"), {"var": "principal"}]})
    return document([allow, forbid], [user(i, i % 9) for i in range(size)] + [photo_], types)


def edits(size):
    """edits behind 500 that add a policy each: by turns one is removed and added again"""
    made = [permit(i, compared(i)) for i in range(500)]
    again = [edit for i in range(size // 2) for edit in ({"remove": f"p{i % 500}"}, made[i % 500])]
    whole = document([])
    del whole["policies"]
    return whole | {"edits": made + again}


def edits_in_100(size):
    """edits of policies in 100 environments: each is added, and each second one removed again"""
    made = [permit(i, compared(i)) for i in range(size)]
    whole = document([], **square(100))
    del whole["policies"]
    return whole | {"edits": made + [{"remove": f"p{i}"} for i in range(0, size, 2)]}


def policies(size):
    """policies of a few comparisons, in one environment"""
    return document([permit(i, compared(i)) for i in range(size)])


def scopes(size):
    """policies that have scopes alone"""
    scope = {"action": {"==": ["Action", "view"]}, "resource": {"==": ["Photo", "x"]}}
    return document(
        [{"id": f"p{i}", "effect": "permit", "principal": {"in": ["Group", f"g{i}"]}, **scope} for i in range(size)]
    )


def environments(size):
    """environments, in each of which 20 policies are typed"""
    return document([permit(i, compared(i)) for i in range(20)], **square(size))


def links(size):
    """links of one small template"""
    template = {"id": "t", "effect": "permit", "principal": {"in": "?"}, "body": [{"when": compared(1)}]}
    return document(
        [template] + [{"id": f"l{i}", "link": "t", "principal": ["Group", f"g{i % 50}"]} for i in range(size)]
    )


def links_of_large(size):
    """links of one template of 200 comparisons"""
    condition = halved([{"==": [get("principal", "name"), f"n{i}"]} for i in range(200)], "any")
    template = {"id": "t", "effect": "permit", "principal": {"==": "?"}, "body": [{"when": condition}]}
    return document([template] + [{"id": f"l{i}", "link": "t", "principal": ["User", f"u{i}"]} for i in range(size)])


def actions(size):
    """actions, and a policy for each of them"""
    made = [VIEW | {"id": ["Action", f"a{i}"]} for i in range(size)]
    return document(
        [permit(i, compared(i), action={"==": ["Action", f"a{i}"]}) for i in range(size)],
        actions=made,
        request=REQUEST | {"action": ["Action", "a0"]},
    )


def action_set(size):
    """actions, all of them listed in the scope of each of four policies"""
    ids = [["Action", f"a{i}"] for i in range(size)]
    return document(
        [{"id": f"p{i}", "effect": "permit", "action": {"in": ids}} for i in range(4)],
        actions=[VIEW | {"id": id_} for id_ in ids],
        request=REQUEST | {"action": ids[0]},
    )


def guards(size):
    """optional attributes, each tested and then read, in one condition"""
    reads = [
        {"all": [{"has": [{"var": "principal"}, f"a{i}"]}, {"==": [get("principal", f"a{i}"), i]}]} for i in range(size)
    ]
    return document(
        [permit(0, halved(reads, "all"))], types=with_attributes({f"a{i}": {"optional": "Long"} for i in range(size)})
    )


def same_guards(size):
    """optional attributes that both sides of one `||` test"""
    tests = halved([{"has": [{"var": "principal"}, f"a{i}"]} for i in range(size)], "all")
    return document(
        [permit(0, {"any": [tests, tests]})],
        types=with_attributes({f"a{i}": {"optional": "Long"} for i in range(size)}),
    )


def if_guards(size):
    """guards on an optional attribute of as many conditionals, each with another id in its test"""

    def chosen(i):
        principal = {"var": "principal"}
        return {"if": [{"==": [principal, {"id": ["User", str(i)]}]}, principal, principal]}

    reads = [{"all": [{"has": [chosen(i), "a"]}, {"<": [{"get": [chosen(i), "a"]}, i]}]} for i in range(size)]
    return document([permit(0, halved(reads, "all"))], types=with_attributes({"a": {"optional": "Long"}}))


def faults(size):
    """undeclared attributes that one policy reads"""
    return document([permit(0, halved([{"<": [get("principal", f"x{i}"), i]} for i in range(size)], "any"))])


def faults_in_25(size):
    """undeclared attributes that one policy reads, in 25 environments"""
    return document(
        [permit(0, halved([{"<": [get("principal", f"x{i}"), i]} for i in range(size)], "any"))], **square(25)
    )


def unknown_types(size):
    """undeclared types that one policy names"""
    return document(
        [permit(0, halved([{"==": [{"var": "principal"}, ref(f"No{i}", "x")]} for i in range(size)], "any"))]
    )


def chains(size):
    """policies that read 38 managers in turn"""
    return document([permit(i, {"<": [get("principal", *["manager"] * 38, "level"), i]}) for i in range(size)])


def distinct_paths(size):
    """attributes that are read, each by a policy of its own"""
    types = with_attributes({f"a{i}": {"record": {"x": "Long", "y": "Long"}} for i in range(size)})
    return document(
        [permit(i, {"<": [get("principal", "manager", f"a{i}", "x"), i]}) for i in range(size)],
        entities=[],
        types=types,
    )


def pattern(size):
    """characters of a text and of the text that `like` searches it for"""
    person = user(1)
    person["attrs"]["name"] = "a" * size
    return document(
        [permit(0, {"like": [get("principal", "name"), [None, "a" * (size // 2) + "b", None]]})],
        [person, user(0), photo()],
    )


def enumerated(size):
    """ids of an enumerated type, each in an attribute of a user"""
    color = {"Color": {"enum": [f"c{i}" for i in range(size)]}}
    people = [user(i) for i in range(size)]
    for i, person in enumerate(people):
        person["attrs"]["color"] = ref("Color", f"c{i}")
    return document(
        [permit(0, {"==": [get("principal", "color"), ref("Color", "c1")]})],
        people + [photo()],
        with_attributes({"color": {"entity": "Color"}}, **color),
    )


def tags_of_tags(size):
    """tags that a condition follows one after another, over users with ten tags each"""
    people = [
        user(i) | {"tags": {f"t{j}": ref("User", f"u{(i * 10 + j) % 200}") for j in range(10)}} for i in range(200)
    ]
    reached, tests = {"var": "principal"}, []
    for _ in range(size):
        tests.append({"hasTag": [reached, "t1"]})
        reached = {"getTag": [reached, "t1"]}
    types = TYPES | {"User": USER | {"tags": {"entity": "User"}}}
    return document([permit(0, {"all": tests + [{"<": [get(reached, "level"), 5]}]})], people + [photo()], types)


def group_chain(size):
    """groups, each below the next"""
    chain = [
        {"id": ["Group", f"g{i}"], "parents": [["Group", f"g{i + 1}"]] if i < size - 1 else []} for i in range(size)
    ]
    return document(
        [{"id": "p", "effect": "permit", "principal": {"in": ["Group", "g5"]}}], chain + [user(0), user(1), photo()]
    )


def type_chain(size):
    """types of entities, each below the next"""
    chain = {f"T{i}": {"memberOf": [f"T{i + 1}"] if i < size - 1 else []} for i in range(size)}
    return document([{"id": "p", "effect": "permit"}], types=TYPES | chain)


def action_chain(size):
    """Each action in the next, the request's in the first."""
    chain = [{"id": ["Action", f"a{i}"], "memberOf": [["Action", f"a{i + 1}"]] if i < size - 1 else []} for i in range(size)]
    return document(
        [{"id": "p", "effect": "permit", "action": {"in": [["Action", f"a{size - 1}"]]}}],
        actions=[VIEW | {"memberOf": [["Action", "a0"]]}, *chain],
    )


def records_in_set(size):
    """records in a set that is compared with itself"""
    person = user(1)
    person["attrs"]["all"] = [{"record": {"a": i * 7919 % 1000003, "b": f"x{i}"}} for i in range(size)]
    types = with_attributes({"all": {"optional": {"set": {"record": {"a": "Long", "b": "String"}}}}})
    test = {
        "all": [
            {"has": [{"var": "principal"}, "all"]},
            {"containsAll": [get("principal", "all"), get("principal", "all")]},
        ]
    }
    return document([permit(0, test)], [person, user(0), photo()], types)


def wide_record(size):
    """fields of a record that 20 policies compare"""
    types = with_attributes({"all": {"optional": {"record": {f"f{i}": "Long" for i in range(size)}}}})
    test = {"all": [{"has": [{"var": "principal"}, "all"]}, {"==": [get("principal", "all"), get("principal", "all")]}]}
    return document([permit(i, test) for i in range(20)], types=types)


def nested_values(size):
    """entities with a value that is nested 50 deep"""
    kind, value = "Long", 7
    for _ in range(50):
        kind, value = {"record": {"r": kind}}, {"record": {"r": value}}
    people = [user(i) for i in range(size)]
    for person in people:
        person["attrs"]["deep"] = value
    return document(
        [permit(0, {"<": [get("principal", "deep", *["r"] * 50), 5]})],
        people + [photo()],
        with_attributes({"deep": kind}),
    )


def ranges(size):
    """policies that test an IP address for a range"""
    action = VIEW | {"context": {"ip": "ipaddr"}}
    made = [
        permit(i, {"call": ["isInRange", get("context", "ip"), {"call": ["ip", f"10.{i % 250}.0.0/16"]}]})
        for i in range(size)
    ]
    return document(made, actions=[action], request=REQUEST | {"context": {"ip": {"ip": "10.0.0.1"}}})
