"""Random documents for the round trip, the same ones for the same seed. Most keep every rule; some
policies have faults."""
import random

PRIMITIVES = ("Bool", "Long", "String", "decimal", "ipaddr", "datetime", "duration")
TEXTS = (
    "",
    "a",
    "abc",
    "a*b",
    'q"uote',
    "new\nline",
    "\u00e9\U0001f95d",
    "nul\0",
    "back\\slash",
    "tab\t",
    "'",
    "\u200b",
    "\x7f",
)
EXTENSIONS = {
    "decimal": ("decimal", ("1.0", "-0.5", "922337203685477.5807")),
    "ipaddr": ("ip", ("10.0.0.1", "10.0.0.0/8", "::1", "ff00::/8")),
    "datetime": ("datetime", ("2024-10-15", "1969-12-31T23:59:59.999-2359", "0000-02-29")),
    "duration": ("duration", ("1d2h3m4s5ms", "-1h", "0s")),
}
LONGS = (0, 1, -1, 7, 100, -100, 9223372036854775807, -9223372036854775808)
ATTRIBUTES = ("a", "b", "name", "a b", "in", "permit", "\u00e9")
TYPES = ("User", "Group", "N::Doc", "N::M::Box")
PREDICATES = {
    "ipaddr": ("isIpv4", "isIpv6", "isLoopback", "isMulticast"),
    "decimal": ("lessThan", "greaterThanOrEqual"),
}


class Maker:
    def __init__(self, seed):
        self.r = random.Random(f"from-cedar {seed}")
        pick = self.r.random
        self.types = list(TYPES[: self.r.randint(2, 4)])
        self.enum = self.r.sample(["red", "green", 'b"l'], 2) if pick() < 0.4 else None
        self.names = self.types + (["Colour"] if self.enum else [])
        self.above = {t: [u for u in self.names if pick() < 0.3] for t in self.types}
        self.attributes = {t: self.attributes_of(2) for t in self.types}
        self.tags = {t: self.type(1) for t in self.types if pick() < 0.4}
        kind = "N::Action" if pick() < 0.2 else "Action"
        self.actions = [[kind, eid] for eid in self.r.sample(["view", "edit", "read it", "all"], self.r.randint(2, 4))]
        self.groups = {i: [b for b in self.actions[i + 1 :] if pick() < 0.4] for i in range(len(self.actions))}
        self.applies = [
            (self.r.choice(self.types), self.r.choice(self.names), self.attributes_of(2)) for _ in self.actions
        ]

    # Types and values.

    def type(self, depth):
        x = self.r.random()
        if x < 0.6 or depth == 0:
            return self.r.choice(PRIMITIVES)
        if x < 0.75:
            return {"entity": self.r.choice(self.names)}
        return {"set": self.type(depth - 1)} if x < 0.9 else {"record": self.attributes_of(depth - 1)}

    def attributes_of(self, depth):
        names = self.r.sample(ATTRIBUTES, self.r.randint(0, 4))
        return {n: {"optional": self.type(depth)} if self.r.random() < 0.3 else self.type(depth) for n in names}

    def uid(self, kind):
        return [kind, self.r.choice(self.enum if kind == "Colour" else ["u0", "u1", "u2", 'w"'])]

    def value(self, t, of_policy=False):
        """A value of a type; of a policy, as an expression."""
        if t == "Bool":
            return self.r.random() < 0.5
        if t == "Long":
            return self.r.choice(LONGS)
        if t == "String":
            return self.r.choice(TEXTS)
        if isinstance(t, str):
            function, texts = EXTENSIONS[t]
            return {"call": [function, self.r.choice(texts)]} if of_policy else {function: self.r.choice(texts)}
        if "set" in t:
            return [self.value(t["set"], of_policy) for _ in range(self.r.randint(int(of_policy), 3))]
        if "entity" in t:
            return {"id": self.uid(t["entity"])}
        return {"record": self.values(t["record"], of_policy)}

    def values(self, attributes, of_policy=False):
        made = {}
        for name, t in attributes.items():
            optional = isinstance(t, dict) and "optional" in t
            if not optional or self.r.random() < 0.5:
                made[name] = self.value(t["optional"] if optional else t, of_policy)
        return made

    # Expressions.

    def paths(self, env):
        """What the request's variables hold: a path's expression, its type, and what has to be tested
        for it."""
        principal, resource, context = self.applies[env]
        left = [
            ({"var": "principal"}, {"entity": principal}, []),
            ({"var": "resource"}, {"entity": resource}, []),
            ({"var": "context"}, {"record": context}, []),
        ]
        found = []
        while left and len(found) < 30:
            e, t, tests = left.pop(0)
            found.append((e, t, tests))
            inner = (
                self.attributes.get(t["entity"], {})
                if isinstance(t, dict) and "entity" in t
                else t.get("record", {})
                if isinstance(t, dict)
                else {}
            )
            for name, a in inner.items():
                step = {"get": e["get"] + [name]} if "get" in e else {"get": [e, name]}
                optional = isinstance(a, dict) and "optional" in a
                left.append(
                    (step, a["optional"] if optional else a, tests + [{"has": [e, name]}] if optional else tests)
                )
        return found

    def some(self, t, env):
        """An expression of a type, and what has to be tested for it."""
        fitting = [(e, tests) for e, of, tests in self.paths(env) if of == t]
        if fitting and self.r.random() < 0.7:
            return self.r.choice(fitting)
        if t == "Long" and self.r.random() < 0.4:
            return {self.r.choice("+-*"): [self.value("Long"), {"neg": self.value("Long")}]}, []
        return self.value(t, True), []

    def test(self, env):
        """A comparison or another test without parts that are tests."""
        e, t, tests = self.r.choice(self.paths(env))
        other, more = self.some(t, env)
        made = {"==": [e, other]}
        if t in ("Long", "datetime", "duration"):
            made = {self.r.choice(["<", "<=", "=="]): [e, other]}
        elif t == "String" and self.r.random() < 0.5:
            made, more = {"like": [e, self.r.choice([["a", None], [None, "*", None], [None, None], []])]}, []
        elif isinstance(t, str) and t in PREDICATES:
            name = self.r.choice(PREDICATES[t])
            made = {"call": [name, e] + ([other] if t == "decimal" else [])}
        elif isinstance(t, dict):
            made, more = self.structured(e, t, other, more)
        if t == "Bool" and self.r.random() < 0.5:
            made, more = e, []
        return {"all": tests + more + [made]} if tests or more else made

    def structured(self, e, t, other, more):
        x = self.r.random()
        if "set" in t:
            return (
                ({"isEmpty": e}, []) if x < 0.3 else ({self.r.choice(["containsAll", "containsAny"]): [e, other]}, more)
            )
        if "record" in t:
            return {"has": [e, self.r.choice(ATTRIBUTES)]}, []
        if x < 0.3:
            return {"is": [e, self.r.choice(self.names)]}, []
        if x < 0.6:
            return {
                "in": [
                    e,
                    [{"id": self.uid(n)} for n in self.names[:2]]
                    if x < 0.4
                    else {"id": self.uid(self.r.choice(self.names))},
                ]
            }, []
        if t["entity"] in self.tags and x < 0.9:
            tag = self.r.choice(TEXTS)
            return {
                "all": [{"hasTag": [e, tag]}, {"==": [{"getTag": [e, tag]}, self.value(self.tags[t["entity"]], True)]}]
            }, []
        return {"==": [e, other]}, more

    def boolean(self, env, depth):
        x = self.r.random()
        if depth == 0 or x < 0.3:
            return self.test(env)
        if x < 0.5:
            return {"not": self.boolean(env, depth - 1)}
        if x < 0.6:
            return {"if": [self.boolean(env, depth - 1) for _ in range(self.r.choice([3, 5]))]}
        return {self.r.choice(["all", "any"]): [self.boolean(env, depth - 1) for _ in range(self.r.randint(2, 4))]}

    # The document.

    def policy(self, i):
        env = self.r.randrange(len(self.actions))
        made = {
            "id": self.r.choice(["p", "a policy ", 'q" ']) + str(i),
            "effect": self.r.choice(["permit", "permit", "forbid"]),
            "principal": {"is": self.applies[env][0]},
            "action": {"==": self.actions[env]},
            "resource": {"is": self.applies[env][1]},
        }
        for own, kind in zip(("principal", "resource"), self.applies[env]):
            x = self.r.random()
            if x < 0.2:
                made[own]["in"] = self.uid(kind if x < 0.15 else self.r.choice(self.names))
            elif x < 0.3:
                del made[own]
            elif x < 0.4:
                made[own] = {self.r.choice(["==", "in"]): self.uid(kind)}
        if self.r.random() < 0.2:
            made["action"] = {"in": [self.actions[env]] + self.r.sample(self.actions, 1)}
        body = [
            {self.r.choice(["when", "unless"]): self.boolean(env, self.r.randint(0, 3))}
            for _ in range(self.r.randint(0, 2))
        ]
        return {**made, "body": body} if body else made

    def template(self, i):
        """A template, and a link of it."""
        made = self.policy(i)
        kinds = dict(
            zip(
                ("principal", "resource"),
                self.applies[self.actions.index(made["action"].get("==") or made["action"]["in"][0])],
            )
        )
        link = {"id": f"link {i}", "link": made["id"]}
        for own in ("principal", "resource"):
            if self.r.random() < 0.6 or own == "resource" and len(link) == 2:
                part = made.get(own, {})
                made[own] = (
                    {"is": part["is"], "in": "?"}
                    if "is" in part and self.r.random() < 0.4
                    else {self.r.choice(["==", "in"]): "?"}
                )
                link[own] = self.uid(kinds[own])
        return [made], [link]

    def entities(self):
        made = []
        for t in self.types:
            for eid in self.r.sample(["u0", "u1", "u2", 'w"'], self.r.randint(0, 3)):
                e = {"id": [t, eid], "attrs": self.values(self.attributes[t])}
                if t in self.tags and self.r.random() < 0.6:
                    e["tags"] = {self.r.choice(TEXTS): self.value(self.tags[t])}
                above = [u for u in self.above[t] if self.names.index(u) > self.names.index(t)]
                if above:
                    e["parents"] = [self.uid(self.r.choice(above))]
                made.append({k: x for k, x in e.items() if x})
        return made + [{"id": a, "parents": self.groups[i]} for i, a in enumerate(self.actions) if self.groups[i]]

    def schema(self):
        types = {
            t: {"memberOf": self.above[t], "attributes": self.attributes[t], "tags": self.tags.get(t)}
            for t in self.types
        }
        types = {t: {k: x for k, x in parts.items() if x} for t, parts in types.items()}
        if self.enum:
            types["Colour"] = {"enum": self.enum}
        actions = []
        for i, a in enumerate(self.actions):
            principal, resource, context = self.applies[i]
            made = {
                "id": a,
                "principals": [principal],
                "resources": [resource],
                "context": context,
                "memberOf": self.groups[i],
            }
            actions.append({k: x for k, x in made.items() if x})
        return {"entityTypes": types, "actions": actions}

    def document(self):
        templates, links = [], []
        for i in range(self.r.randint(0, 2)):
            made = self.template(100 + i)
            templates, links = templates + made[0], links + made[1]
        policies = [self.policy(i) for i in range(self.r.randint(1, 4))] + templates + links
        env = self.r.randrange(len(self.actions))
        principal, resource, context = self.applies[env]
        request = {
            "principal": self.uid(principal),
            "action": self.actions[env],
            "resource": self.uid(resource),
            "context": self.values(context),
        }
        return {"schema": self.schema(), "policies": policies, "entities": self.entities(), "request": request}


def document(seed):
    return Maker(seed).document()
