"""Reads a schema in Cedar's text, and makes Cedar's JSON schema of it; the places of its parts are kept
beside."""
from cedar.nodes import is_action_type
from cedar.tokens import RESERVED, Reader, Stop

DEEPEST = 200
PARTS = {"entity": "entityTypes", "type": "commonTypes", "action": "actions"}


class SchemaReader(Reader):
    depth = 0

    def schema(self):
        self.places, self.made, self.spaces = {}, {}, set()
        while self.next.kind != "end":
            start = self.index
            try:
                annotations = self.annotations()
                if self.at("namespace"):
                    self.namespace(annotations)
                else:
                    self.declaration("", annotations)
            except Stop as stop:
                self.no(*stop.args)
                self.skip(start)
        return self.made

    def mark(self, path, token):
        self.places.setdefault(tuple(path), token.start)

    def find(self, _, path):
        """The offset of a path, as far as one is known."""
        path = tuple(path)
        while path and path not in self.places:
            path = path[:-1]
        return self.places.get(path, 0)

    def skip(self, start, inside=False):
        """From a fault to behind the declaration's `;`, to the brace that closes the namespace inside
        of which it is, or to the next namespace."""
        self.index = max(self.index, start + 1)
        marks = [t.text for t in self.tokens[start : self.index] if t.kind == "mark"]
        depth = marks.count("{") - marks.count("}")
        while self.next.kind != "end" and not self.at("namespace") and not (inside and depth <= 0 and self.at("}")):
            token = self.take()
            depth += {"{": 1, "}": -1}.get(token.text, 0)
            if token.text == ";":
                return

    def namespace(self, annotations):
        self.take()
        token = self.next
        space, text = self.path("a namespace")
        if text is not None:
            raise Stop(token, "expected a namespace, found an entity")
        if space in self.spaces:
            self.no(token, f"the namespace `{space}` is there twice")
        self.spaces.add(space)
        self.part(space, token, annotations)
        self.expect("{")
        while not self.at("}"):
            start = self.index
            try:
                self.declaration(space, self.annotations())
            except Stop as stop:
                if self.next.kind == "end":
                    raise
                self.no(*stop.args)
                self.skip(start, inside=True)
        self.expect("}")

    def part(self, space, token, annotations=None):
        if space not in self.made:
            self.made[space] = {member: {} for member in PARTS.values()}
            self.mark((space,), token)
        if annotations:
            self.made[space]["annotations"] = texts(annotations)
        return self.made[space]

    def declaration(self, space, annotations):
        token = self.next
        if not self.took(*PARTS):
            self.due("`entity`, `type`, `action`" + ("" if space else " or `namespace`"))
        member, self.depth = PARTS[token.text], 0
        if token.text == "type":
            names = [(self.next, self.name("a type's name"))]
        else:
            names = self.names(quoted=token.text == "action")
        known = self.part(space, token)[member]
        paths = []
        for at, name in names:
            if name in known:
                self.no(at, f"`{name}` is declared twice")
            # what is there where the rest has a fault
            known[name] = {"type": "Record", "attributes": {}} if token.text == "type" else {}
            paths.append((space, member, name))
            self.mark(paths[-1], at)
        made = getattr(self, token.text)(paths)
        self.expect(";")
        if annotations:
            made["annotations"] = texts(annotations)
        for _, name in names:
            known[name] = made

    def names(self, quoted):
        found = []
        while True:
            found.append(
                (self.next, self.name_or_text("an action's name") if quoted else self.name("an entity type's name"))
            )
            if not self.took(","):
                return found

    def name_or_text(self, what):
        if self.next.kind == "text":
            return self.unescaped(self.take())
        return self.name(f"{what} (a reserved word is written in quotes)", RESERVED)

    # What is declared. Each has one path or more, as one declaration may have several names.

    def note(self, paths, *steps, token=None):
        for path in paths:
            self.mark((*path, *steps), token or self.next)
        return [(*path, *steps) for path in paths]

    def entity(self, paths):
        made = {}
        if self.took("enum"):
            self.note(paths, "enum")
            self.expect("[")
            made["enum"] = self.separated(
                "]", lambda: self.unescaped(self.take()) if self.next.kind == "text" else self.due("a text in quotes")
            )
            return made
        if self.took("in"):
            made["memberOfTypes"] = self.entity_types(self.note(paths, "memberOfTypes"))
        equals = self.took("=")
        if equals or self.at("{"):
            made["shape"] = self.record(self.note(paths, "shape"))
        if self.took("tags"):
            made["tags"] = self.type_of(self.note(paths, "tags"))
        return made

    def type(self, paths):
        self.expect("=")
        return self.type_of(paths)

    def action(self, paths):
        made = {}
        if self.took("in"):
            made["memberOf"] = self.actions(self.note(paths, "memberOf"))
        if self.took("appliesTo"):
            made["appliesTo"] = self.applies_to(self.note(paths, "appliesTo"))
        if self.at("attributes"):
            raise Stop(self.next, "attributes of actions have no counterpart")
        return made

    def actions(self, paths):
        """The actions that one is a member of: names, texts, or entities with their type."""
        count = 0

        def one():
            nonlocal count
            self.note(paths, count)
            count += 1
            token = self.next
            if token.kind == "text":
                return {"id": self.unescaped(self.take())}
            kind, text = self.path("an action")
            if text is not None:
                if not is_action_type(kind):
                    self.no(token, f"no type of actions: `{kind}`")
                return {"type": kind, "id": self.unescaped(text)}
            if "::" in kind:
                raise Stop(token, f'expected an action as {kind}::"id"')
            return {"id": kind}

        return self.separated("]", one) if self.took("[") else [one()]

    def applies_to(self, paths):
        opening, made = self.expect("{"), {}

        def one():
            token = self.next
            if not self.took("principal", "resource", "context"):
                self.due("`principal`, `resource` or `context`")
            member = {"principal": "principalTypes", "resource": "resourceTypes"}.get(token.text, token.text)
            if member in made:
                self.no(token, f"`{token.text}` is there twice")
            self.expect(":")
            here = self.note(paths, member)
            made[member] = self.type_of(here) if member == "context" else self.entity_types(here)

        self.separated("}", one)
        for word in ("principal", "resource"):
            if f"{word}Types" not in made:
                self.no(opening, f"`{word}` is missing: Cedar needs `principal` and `resource`")
                made[f"{word}Types"] = []
        return made

    def entity_types(self, paths):
        count = 0

        def one():
            nonlocal count
            self.note(paths, count)
            count += 1
            return self.type_path()

        return self.separated("]", one) if self.took("[") else [one()]

    def type_path(self):
        """A type's name; Cedar's own are behind `__cedar::`."""
        if self.at("__cedar"):
            token = self.take()
            self.expect("::")
            return f"{token.text}::{self.name('a type')}"
        token = self.next
        name, text = self.path("a type")
        if text is not None:
            raise Stop(token, "expected a type, found an entity")
        return name

    def type_of(self, paths):
        self.depth += 1
        if self.depth > DEEPEST:
            raise Stop(self.next, f"a type that nests deeper than {DEEPEST}")
        if self.at("{"):
            made = self.record(paths)
        elif self.at("Set") and self.tokens[self.index + 1].text == "<":
            self.take()
            self.take()
            made = {"type": "Set", "element": self.type_of(self.note(paths, "element"))}
            self.expect(">")
        else:
            made = {"type": "EntityOrCommon", "name": self.type_path()}
        self.depth -= 1
        return made

    def record(self, paths):
        attributes = {}

        def one():
            annotations = self.annotations()
            token = self.next
            name = self.name_or_text("an attribute's name")
            if name in attributes:
                self.no(token, f"two attributes `{name}`")
            optional = self.took("?")
            self.expect(":")
            attributes[name] = made = self.type_of(self.note(paths, "attributes", name))
            if optional:
                made["required"] = False
            if annotations:
                made["annotations"] = texts(annotations)

        self.expect("{")
        self.separated("}", one)
        return {"type": "Record", "attributes": attributes}


def texts(annotations):
    return {name: text for name, (text, _) in annotations.items()}


def read(source, report):
    """Cedar's JSON schema; the source learns where its parts are."""
    reader = SchemaReader(source, report)
    value = reader.schema()
    source.finder = reader.find
    return value
