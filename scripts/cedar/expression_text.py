"""Reads expressions in Cedar's text: `if`, `||`, `&&`, comparisons, sums, products, signs, members."""
from cedar import nodes
from cedar.nodes import Node
from cedar.tokens import Reader, Stop
from misfits import or_near

DEEPEST = 400
METHODS = sorted({*nodes.METHODS, *nodes.OPERATOR_METHODS})
COMPARISONS = ("==", "!=", "<", "<=", ">", ">=", "in")


class ExpressionReader(Reader):
    depth = 0

    def expr(self):
        self.depth += 1
        if self.depth > DEEPEST:
            raise Stop(self.next, f"an expression that nests deeper than {DEEPEST}")
        start = self.next.start
        if self.took("if"):
            parts = [self.expr()]
            for word in ("then", "else"):
                self.expect(word)
                parts.append(self.expr())
            made = self.node("if", tuple(parts), start)
        else:
            made = self.joined("||", "any", lambda: self.joined("&&", "all", self.relation))
        self.depth -= 1
        return made

    def node(self, form, parts, start):
        return Node(form, parts, (start, self.last_end))

    def joined(self, mark, form, below):
        start = self.next.start
        left = below()
        while self.took(mark):
            right = below()
            left = self.node(form, (left, right), start)
        return left

    def relation(self):
        start = self.next.start
        left = self.sum()
        word = self.next
        if self.at("="):
            raise Stop(word, "expected `==`, found `=`")
        if self.took(*COMPARISONS):
            right = self.sum()
            left = nodes.comparison(word.text, left, right, (start, self.last_end))
        elif self.took("has"):
            names = self.has_names()
            left = nodes.has_path(left, names, (start, self.last_end))
        elif self.took("like"):
            if self.next.kind != "text":
                self.due("a pattern in quotes")
            left = self.node("like", (left, self.unescaped(self.take(), pattern=True)), start)
        elif self.took("is"):
            kind = self.type_name()
            above = self.sum() if self.took("in") else None
            span = (start, self.last_end)
            left = nodes.is_in(left, kind, above, span) if above else Node("is", (left, kind), span)
        else:
            return left
        if self.at("=", "has", "like", "is", *COMPARISONS):
            both = f"`{word.text}` and `{self.next.text}`"
            raise Stop(self.next, f"{both} don't follow one another: parentheses are needed")
        return left

    def has_names(self):
        if self.next.kind == "text":
            return [self.unescaped(self.take())]
        names = [self.attribute()]
        while self.took("."):
            if len(names) == DEEPEST:
                raise Stop(self.next, f"more than {DEEPEST} names behind `has`")
            names.append(self.attribute())
        return names

    def attribute(self):
        return self.name('an attribute\'s name (a reserved word is written in quotes, as in e["in"])')

    def sum(self):
        start = self.next.start
        left = self.product()
        while self.at("+", "-"):
            sign = self.take().text
            right = self.product()
            left = self.node(sign, (left, right), start)
        return left

    def product(self):
        start = self.next.start
        left = self.unary()
        while self.at("*", "/", "%"):
            if not self.took("*"):
                raise Stop(self.next, f"Cedar has no `{self.next.text}`")
            right = self.unary()
            left = self.node("*", (left, right), start)
        return left

    def unary(self):
        signs = []
        while self.at("!", "-"):
            signs.append(self.take())
            if signs[-1].text != signs[0].text:
                raise Stop(signs[-1], "`!` and `-` can't be side by side: parentheses are needed")
            if len(signs) > 4:
                raise Stop(signs[-1], f"more than four `{signs[0].text}` in a row")
        if (
            self.next.kind == "number"
            and signs
            and signs[0].text == "-"
            and self.tokens[self.index + 1].text not in (".", "[", "(")
        ):
            made = self.number(self.take(), signs.pop())
        else:
            made = self.member()
        for sign in reversed(signs):
            made = self.node("not" if sign.text == "!" else "neg", (made,), sign.start)
        return made

    def number(self, token, sign=None):
        digits = token.text.lstrip("0") or "0"
        value = int(digits) if len(digits) < 20 else nodes.LONG + 1
        if value > (nodes.LONG if sign else nodes.LONG - 1):
            self.no(sign or token, "a number outside 64 bits")
        return self.node("literal", (-value if sign else value,), (sign or token).start)

    def member(self):
        start = self.next.start
        made = self.primary()
        while self.at(".", "[", "("):
            token = self.take()
            if token.text == "(":
                raise Stop(token, "this is no function")
            if token.text == "[":
                if self.next.kind != "text":
                    self.due("an attribute's name in quotes")
                name = self.unescaped(self.take())
                self.expect("]")
                made = self.node("get", (made, name), start)
                continue
            token = self.next
            name = self.attribute()
            made = self.method(made, name, token, start) if self.took("(") else self.node("get", (made, name), start)
        return made

    def method(self, left, name, token, start):
        arguments = self.separated(")", self.expr)
        if name in nodes.OPERATOR_METHODS:
            expected = nodes.OPERATOR_METHODS[name]
            if len(arguments) != expected:
                self.no(token, f"`{name}` takes {['no argument', 'one argument'][expected]}, not {len(arguments)}")
            return self.node(name, (left, *arguments), start)
        if name in nodes.CONSTRUCTORS:
            self.no(token, f"`{name}` is a function: {name}(..)")
        elif name not in nodes.METHODS:
            self.no(token, f"Cedar has no method `{name}`" + or_near(name, METHODS))
        return self.node("call", (name, left, *arguments), start)

    def primary(self):
        token = self.next
        if token.kind == "number":
            return self.number(self.take())
        if token.kind == "text":
            return self.node("literal", (self.unescaped(self.take()),), token.start)
        if token.kind == "slot":
            self.no(self.take(), "a slot may be in the scope only")
            return self.node("literal", (True,), token.start)
        if self.took("("):
            made = self.expr()
            self.expect(")")
            return made
        if self.took("["):
            return self.node("set", tuple(self.separated("]", self.expr)), token.start)
        if self.took("{"):
            return self.record(token)
        if self.took("true", "false"):
            return self.node("literal", (token.text == "true",), token.start)
        if self.at("if"):
            raise Stop(token, "`if` inside an operator: parentheses are needed")
        return self.named_primary(token)

    def named_primary(self, token):
        """An entity, a variable, or a call of a function."""
        name, text = self.path("an expression")
        if text is not None:
            return self.node("id", ([name, self.unescaped(text)],), token.start)
        if name in nodes.VARIABLES and not self.at("("):
            return self.node("var", (name,), token.start)
        if not self.took("("):
            raise Stop(token, f'`{name}` is no variable; an entity is written Type::"id", and a text is written in quotes')
        arguments = self.separated(")", self.expr)
        if name in nodes.METHODS or name in nodes.OPERATOR_METHODS:
            self.no(token, f"`{name}` is a method: e.{name}(..)")
        elif name not in nodes.CONSTRUCTORS:
            near = or_near(name, nodes.CONSTRUCTORS)
            unknown = "unknown values have no counterpart"
            self.no(token, unknown if name == "unknown" else f"Cedar has no function `{name}`{near}")
        return self.node("call", (name, *arguments), token.start)

    def record(self, opening):
        known = set()

        def one():
            token = self.next
            name = (
                self.unescaped(self.take())
                if token.kind == "text"
                else self.name("a member's name (a reserved word is written in quotes)")
            )
            if name in known:
                self.no(token, f"the record has two members `{name}`")
            known.add(name)
            self.expect(":")
            return name, self.expr()

        return self.node("record", tuple(self.separated("}", one)), opening.start)

    def type_name(self):
        token = self.next
        kind, text = self.path("a type")
        if text is not None:
            raise Stop(token, "expected a type, found an entity")
        return kind
