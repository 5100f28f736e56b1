"""Reads policies in Cedar's text: `permit (principal, action, resource) when { .. };` and templates."""
from cedar import nodes
from cedar.expression_text import ExpressionReader
from cedar.tokens import Stop


class PolicyReader(ExpressionReader):
    def policies(self, before):
        """All policies of the text, which others are before; of one with a fault the rest is passed over, up to its
        `;`."""
        found = []
        while self.next.kind != "end":
            start, self.depth = self.index, 0
            try:
                found.append(self.policy(f"policy{before + len(found)}"))
            except Stop as stop:
                self.no(*stop.args)
                found.append(None)
                self.skip(start)
        return [p for p in found if p]

    def skip(self, start):
        """To behind the next `;`, or to where the next policy begins."""
        self.index = max(self.index, start + 1)
        while self.next.kind != "end":
            if self.at("permit", "forbid") and self.tokens[self.index + 1].text == "(" or self.take().text == ";":
                return

    def policy(self, name):
        start = self.next
        annotations = self.annotations()
        effect = self.next
        if not self.took("permit", "forbid"):
            self.due("`permit` or `forbid`")
        self.expect("(")
        scope, self.named_in_scope = {}, []
        for own in ("principal", "action", "resource"):
            part = self.scope(own)
            if part:
                scope[own] = part
            if own != "resource":
                self.expect(",")
        self.took(",")
        self.expect(")")
        head = (effect.start, self.last_end)
        clauses = self.clauses()
        self.expect(";")
        made = nodes.Policy(self.named(name, annotations, start), effect.text, scope, clauses, self.place(start))
        made.head, made.named_in_scope = head, self.named_in_scope
        return made

    def named(self, name, annotations, start):
        text, token = annotations.pop("id", (None, None))
        if token and text is None:
            self.no(token, "`@id` without a text")
        lost = " ".join(f"@{other}" for other in annotations)
        if lost:
            self.report.dropped(self.place(start), lost)
        return text if text is not None else name

    def clauses(self):
        found = []
        while self.at("when", "unless"):
            kind = self.take().text
            self.expect("{")
            start = self.index
            try:
                if self.at("}"):
                    self.due("an expression")
                found.append((kind, self.expr()))
                self.expect("}")
            except Stop as stop:
                if not self.skip_clause(start):
                    raise
                self.no(*stop.args)
        return found

    def skip_clause(self, start):
        """Goes on behind the brace that closes a clause with a fault; whether another clause or the end of the policy
        follows there."""
        depth, index = 1, start
        while depth and self.tokens[index].kind != "end" and self.tokens[index].text != ";":
            text = self.tokens[index].text
            depth += 1 if text == "{" else -1 if text == "}" else 0
            index += 1
        if depth or self.tokens[index].text not in ("when", "unless", ";"):
            return False
        self.index, self.depth = index, 0
        return True

    # The scope.

    def scope(self, own):
        self.expect(own)
        if self.at(":"):
            raise Stop(self.next, f"`{own}: Type` is an old form; write `{own} is Type`")
        if self.took("=="):
            return {"==": self.reference(own)}
        if own == "action":
            return self.actions() if self.took("in") else None
        if self.took("in"):
            return {"in": self.reference(own)}
        if self.took("is"):
            token = self.next
            made = {"is": self.type_name()}
            self.named_in_scope.append((made["is"], (token.start, self.last_end)))
            if self.took("in"):
                made["in"] = self.reference(own)
            return made
        return None

    def reference(self, own):
        token = self.next
        if token.kind == "slot":
            if own == "action" or token.text != f"?{own}":
                raise Stop(token, f"the slot `{token.text}` has no place in the part of {own}")
            self.take()
            return "?"
        uid = self.entity()
        return self.action(uid, token) if own == "action" else uid

    def actions(self):
        def one():
            token = self.next
            return self.action(self.entity(), token)

        return {"in": self.separated("]", one) if self.took("[") else [one()]}

    def action(self, uid, token):
        if not nodes.is_action_type(uid[0]):
            self.no(token, f"an action's type is `Action`, or ends with `::Action`, and `{uid[0]}` does not")
        return uid

    def entity(self):
        token = self.next
        kind, text = self.path("an entity")
        if text is None:
            raise Stop(token, f'expected an entity as Type::"id", found `{kind}`')
        uid = [kind, self.unescaped(text)]
        self.named_in_scope += [(printed, (token.start, self.last_end)) for printed in (kind, nodes.printed(uid))]
        return uid


def read(source, report, before=0):
    return PolicyReader(source, report).policies(before)
