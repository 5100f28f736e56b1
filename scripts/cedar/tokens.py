"""The words of Cedar's texts: policies and schemas are made of the same ones."""
import re
from collections import namedtuple

from cedar.places import Place

SPACE = "[\t\n\x0b\x0c\r \x85\xa0\u1680\u2000-\u200a\u2028\u2029\u202f\u205f\u3000]"
TOKEN = re.compile(
    "|".join(
        (
            rf"(?P<space>(?:{SPACE}+|//[^\n\r]*)+)",
            r"(?P<name>[A-Za-z_][A-Za-z0-9_]*)",
            r"(?P<slot>\?[A-Za-z_][A-Za-z0-9_]*)",
            r"(?P<number>[0-9]+)",
            r'(?P<text>"(?:\\.|[^"\\])*")',
            r"(?P<mark>==|!=|<=|>=|&&|\|\||::|[-@.,;:(){}\[\]<>+*/%!=?])",
        )
    )
)
ESCAPE = re.compile(r'[^\\\r*]+|\\u\{[^}"\\]*\}|\\x..|\\.|.', re.S)
PLAIN = {"n": "\n", "r": "\r", "t": "\t", "0": "\0", "\\": "\\", '"': '"', "'": "'"}
RESERVED = frozenset(("true", "false", "if", "then", "else", "in", "is", "like", "has", "__cedar"))

SLIPS = {  # what is no token of Cedar, or has no place, and what is written in its stead
    "and": "write `&&`",
    "or": "write `||`",
    "not": "write `!`",
    "AND": "write `&&`",
    "OR": "write `||`",
    "'": "texts are written in double quotes",
    "#": "comments begin with `//`",
    "&": "write `&&`",
    "|": "write `||`",
}

Token = namedtuple("Token", "kind text start end")


class Stop(Exception):
    """What can't be read on from here: a token and why."""


def tokens_of(text):
    """The tokens without blanks and comments, and last one of kind `end`; what is no token is of kind
    `bad`."""
    found, at = [], 0
    while at < len(text):
        match = TOKEN.match(text, at)
        if match is None:
            found.append(Token("bad", text[at], at, at + 1))
            at = len(text) if text[at] == '"' else at + 1
            continue
        if match.lastgroup != "space":
            found.append(Token(match.lastgroup, match[0], at, match.end()))
        at = match.end()
    return found + [Token("end", "", len(text), len(text))]


class Reader:
    """Reads tokens one after another."""

    def __init__(self, source, report):
        self.source, self.report = source, report
        self.tokens, self.index = tokens_of(source.text), 0

    @property
    def next(self):
        return self.tokens[self.index]

    @property
    def last_end(self):
        return self.tokens[self.index - 1].end if self.index else 0

    def place(self, token):
        return Place(self.source, token.start)

    def no(self, token, why):
        return self.report.no(self.place(token), why)

    def take(self):
        token = self.next
        if token.kind != "end":
            self.index += 1
        return token

    def at(self, *texts):
        return self.next.kind in ("mark", "name") and self.next.text in texts

    def took(self, *texts):
        if self.at(*texts):
            return self.take()
        return None

    def due(self, what):
        raise Stop(self.next, f"expected {what}, found {shown(self.next)}{self.slip()}")

    def slip(self):
        """In brackets, what was probably meant by a token that has no place here."""
        token, following = self.next, self.tokens[min(self.index + 1, len(self.tokens) - 1)]
        if token.text == "/" and following.text in ("*", "/") and following.start == token.end:
            return " (comments begin with `//`, and go on to the line's end)"
        if token.kind == "number" and self.index and self.tokens[self.index - 1].text == ".":
            return ' (Cedar has no fractions; a decimal is written decimal("1.5"))'
        return f" ({SLIPS[token.text]})" if token.kind in ("name", "bad") and token.text in SLIPS else ""

    def expect(self, text):
        return self.took(text) or self.due(f"`{text}`")

    def name(self, what, known_reserved=RESERVED):
        """A name that is no reserved word."""
        if self.next.kind != "name":
            self.due(what)
        if self.next.text in known_reserved:
            raise Stop(self.next, f"`{self.next.text}` is a reserved word of Cedar; expected {what}")
        return self.take().text

    def path(self, what):
        """Names joined by `::`, as far as they go: a text may follow the last `::`, which is taken
        then."""
        parts = [self.name(what)]
        while self.took("::"):
            if self.next.kind == "text":
                return "::".join(parts), self.take()
            parts.append(self.name(what))
        return "::".join(parts), None

    def separated(self, closing, one):
        """What is before a closing mark, separated by commas; one may be behind the last."""
        found = []
        while not self.at(closing):
            found.append(one())
            if not self.took(","):
                break
        self.expect(closing)
        return found

    def annotations(self):
        """`@name("text")` and `@name`, each with its token; a name that is there twice is refused."""
        found = {}
        while self.took("@"):
            token = self.next
            name, text = self.name("an annotation's name", ()), None
            if self.took("("):
                if self.next.kind != "text":
                    self.due("a text in quotes")
                text = self.unescaped(self.take())
                self.expect(")")
            if name in found:
                self.no(token, f"the annotation `@{name}` is there twice")
            found[name] = (text, token)
        return found

    def unescaped(self, token, pattern=False):
        """The text in quotes; of a pattern its parts, texts and None for the wildcard."""
        parts, place = [""], token.start + 1
        for piece in ESCAPE.findall(token.text[1:-1]):
            if pattern and piece == "*":
                parts += [None, ""]
            elif pattern and piece == "\\*":
                parts[-1] += "*"
            else:
                made = self.character(piece, place)
                if pattern and made == "*":
                    self.bad_escape(place, "a star in a pattern is `*`, the wildcard, or `\\*`, the character")
                parts[-1] += made
            place += len(piece)
        return [part for part in parts if part != ""] if pattern else parts[0]

    def character(self, piece, offset):
        if piece[0] != "\\":
            return piece if piece != "\r" else self.bad_escape(offset, "a carriage return is written in a text as `\\r`")
        digits = re.fullmatch(r"\\u\{([0-9A-Fa-f][0-9A-Fa-f_]*)\}|\\x([0-7][0-9A-Fa-f])", piece)
        if digits:
            hexadecimal = (digits[1] or digits[2]).replace("_", "")
            code = int(hexadecimal, 16)
            if len(hexadecimal) <= 6 and code <= 0x10FFFF and not 0xD800 <= code <= 0xDFFF:
                return chr(code)
        elif piece[1:] in PLAIN:
            return PLAIN[piece[1:]]
        return self.bad_escape(
            offset, f"`{piece}` is no escape of Cedar" + (" (in a pattern of `like` alone)" if piece == "\\*" else "")
        )

    def bad_escape(self, offset, why):
        self.report.no(Place(self.source, offset), why)
        return ""


def shown(token):
    if token.kind == "end":
        return "the end of the text"
    if token.kind == "bad":
        return "a text without its closing quote" if token.text == '"' else f"the character {token.text!r}"
    return f"`{token.text}`" if len(token.text) <= 40 else f"`{token.text[:40]}..`"
