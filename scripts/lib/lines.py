"""The lines that scripts/check-lines runs: its help says what a line is. And the documents of
examples/."""
import pathlib
import re

EXAMPLES = pathlib.Path(__file__).resolve().parents[2] / "examples"
NAME = re.compile(r"\$(\w+)", re.ASCII)


class Fault(Exception):
    """What is wrong with the words, a file or a line."""


class Line:
    """One line: the commands, each a list of words; the bytes of the document; the status and the text
    that are expected."""

    def __init__(self, text, folder, names):
        parts = re.fullmatch(r"(.*) => ([0-9]+)(?: (.*))?", text)
        if not parts:
            raise Fault("no line of the form WORDS DOCUMENT => STATUS TEXT")
        asked, status, reported = parts[1], parts[2], parts[3] or ""
        start = re.search(r'[{\["$<]', asked)
        at = start.start() if start else len(asked)
        self.text = text
        self.commands = [words.split() for words in asked[:at].split(",")]
        self.document = document_of(asked[at:], folder, names)
        self.status = int(status)
        self.reported = re.sub(r"(?<! )\|", "\n", expanded(reported, names))
        self.unknown = sorted({"$" + name for name in NAME.findall(text) if name not in names})


def expanded(text, names):
    return NAME.sub(lambda found: names.get(found[1], found[0]), text)


def document_of(text, folder, names):
    """The bytes of the document that a line names or holds."""
    if not text.startswith("<"):
        return expanded(text, names).encode()
    file, _, members = text[1:].partition(" with ")
    try:
        document = (folder / file.strip()).read_bytes()
    except OSError as fault:
        raise Fault(f"{file.strip()} can't be read: {fault.strerror}") from None
    if not members:
        return document
    whole = document.rstrip()
    if not whole.endswith(b"}"):
        raise Fault(f"{file.strip()} is no JSON object that members could be put into")
    return whole[:-1] + b"," + expanded(members, names).encode() + b"}"


def lines_of(path):
    """The lines of a file, in order."""
    names = {}
    try:
        texts = path.read_text(encoding="utf-8").split("\n")
    except (OSError, UnicodeDecodeError) as fault:
        raise Fault(f"{path} can't be read: {getattr(fault, 'strerror', 'no UTF-8')}") from None
    for number, text in enumerate(texts, 1):
        named = re.match(r"# \$(\w+) = (.*)", text, re.ASCII)
        if named:
            names[named[1]] = expanded(named[2], names)
        elif text.strip() and not text.startswith("#"):
            try:
                yield number, Line(text.rstrip("\r"), path.parent, names)
            except Fault as fault:
                raise Fault(f"{path}:{number}: {fault}") from None


def line_files():
    return sorted((EXAMPLES / "lines").glob("*.txt"))


def example_documents():
    """The files with documents; examples/cedar and examples/first have Cedar's own JSON besides,
    examples/analysis a document of an edit, and examples/bulk parts of documents."""
    others = {"cedar", "first", "analysis", "bulk"}
    return sorted(
        path
        for path in EXAMPLES.rglob("*.json")
        if path.name == "document.json" or not others & set(path.relative_to(EXAMPLES).parts)
    )
