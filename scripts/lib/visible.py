"""Texts of a document as people may see them: an id or a file may hold what moves a terminal's cursor, turns the
direction of writing, begins a line, or is a command in the log of a build; all of that is shown as an escape."""
import json
import re
import sys

HIDDEN = re.compile(
    "[\0-\x1f\x7f-\x9f\u061c\u200b-\u200f\u2028-\u202e\u2060-\u2064\u2066-\u206f\ufeff\ud800-\udfff]"
    r"|(?<=#)#(?=\[|vso\[)"  # `##[` and `##vso[` are commands anywhere in a line
)
COMMAND = re.compile(r"(\s*):(?=:)")  # `::` is a command at the beginning of a line
ESCAPES = {"\n": "\\n", "\r": "\\r", "\t": "\\t", "\0": "\\0"}


def escape(found):
    return ESCAPES.get(found[0]) or f"\\u{{{ord(found[0]):x}}}"


def visible(text):
    """A text as one line, in which nothing is hidden."""
    return HIDDEN.sub(escape, text)


def escape_all(text):
    """The same of a part of a line of a file, of which tabs stay."""
    return HIDDEN.sub(lambda found: found[0] if found[0] == "\t" else escape(found), text)


def json_line(value, **options):
    """JSON in which hidden characters are escapes; it stands for the same value."""
    text = json.dumps(value, ensure_ascii=False, **options)
    return re.sub(HIDDEN, lambda found: found[0] if found[0] == "\n" else f"\\u{ord(found[0]):04x}", text)


def main():
    """Shows the lines of standard input."""
    sys.stdout.reconfigure(encoding="utf-8", errors="replace", newline="\n")
    for line in sys.stdin.buffer:
        text = line.decode(errors="replace")
        shown = escape_all(COMMAND.sub(r"\1\\u{3a}", text.rstrip("\n"), 1) if COMMAND.match(text) else text.rstrip("\n"))
        print(shown, end="\n" * text.endswith("\n"), flush=True)


if __name__ == "__main__":
    main()
