"""Files with places, and the list of what is refused, dropped and added.

A place is FILE:LINE:COLUMN; lines and columns count from 1, columns in characters (code points, a tab
is one). Inside this program places are offsets in characters; `at` in a document counts bytes of the
file, which is UTF-8."""
import bisect

from visible import visible

REPORTED = 100  # so many refusals are reported one by one


class Source:
    """A file that was read: its name, its text, and where its lines and the steps of its paths
    are."""

    def __init__(self, name, text):
        self.name, self.text = name, text
        self.finder = None  # of a path's offset: of JSON, or of a schema's text
        self.is_json = False
        self.depth = None  # how deep its JSON nests, where that is known
        self.base = 0  # how many bytes are before it, where several texts are one
        self.is_ascii = text.isascii()
        self.lines = self.line_bytes = None

    def index_lines(self):
        self.lines, self.line_bytes, bytes_before = [], [], 0
        start = 0
        for line in self.text.split("\n"):
            self.lines.append(start)
            self.line_bytes.append(bytes_before)
            start += len(line) + 1
            bytes_before += len(line.encode("utf-8", "surrogatepass")) + 1

    def line_of(self, offset):
        if self.lines is None:
            self.index_lines()
        return bisect.bisect_right(self.lines, offset) - 1

    def line_column(self, offset):
        line = self.line_of(offset)
        return line + 1, offset - self.lines[line] + 1

    def byte(self, offset):
        """How many bytes are before a character."""
        if self.is_ascii:
            return offset
        line = self.line_of(offset)
        return self.line_bytes[line] + len(self.text[self.lines[line] : offset].encode())

    def offset(self, byte):
        """The character at which a byte is, or the text's end."""
        if self.is_ascii:
            return min(byte, len(self.text))
        if self.lines is None:
            self.index_lines()
        line = bisect.bisect_right(self.line_bytes, byte) - 1
        start = self.lines[line]
        inside = self.text[start:].split("\n", 1)[0].encode() + b"\n"
        return min(start + len(inside[: byte - self.line_bytes[line]].decode(errors="ignore")), len(self.text))

    def line_text(self, line):
        """The text of a line, from 1."""
        start = self.lines[line - 1]
        return self.text[start:].split("\n", 1)[0].rstrip("\r")


class Place:
    """A place in a source: an offset of its text, or steps (members' names and indices) into its
    JSON."""

    __slots__ = ("source", "at", "parent", "step")

    def __init__(self, source, at=None, parent=None, step=None):
        self.source, self.at, self.parent, self.step = source, at, parent, step

    def __getitem__(self, step):
        return Place(self.source, None, self, step)

    def path(self):
        steps, place = [], self
        while place.parent is not None:
            steps.append(place.step)
            place = place.parent
        return steps[::-1]

    def offset(self):
        if self.at is not None:
            return self.at
        return self.source.finder(self.source.text, self.path()) if self.source.finder else 0

    def short(self):
        return ":".join([self.source.name, *map(str, self.source.line_column(self.offset()))])

    def __str__(self):
        path = spelled(self.path()) if self.source.is_json else ""
        return f"{self.short()}: {path}" if path else self.short()


def spelled(path):
    """Steps as `staticPolicies.policy0.conditions[0]`; a name that is no identifier is in brackets
    and quotes."""
    text = ""
    for step in path:
        if isinstance(step, int):
            text += f"[{step}]"
        elif step.isascii() and step.isidentifier():
            text += f".{step}" if text else step
        else:
            quoted = step.replace("\\", "\\\\").replace('"', '\\"')
            text += f'["{quoted}"]'
    return text


class Report:
    """What is refused, dropped and added, in the order of reading: lines, each with its place and what it says there."""

    def __init__(self):
        self.refused, self.notes = {}, {}

    @property
    def is_full(self):
        """Whether what is refused from here on is only counted."""
        return len(self.refused) >= REPORTED

    def no(self, place, why):
        """A refusal; its answer is None, in place of what should be there."""
        if len(self.refused) < REPORTED:
            self.refused[f"{place}: refused: {why}"] = place, why
        else:
            self.refused[len(self.refused)] = None

    def dropped(self, place, what):
        self.notes[f"{place}: dropped: {what}"] = place, f"dropped: {what}"

    def added(self, place, what):
        self.notes[f"{place}: added: {what}"] = place, f"added: {what}"

    def placed_lines(self, quiet=False):
        """Notes, and what is refused with its place; with `quiet` the latter alone."""
        reported = [(line, one[0]) for line, one in self.refused.items() if one]
        more = len(self.refused) - len(reported)
        lines = [(line, None) for line in ([] if quiet else self.notes)] + reported
        return [(visible(line), place) for line, place in lines] + ([(f"refused: {more} more", None)] if more else [])

    def lines(self):
        return [line for line, _ in self.placed_lines()]
