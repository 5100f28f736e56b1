"""Where something is in a text of the page. Offsets inside python count characters; those of a span count units
of UTF-16, as the page's script does."""
import json
import re

WORD = re.compile(r'\w+|"(?:\\.|[^"\\\n])*"?|[^\s]')
NAME = re.compile(r'"(?:\\.|[^"\\])*"\s*:\s*\Z')
LONGEST_NAME = 200
MOST_LINES = 8  # a longer value is underlined in its first line alone
DECODER = json.JSONDecoder(parse_int=str, parse_float=str, parse_constant=str)


def units(text, offset):
    return offset if text.isascii() else offset + sum(character > "\uffff" for character in text[:offset])


def span(part, text, start, end=None):
    """The span of a part's text: at least a character where there is one, and of one line where no end is given."""
    start = min(start, len(text))
    if end is None:
        start, end = start_of(text, start), end_of(text, start)
    end = max(min(end, len(text)), min(start + 1, len(text)))
    return {
        "part": part,
        "start": units(text, start),
        "end": units(text, end),
        "line": text.count("\n", 0, start) + 1,
        "column": start - text.rfind("\n", 0, start),
    }


def start_of(text, start):
    """Where the name of a member begins that is an object or a list of several lines; else the offset itself."""
    named = NAME.search(text, max(0, start - LONGEST_NAME), start)
    return named.start() if named and end_of(text, start) == line_end_of(text, start) else start


def line_end_of(text, start):
    end = text.find("\n", start)
    return len(text) if end < 0 else end


def end_of(text, start):
    """The end of what begins at an offset: a JSON value, of which a long one ends with its line, or a word."""
    line_end = line_end_of(text, start)
    if text[start : start + 1] in ("{", "["):
        try:
            end = DECODER.raw_decode(text, start)[1]
        except (ValueError, RecursionError):
            return start + 1
        return end if text.count("\n", start, end) < MOST_LINES else line_end
    word = WORD.match(text, start)
    return min(word.end(), line_end) if word else start
