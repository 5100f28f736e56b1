"""Where in Cedar's files a part of the document comes from, and what a finding is about."""
from dataclasses import dataclass

from cedar import json_text
from cedar.places import Place, Source
from cedar.tokens import TOKEN
from visible import escape_all, visible

MARGIN = " " * 5 + " | "
WIDE, FRONT = 160, 50  # of a longer line so much is shown, and so much of it in front of the place


@dataclass(frozen=True)
class Spot:
    """A part of a file, from one offset to another."""

    source: Source
    start: int
    end: int

    @property
    def line_column(self):
        return self.source.line_column(self.start)

    @property
    def end_line_column(self):
        return self.source.line_column(self.end)

    def __str__(self):
        return ":".join([visible(self.source.name), *map(str, self.line_column)])

    def excerpt(self):
        """The line of the place with carets underneath; of a place over several lines the first."""
        line, column = self.line_column
        text, at = self.source.line_text(line), column - 1
        first = max(0, at - FRONT) if len(text) > WIDE else 0
        end = min(at + max(1, self.end - self.start), first + WIDE)
        parts = text[first:at], text[at:end], text[end : first + WIDE]
        front, marked, rest = map(escape_all, parts)
        front = ".." * (first > 0) + front
        under = "".join("\t" if c == "\t" else " " for c in front) + "^" * max(1, len(marked))
        return [f"{line:5} | {front}{marked}{rest}" + ".." * (first + WIDE < len(text)), MARGIN + under]


def spot_of(place):
    """The spot of a place: of JSON the value that begins there, of text a word."""
    start, text = place.offset(), place.source.text
    word = None if place.source.is_json else TOKEN.match(text, start)
    end = json_text.end_of(text, start) if place.source.is_json else word.end() if word else min(start + 1, len(text))
    return Spot(place.source, start, end)


def place_of(made, path):
    """The place from which the part of the document at a path comes; None where it comes from no file."""
    word = path[0] if path else "schema"
    if word == "policies" and len(path) > 1:
        return place_of_policy(made.policies[path[1]].place, path[2:])
    if word == "entities" and len(path) > 1:
        place = made.stored[path[1]]
        return place and inside(place, cedar_steps(path[2:]))
    if word == "requests" and len(path) > 1:
        return inside(made.asked[path[1]], cedar_steps(path[2:]))
    if word == "request" and len(path) > 1 and path[1] in made.entries:
        return made.entries[path[1]]
    source = made.source("context" if word == "request" and path[1:2] == ("context",) and made.entries else word)
    if source is None:
        return None
    if path[:2] == ("schema", "actions") and len(path) > 2:
        kind, eid = made.document["schema"]["actions"][path[2]]["id"]
        return Place(source)[kind[: -len("::Action")]]["actions"][eid]
    return inside(Place(source), cedar_steps(path[2:] if source is made.source("context") else path[1:]))


def place_of_policy(place, steps):
    """The place of a policy's clause, in JSON; that of the policy else."""
    if place.source.is_json and len(steps) > 1 and steps[0] == "body":
        return place["conditions"][steps[1]]["body"]
    return place


def inside(place, steps):
    for step in steps:
        place = place[step]
    return place


VALUES = {"attrs", "tags", "context"}  # the members below which values are


def cedar_steps(path):
    """The steps in Cedar's JSON of a path in an entity or a request: Cedar writes a record as an object alone."""
    made, expected = [], "member"
    for step in path:
        if expected == "value" and step == "record":
            expected = "name"
            continue
        if expected == "value" and isinstance(step, str):
            break  # inside an id or an extension value
        made.append(step)
        if expected == "name":
            expected = "value"
        elif step in VALUES:
            expected = "name"
    return made


def spot_of_finding(made, finding):
    """What a finding is about; None where that is no part of a file."""
    if finding.at is not None:
        source, start = made.source_at(finding.at[0])
        if source is not None:
            return Spot(source, start, source.offset(finding.at[1] - source.base))
    if finding.path[:1] == ("policies",) and len(finding.path) > 1:
        policy = made.policies[finding.path[1]]
        if policy.head:
            return Spot(policy.place.source, *in_scope(policy, finding.text))
    place = place_of(made, finding.path)
    return spot_of(place) if place else None


def in_scope(policy, text):
    """The span of what a finding without a place is about: a type or an id in the scope, else the policy's head."""
    reported = text.partition(policy.name)[2]
    for name, span in policy.named_in_scope:
        if f"`{name}`" in reported:
            return span
    return policy.head
