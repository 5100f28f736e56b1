"""Findings as they are written: a line each for people, as JSON, and as SARIF."""
import os
import pathlib
import re
import sys
from dataclasses import dataclass, field
from urllib.parse import quote

from script import RELEASE
from visible import json_line, visible

RULES = {
    "EmptySetForbidden": "An empty set literal has no type.",
    "EntityDerefLevelViolation": "The policy asks for entities further from the request than the level allows.",
    "FunctionArgumentValidation": "The text of an extension value has no value.",
    "IdleAction": "The action applies to nothing, and is no group.",
    "ImpossiblePolicy": "The policy's condition is false for all valid requests.",
    "IncompatibleTypes": "Types that have to be the same are not.",
    "InvalidActionApplication": "No action applies to what the policy's scope allows.",
    "InvalidDocument": "The text is not a document.",
    "InvalidEntity": "An entity does not conform to the schema.",
    "InvalidEnumEntity": "The id is not listed by its enumerated type.",
    "InvalidRequest": "A request does not conform to the schema.",
    "InvalidText": "The text is not Cedar, or has no counterpart here.",
    "InvalidValue": "A value is not of the type that the schema gives it.",
    "NoPermit": "There are policies, and none permits.",
    "NoTagsAllowed": "The entity type has no tags.",
    "NonLitExtConstructor": "A function that makes an extension value needs a literal text.",
    "RefusedEdit": "An edit is refused.",
    "TooDeep": "The condition nests deeper than 200.",
    "UndefinedFunction": "There is no such extension function.",
    "UnexpectedType": "An expression is of another type than is expected there.",
    "UnknownRequest": "Of a request something is unknown, so that nothing is decided.",
    "UnlinkedTemplate": "A template has no link, so that it says nothing.",
    "UnlistedAction": "An action is not among the entities, so that it is in no group.",
    "UnrecognizedActionId": "The action is not declared.",
    "UnrecognizedEntityType": "The entity type is not declared.",
    "UnsafeAttributeAccess": "The attribute is not declared.",
    "UnsafeOptionalAttributeAccess": "An optional attribute is read, and nothing says that it is there.",
    "UnsafeTagAccess": "A tag is read, and nothing says that it is there.",
    "WrongNumberArguments": "The function takes another number of arguments.",
}


@dataclass
class LocatedFinding:
    """A finding and its place: a file (None for standard input), a part of the document, lines and columns from 1, and
    for Cedar's files an excerpt."""

    finding: object
    file: object
    part: str
    line: int
    column: int
    end: object = None  # a line and a column
    excerpt: list = field(default_factory=list)

    @property
    def is_error(self):
        return self.finding.severity == "error"

    def helps(self):
        return [help_ for help_ in (self.finding.help, self.finding.hint) if help_]

    def members(self):
        f, (end_line, end_column) = self.finding, self.end or (None, None)
        return {
            "severity": f.severity,
            "kind": f.kind,
            "policy": f.policy,
            "file": self.file,
            "place": self.part,
            "line": self.line,
            "column": self.column,
            "endLine": end_line,
            "endColumn": end_column,
            "at": f.at,
            "text": f.text,
            "help": f.help,
            "hint": f.hint,
        }

    def lines(self, named):
        f = self.finding
        at = f" at {f.at[0]}..{f.at[1]}" if f.at and not named else ""
        front = f"{visible(self.file)}:" if named else ""
        yield f"{front}{self.line}:{self.column}: {f.severity} {f.kind}{at}: {visible(f.text)}"
        yield from self.excerpt
        for help_ in self.helps():
            yield f"  help: {visible(help_)}"


def uri(name):
    """A file's name as a URI: of a relative one a relative one."""
    if name in (None, "-", "standard input"):
        return "stdin"
    return pathlib.Path(name).as_uri() if os.path.isabs(name) else quote(os.fsencode(name))


def result(reported):
    region = {"startLine": reported.line, "startColumn": reported.column}
    if reported.end:
        region |= {"endLine": reported.end[0], "endColumn": reported.end[1]}
    location = {"physicalLocation": {"artifactLocation": {"uri": uri(reported.file)}, "region": region}}
    if reported.part:
        location["logicalLocations"] = [{"fullyQualifiedName": reported.part}]
    return {
        "ruleId": reported.finding.kind,
        "level": reported.finding.severity,
        "message": {"text": "\n".join([reported.finding.text, *(f"help: {help_}" for help_ in reported.helps())])},
        "locations": [location],
    }


def rule(kind):
    text = RULES.get(kind, kind)
    return {"id": kind, "shortDescription": {"text": text}, "help": {"text": f"{text} docs/FORMAT.md has its rule."}}


def version():
    found = re.search("version (.*)", pathlib.Path(f"{RELEASE}.about").read_text(encoding="utf-8"))
    return found[1] if found else "0"


def sarif(found):
    """The findings as SARIF 2.1.0."""
    rules = [rule(kind) for kind in sorted({reported.finding.kind for reported in found})]
    driver = {"name": "palvumiose", "version": version(), "rules": rules}
    run = {"tool": {"driver": driver}, "columnKind": "unicodeCodePoints", "results": [result(reported) for reported in found]}
    return {"$schema": "https://json.schemastore.org/sarif-2.1.0.json", "version": "2.1.0", "runs": [run]}


def write_line(text):
    sys.stdout.buffer.write(text.encode(errors="replace") + b"\n")


def write(found, form=None, named=False):
    """Writes findings in a form, `--json`, `--sarif` or None; with `named` each line names its file."""
    if form == "--sarif":
        write_line(json_line(sarif(found), indent=1))
        return
    for reported in found:
        for line in [json_line(reported.members())] if form == "--json" else reported.lines(named):
            write_line(line)
    errors = sum(reported.is_error for reported in found)
    if form != "--json":
        write_line(f"errors {errors}, warnings {len(found) - errors}")
