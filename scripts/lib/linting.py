"""What scripts/lint does: all that is wrong with a document or with Cedar's files, and what is likely wrong, in one
run."""
import bisect
import sys

import hints
import places
import reports
from cedar import files, located, words
from edits import replayed
from findings import Broken, Finding, conformance_of, findings_of
from forbids import open_forbids
from habits import habits_of
from misfits import misfits_of
from refusals import faults_in, written
from script import bytes_of, complain, program_at
from visible import visible

USAGE = (
    "usage: scripts/lint [--deny-warnings] [--json | --sarif] [--program PROGRAM] [FILE], or for Cedar's files "
    "-s SCHEMA -p POLICIES .. in place of FILE; --help says more"
)
FLAGS = ("--deny-warnings", "--json", "--sarif", "--quiet", "-q")


def all_findings(program, value, words=("check",)):
    """The findings of a document that has its form, with hints; values that are not of their types one by one. Of the
    policies it is what `check` finds, or these words."""
    broken = conformance_of(program, value)
    found = findings_of(program, value, words) + broken + values_of(value, broken)
    return hints.give(found, value["schema"]) + habits_of(value) + open_forbids(value)


def values_of(value, broken):
    """Where the program has found that entities or requests do not conform, each value that is not of its type."""
    kinds = {finding.kind for finding in broken}
    found = misfits_of(value, "InvalidEntity" in kinds, "InvalidRequest" in kinds)
    return [Finding("error", "InvalidValue", misfit.text, misfit.path) for misfit in found]


def look_at_document(program, data, name, command=None):
    """The findings in a text, each with its place, and whether the text is a document, for a command where its words
    are given."""
    text, faults = faults_in(data, command and command[0])
    starts = [0] + [i + 1 for i, c in enumerate(text) if c == "\n"]

    def reported(finding, part, at):
        line = bisect.bisect_right(starts, at)
        return reports.LocatedFinding(finding, name, part, line, at - starts[line - 1] + 1)

    if faults:
        return [reported(Finding("error", "InvalidDocument", what, ()), part, at) for at, part, what in faults], False
    value, place = places.read(text)
    value, moved, found = replayed(program, value)
    found += moved(all_findings(program, value, command if command and command[0] == "level" else ("check",)))
    all_reported = [reported(finding, written(finding.path), place.find(finding.path)) for finding in found]
    return sorted(all_reported, key=lambda one: (one.line, one.column)), True


def look_at_files(program, made):
    """The same of what is made of Cedar's files."""
    if made.report.refused:
        pairs = [one for one in made.report.refused.values() if one]
        return [reported_of(Finding("error", "InvalidText", why, ()), place) for place, why in pairs], False
    found = [one for one in all_findings(program, made.document) if one.kind != "UnknownRequest"]
    all_reported = [spotted(finding, located.spot_of_finding(made, finding), made) for finding in found]
    order = {source.name: i for i, source in enumerate(one for each in made.texts.values() for one in each)}
    return sorted(all_reported, key=lambda one: (order.get(one.file, -1), one.line, one.column)), True


def reported_of(finding, place):
    """A refused text's finding, reported at its place."""
    reported = spotted(finding, located.spot_of(place))
    reported.part = str(place)[len(place.short()) + 2 :]
    return reported


def spotted(finding, spot, made=None):
    """A finding reported at a spot; one of no spot at the schema's beginning."""
    if spot is None:
        return reports.LocatedFinding(finding, made.source("schema").name, "", 1, 1)
    return reports.LocatedFinding(finding, spot.source.name, "", *spot.line_column, spot.end_line_column, spot.excerpt())


def main(given):
    """The status of scripts/lint with these words."""
    try:
        asked = words.parsed(given, words.FRONT, FLAGS, ("--program",))
        is_cedar = bool(asked.given)
        if is_cedar:
            words.check(asked.given)
    except words.Usage as why:
        return complain(f"{why}\n{USAGE}", 2)
    forms = [flag for flag in ("--json", "--sarif") if flag in asked.flags]
    if len(asked.rest) > (0 if is_cedar else 1) or len(forms) > 1:
        return complain(USAGE, 2)
    try:
        return looked(asked, forms[0] if forms else None, is_cedar)
    except Broken as fault:
        return complain(fault.args[1], fault.args[0])


def looked(asked, form, is_cedar):
    notes, missing = [], 3
    if is_cedar:
        program = program_at(asked.values.get("--program"))
        if "request" in asked.given:
            asked.given["requests"] = [asked.given.pop("request")]  # it may be a list of them
        made = files.make(asked.given)
        notes, missing = list(made.report.notes), 8 if made.unread else 3
        found, is_whole = look_at_files(program, made) if program else ([], None)
    else:
        name = asked.rest[0] if asked.rest else None
        data, fault = bytes_of(name)
        if fault:
            return complain(fault, 8)
        program = program_at(asked.values.get("--program"))
        found, is_whole = look_at_document(program, data, name) if program else ([], None)
    if not program:
        return 125
    reports.write(found, form, named=is_cedar)
    sys.stdout.flush()
    if not {"--quiet", "-q"} & asked.flags:
        for note in notes:
            sys.stderr.write(visible(note) + "\n")
    if not is_whole:
        return missing
    return 1 if any(reported.is_error or "--deny-warnings" in asked.flags for reported in found) else 0
