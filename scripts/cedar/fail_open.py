"""Which forbids fail open: palvumiose_analysis on Cedar's own files."""
import re
import sys

from cedar import analysis, files, words
from cedar.command import tell_report
from cedar.located import Spot
from script import complain
from visible import visible

CAUSE = re.compile(r"  (.*) at ([0-9]+)\.\.([0-9]+)")
DENIED = 1  # the status where --deny finds what it names


def main(given):
    """`fail-open [stored]` with a schema and policies: a line for each forbid, and what can end it, with its place."""
    asked = words.parsed(given, words.FRONT, analysis.QUIET, ("--program", "--checker", "--deny"))
    if asked.rest not in ([], ["stored"]) or set(asked.given) - {"schema", "policies", "links"}:
        raise words.Usage("expected fail-open [stored] -s SCHEMA -p POLICIES [-k LINKS] [--deny unknown]")
    if asked.values.get("--deny") not in (None, "unknown"):
        raise words.Usage("--deny takes unknown")
    words.check(asked.given)
    found = analysis.programs(asked.values)
    if not found:
        return 125
    (program, checker), quiet = found, bool(set(analysis.QUIET) & asked.flags)
    made = files.make(asked.given)
    status = analysis.refused(checker, "", made, quiet)
    if status:
        return status
    document = {"schema": made.document["schema"], "policies": made.document.get("policies", [])}
    lines = analysis.lines_of(program, ["fail-open", *asked.rest], document)
    sys.stdout.write("".join(f"{placed(made, line)}\n" for line in lines))
    sys.stdout.flush()
    tell_report(made, quiet)
    forbids = [line for line in lines if not line.startswith("  ")]
    unknown = [line for line in forbids if line.startswith("unknown ")]
    if unknown and "--deny" in asked.values:
        return complain(f"--deny unknown: {len(unknown)} of {len(forbids)} forbids", DENIED)
    return 0


def placed(made, line):
    """A line with its place in the file in front and what stands there behind, where it has one."""
    cause = CAUSE.fullmatch(line)
    source, start = made.source_at(int(cause[2])) if cause else (None, None)
    if source is None:
        return visible(line)
    spot = Spot(source, start, source.offset(int(cause[3]) - source.base))
    return f"  {spot}: {cause[1]}: {visible(source.text[spot.start : spot.end])}"
