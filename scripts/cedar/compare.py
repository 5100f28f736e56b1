"""What an edit of policies changes: palvumiose_analysis on Cedar's own files."""
import sys

from cedar import analysis, files, words
from cedar.command import tell_report
from script import complain
from visible import visible

GIVES = ("wider", "other", "unknown wider", "unknown other")  # someone may be allowed who was not before
TAKES = ("narrower", "other", "unknown narrower", "unknown other")  # someone may no longer be allowed
DENIES = {"wider": GIVES, "narrower": TAKES, "any": (*GIVES, *TAKES)}
DENIED = 1  # the status where --deny finds what it names


def main(given):
    """`compare OLD NEW` with a schema: a line for each environment, and how many of each there are."""
    asked = words.parsed(given, words.FRONT, analysis.QUIET, ("--program", "--checker", "--deny"))
    if len(asked.rest) != 2 or set(asked.given) - {"schema", "links"}:
        raise words.Usage("expected compare OLD NEW -s SCHEMA [-k LINKS] [--deny wider|narrower|any]")
    deny = asked.values.get("--deny")
    if deny is not None and deny not in DENIES:
        raise words.Usage(f"--deny takes {', '.join(DENIES)}")
    words.check(asked.given)
    found = analysis.programs(asked.values)
    if not found:
        return 125
    (program, checker), quiet = found, bool(set(analysis.QUIET) & asked.flags)
    before, after = (files.make({**asked.given, "policies": [name]}) for name in asked.rest)
    for front, made in (("before: ", before), ("", after)):
        status = analysis.refused(checker, front, made, quiet)
        if status:
            return status
    lines = analysis.lines_of(program, ["compare"], edit_of(before.document, after.document))
    sys.stdout.write("".join(f"{visible(line)}\n" for line in lines))
    sys.stdout.flush()
    tell_report(after, quiet)
    found = [line for line in lines if deny and line.startswith(tuple(f"{word} " for word in DENIES[deny]))]
    return complain(f"--deny {deny}: {len(found)} of {len(lines) - 1} environments", DENIED) if found else 0


def edit_of(before, after):
    """The document of the edit."""
    return {"schema": after["schema"], "before": before.get("policies", []), "policies": after.get("policies", [])}
