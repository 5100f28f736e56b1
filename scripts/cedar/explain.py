"""Shows what the program answers with places in Cedar's files."""
import subprocess
from dataclasses import dataclass, field

import findings
import hints
import misfits
from cedar import documents, located
from visible import visible

MOST = 100  # so many values that are not of their types are reported
LOOKS = ("check", "level")  # the commands that answer by findings


@dataclass
class Answer:
    """The status, and what is shown: the program's text, or lines for people."""

    status: int
    text: str = ""
    lines: list = field(default_factory=list)

    def __str__(self):
        return self.text or "".join(line + "\n" for line in self.lines)


def run(program, words, made):
    """What the program answers on the document that is made."""
    document = documents.text_of(made.document).encode()
    try:
        ran = subprocess.run([program, *words], input=document, stdout=subprocess.PIPE)
    except OSError as fault:
        raise findings.Broken(125, f"{program} can't be run: {fault.strerror}") from None
    status = findings.checked(program, ran.returncode)
    text = ran.stdout.decode(errors="replace")
    if status == 1 or words[0] in LOOKS and status == 0:
        found = findings.findings_of(program, made.document, words if words[0] in LOOKS else ("check",))
        return Answer(status, lines=finding_lines(hints.give(found, made.document["schema"]), made))
    if status in (3, 4, 5, 6, 12):
        return Answer(status, lines=rule_lines(text, status, made))
    return Answer(status, text)


def finding_lines(found, made):
    """The findings with their places and excerpts, and how many there are."""
    lines = [line for finding in found for line in lines_of(finding, located.spot_of_finding(made, finding))]
    errors = sum(finding.severity == "error" for finding in found)
    return lines + [f"errors {errors}, warnings {len(found) - errors}"]


def lines_of(finding, spot):
    """A finding, the line of its file with carets underneath, and its help."""
    front = f"{spot}: " if spot else ""
    lines = [f"{front}{finding.severity} {finding.kind}: {visible(finding.text)}"]
    lines += spot.excerpt() if spot else []
    return lines + [f"  help: {visible(help_)}" for help_ in (finding.help, finding.hint) if help_]


def rule_lines(text, status, made):
    """What is wrong with the document, the store or the request, with its place in front."""
    what, _, help_ = text.rstrip("\n").partition("\n  help: ")
    path = findings.rule_path(status, what, made.document)
    place = located.place_of(made, path) if path else None
    spot = located.spot_of(place) if place else None
    lines = [f"{spot}: {visible(what)}", *spot.excerpt()] if spot else [visible(what)]
    lines += [f"  help: {visible(help_)}"] if help_ else []
    return lines + [line for line in misfit_lines(made, status) if status in (4, 5)]


def misfit_lines(made, status):
    """Each value of the entities, or of the requests, that is not of its type, with its place."""
    found = misfits.misfits_of(made.document, status == 5, status == 4)
    for misfit in found[:MOST]:
        place = located.place_of(made, misfit.path)
        yield f"{located.spot_of(place)}: {visible(misfit.text)}" if place else visible(misfit.text)
    if len(found) > MOST:
        yield f"{len(found) - MOST} more values are not of their types"
