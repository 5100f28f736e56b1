"""What the page's requests are answered: an answer of the program with all that is reported of it, and the same
document in another of the forms."""
import habits
import hints
import misfits
import review
from cedar import to_command
from cedar.to_text import Unsayable
from findings import Broken, Finding

from playground_page import placing, reading, trials

COMMANDS = ("check", "level", "review", "request", "manifest", "slice", "decide", "list", "test")
SHOWN = {"list": ["list", "100"], "test": ["check"]}  # 100 principals are listed; tests are of policies that are accepted
FORMS = ("text", "json", "document")


class BadJob(Exception):
    """What is wrong with what the page has asked."""


def checked(job):
    """The form and the texts of a request, each of which can be written as UTF-8."""
    if not isinstance(job, dict) or job.get("form") not in FORMS or not isinstance(job.get("parts"), dict):
        raise BadJob(f"an object is expected with `form`, one of {', '.join(FORMS)}, and `parts`, an object")
    for name, text in job["parts"].items():
        if name not in reading.PARTS + ("document", "tests") or not isinstance(text, str):
            raise BadJob(f"`parts` has texts: document, tests, {', '.join(reading.PARTS)}")
        try:
            text.encode()
        except UnicodeEncodeError:
            raise BadJob(f"{name}: a text holds half of a surrogate pair, which is no character") from None
    needed = "document" if job["form"] == "document" else "schema"
    if needed not in job["parts"]:
        raise BadJob(f"`parts` has no `{needed}`")
    return job["form"], job["parts"]


def words_of(job):
    """The words of the command."""
    command, level = job.get("command"), job.get("level", 0)
    if command not in COMMANDS:
        raise BadJob(f"`command` is one of {', '.join(COMMANDS)}")
    if command in SHOWN:
        return SHOWN[command]
    if command != "level":
        return [command]
    if isinstance(level, bool) or not isinstance(level, int) or not 0 <= level <= 200:
        raise BadJob("`level` is a whole number from 0 to 200")
    return ["level", str(level)]


def answer(job, program):
    """The program's answer, what is reported of it, and the document that was answered."""
    form, parts = checked(job)
    words = words_of(job)
    read = reading.read(form, parts)
    reported = {"faults": read.faults, "notes": list(read.notes), "findings": [], "warnings": [], "policies": {}}
    reported["answer"] = None
    reported["document"] = read.data.decode() if read.data is not None else None
    if read.data is None:
        return reported
    ran = program.run(words, read.data)
    reported["answer"] = ran._asdict() | {"words": words}
    if read.document is not None and not ran.limit:
        reported["findings"] = findings_in(ran, words, read, program)
        reported["warnings"] = [warned(one, read) for one in habits.habits_of(read.document)[: placing.MOST]]
        reported["policies"] = placing.named_policies(ran, words, read)
        if job["command"] == "test" and ran.status == 0:
            reported["tests"] = trials.tested(read, parts, program, reported["faults"])
        if words == ["review"] and ran.status == 0:
            reported["review"] = reviewed_table(read, program)
    return reported


def reviewed_table(read, program):
    """The review as a table; None where it takes too long."""
    try:
        return review.as_table(review.reviewed(program.path, read.document, program.ask))
    except Broken:
        return None


def findings_in(ran, words, read, program):
    if placing.has_findings(words, ran.status):
        found = (placing.taken_apart(ran.text) or [])[: placing.MOST]
        return [hinted(one, read) for one in placing.with_spans(found, read, program, words)]
    if ran.status not in (3, 4, 5, 6):
        return []
    return [hinted(placing.broken_rule(ran, read), read)] + values_in(ran.status, read)


def hinted(finding, read):
    """A finding with the name that was probably meant."""
    one = Finding(finding["severity"], finding["kind"], finding["text"], (), finding["policy"])
    return finding | {"hint": hints.Hints(read.document["schema"]).of(one)}


def values_in(status, read):
    """Each value of the entities, or of the request, that is not of its type."""
    found = misfits.misfits_of(read.document, status == 5, status == 4)[: placing.MOST]
    return [warned(Finding("error", "InvalidValue", one.text, one.path), read) for one in found]


def warned(one, read):
    """A warning that is scripts/lint's own."""
    where = read.span(one.path) if one.path else None
    reported = {"severity": one.severity, "kind": one.kind, "text": one.text, "help": one.help, "policy": one.policy}
    return reported | {"hint": one.hint, "at": None, "spans": [where] if where else []}


def converted(job, _):
    """The same document in another form; its faults where it has any, or why it can't be said in that form."""
    form, parts = checked(job)
    if job.get("to") not in FORMS:
        raise BadJob(f"`to` is one of {', '.join(FORMS)}")
    read = reading.read(form, parts)
    if read.value is None:
        return {"parts": None, "faults": read.faults}
    if job["to"] == "document":
        return {"parts": {"document": read.data.decode()}, "faults": []}
    try:
        return {"parts": said(read.value, job["to"] == "json"), "faults": []}
    except Unsayable as why:
        return {"parts": None, "faults": [{"text": f"in Cedar's form there is no {why}", "place": "", "spans": []}]}


def said(document, as_json):
    """The parts in Cedar's text, or its JSON."""
    if not isinstance(document, dict) or not all(
        isinstance(document.get(p, []), list) for p in ("policies", "entities")
    ):
        raise Unsayable("document: form")
    links = [policy for policy in document.get("policies", []) if isinstance(policy, dict) and "link" in policy]
    parts = {
        "schema": to_command.schema({"schema": {}} | document, as_json),
        "policies": to_command.policies(document, as_json),
    }
    parts["links"] = to_command.links(document, as_json) if links and not as_json else ""
    for part in ("entities", "request"):
        parts[part] = to_command.PARTS[part](document, as_json) if part in document else ""
    return parts
