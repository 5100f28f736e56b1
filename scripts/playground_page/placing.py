"""What the program has written, taken apart into findings, each with the places that it is about. What is reported is
what was written; where a document's own expressions have no places, the program is asked once more for them."""
import json
import re

import findings
from cedar.located import in_scope

from playground_page.reading import DocumentText, placed
from playground_page.spans import span

FINDING = re.compile(r"(error|warning) (\w+)(?: at (\d+)\.\.(\d+))?: (.*)")
POLICY = re.compile(r"for policy `(.*?)`[,:] ")
LAST = re.compile(r"errors (\d+), warnings (\d+)")
MOST = 200  # so many findings are reported, and so many places of one


def has_findings(words, status):
    return status == 1 or (status == 0 and words[0] in ("check", "level"))


def taken_apart(text):
    """The findings of a text, in its order; None where they can't be reported apart, as ids may hold line ends."""
    found, lines = [], text.rstrip("\n").split("\n")
    for line in lines[:-1]:
        match = FINDING.fullmatch(line)
        if match:
            severity, kind, start, end, reported = match.groups()
            at = [int(start), int(end)] if start else None
            found.append({"severity": severity, "kind": kind, "at": at, "text": reported, "help": None})
        elif found and line.startswith("  help: "):
            found[-1]["help"] = line[len("  help: ") :]
        elif found:
            found[-1]["text"] += "\n" + line
        else:
            return None
    last = LAST.fullmatch(lines[-1])
    errors = sum(finding["severity"] == "error" for finding in found)
    return found if last and [int(last[1]), int(last[2])] == [errors, len(found) - errors] else None


def with_spans(found, reading, program, words):
    """The findings with their spans and policies."""
    if isinstance(reading, DocumentText):
        return placed_in_document(found, reading, program, words)
    return [finding | placed_in_texts(finding, reading) for finding in found]


def placed_in_texts(finding, reading):
    """The policy and the spans of a finding on Cedar's texts, which the document's own places lead to."""
    source, named = reading.made.source("policies"), POLICY.search(finding["text"] + " " + (finding["help"] or ""))
    known = reading.policies.get(named[1]) if named else None
    policy = named[1] if named else None
    if finding["at"] and source is not None:
        start, end = (source.offset(byte) for byte in finding["at"])
        return {"policy": policy, "spans": [span("policies", source.text, start, end)]}
    if known is None:
        return {"policy": policy, "spans": []}
    within = in_scope(known, finding["text"]) if known.head else None
    if within is None:
        return {"policy": policy, "spans": [placed(known.place)]}
    return {"policy": policy, "spans": [span("policies", source.text, *within)]}


def placed_in_document(found, reading, program, words):
    """The findings on a document as it is: the program is asked again with a place for each expression."""
    try:
        marked = findings.findings_of(program.path, reading.document, tuple(words), program.ask) if found else []
    except findings.Broken:
        marked = []
    keys = [(f["severity"], f["kind"], f["text"], f["help"]) for f in found]
    spans, policies, known = {}, {}, set(keys)
    for one in marked:
        key = one.severity, one.kind, one.text, one.help
        policies[key] = one.policy
        if key in known and len(spans.setdefault(key, [])) < MOST:
            where = reading.span(one.path)
            spans[key] += [where] if where not in spans[key] else []
    return [f | {"policy": policies.get(key), "spans": spans.get(key, [])} for f, key in zip(found, keys)]


def broken_rule(ran, reading):
    """What the program says against the document, the request or the entity store, with its place."""
    text, _, help_ = ran.text.rstrip("\n").partition("\n  help: ")
    path = findings.rule_path(ran.status, text, reading.document)
    where = reading.span(path) if path else None
    found = {"severity": "error", "kind": None, "at": None, "text": text, "help": help_ or None, "policy": None}
    return found | {"spans": [where] if where else []}


def named_policies(ran, words, reading):
    """The spans of the policies that a decision names."""
    if ran.status != 0 or words[0] not in ("slice", "decide"):
        return {}
    decision = json.loads(ran.text)
    named = set(decision["reasons"]) | {policy for policy, _ in decision["errors"]}
    ids = [policy["id"] for policy in reading.document.get("policies", [])]
    return {id_: reading.policy_span(i) for i, id_ in enumerate(ids) if id_ in named}
