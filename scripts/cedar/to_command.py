"""The words of scripts/to-cedar."""
import json
import sys

from cedar import to_json, to_text
from cedar.json_text import load
from cedar.places import Report, Source
from cedar.to_text import Unsayable
from form import SCHEMA, form_faults
from script import bytes_of, complain

HELP = """usage: scripts/to-cedar PART [--json] < document.json, or with the document's name behind these words

Writes a part of a document (docs/FORMAT.md) in Cedar's form to standard output. PART is one of

  policies   the static policies and templates: Cedar's text, with ids as @id; --json: the whole policy
             set, with links
  schema     the schema: Cedar's text; --json: Cedar's JSON
  links      the links of templates, as the `cedar` command keeps them: JSON
  entities   the entities: JSON
  request    the request: JSON

Source locations (`at`) are left away. What Cedar has no words for is reported on standard error with its
place in the document, and nothing is written then.

Status: 0 done; 1 no document, or not sayable; 2 usage; 8 the text can't be read; 9 nothing can be
written. Nothing of this is proved.
"""
FORM = SCHEMA["properties"]
POLICY = FORM["policies"]["items"]
BAD = (AttributeError, IndexError, KeyError, TypeError, ValueError)


def policies(document, as_json):
    found = listed(document, "policies")
    if as_json:
        return dumped(to_json.policy_set([reported(f"policies[{i}]", checked, p, POLICY) for i, p in enumerate(found)]))
    static = [(i, p) for i, p in enumerate(found) if "link" not in p]
    return "\n".join(reported(f"policies[{i}]", to_text.policy, p, POLICY) for i, p in static)


def listed(document, part):
    """The policies or entities; none where the document has no such part."""
    found = document.get(part, [])
    if not isinstance(found, list):
        raise Unsayable(f"{part}: not of the document's form (docs/FORMAT.md)")
    return found


def checked(p):
    """The policy, once it is seen that it can be said."""
    to_json.policy_set([p])
    return p


def shadow(declared):
    """What of a namespace has a name that the empty namespace declares too, which Cedar refuses."""
    plain = {name for name in declared.get("entityTypes", {}) if "::" not in name}
    for name in declared.get("entityTypes", {}):
        if "::" in name and name.rsplit("::", 1)[1] in plain:
            raise Unsayable(f"the type `{name}` beside the type `{name.rsplit('::', 1)[1]}`, which Cedar refuses")
    ids = {tuple(action["id"]) for action in declared.get("actions", [])}
    for kind, eid in sorted(ids):
        if kind != "Action" and ("Action", eid) in ids:
            named = f"{kind}::{json.dumps(eid, ensure_ascii=False)}"
            raise Unsayable(f"the action {named} beside one of the empty namespace, which Cedar refuses")


def schema(document, as_json):
    reported("schema", shadow, document["schema"])
    if as_json:
        return dumped(reported("schema", to_json.schema, document["schema"], FORM["schema"]))
    return reported("schema", lambda s: to_text.SchemaWriter(s).text(), document["schema"], FORM["schema"])


def links(document, _):
    return dumped(reported("policies", to_json.links, listed(document, "policies"), FORM["policies"]))


def entities(document, _):
    found = enumerate(listed(document, "entities"))
    return dumped([reported(f"entities[{i}]", to_json.entity, e, FORM["entities"]["items"]) for i, e in found])


def request(document, _):
    return dumped(reported("request", to_json.request, document.get("request", {}), FORM["request"]))


def dumped(value):
    return json.dumps(value, ensure_ascii=False, indent=2) + "\n"


def reported(place, write, part, form=None):
    """The part as it is written. What has not its form is not: an object in place of a list of conditions would be
    written as none."""
    try:
        made = write(part)
        if form is not None and form_faults(part, form):
            raise ValueError(part)
        return made
    except Unsayable as why:
        raise Unsayable(f"{place}: {why}") from None
    except BAD:
        raise Unsayable(f"{place}: not of the document's form (docs/FORMAT.md)") from None
    except RecursionError:
        raise Unsayable(f"{place}: it nests too deep") from None


PARTS = {"policies": policies, "schema": schema, "links": links, "entities": entities, "request": request}


def main(words):
    as_json = "--json" in words
    part = [word for word in words if word != "--json"]
    if not part or part[0] not in PARTS:
        return complain("expected one of policies, schema, links, entities, request first; --help says more", 2)
    if len(part) > 2 or part[-1].startswith("-"):
        return complain(f"expected the name of a document behind {part[0]}, found {' '.join(part[1:])}", 2)
    sys.setrecursionlimit(10000)
    data, fault = bytes_of(part[1] if part[1:] else None)
    if fault:
        return complain(fault, 8)
    report = Report()
    try:
        source = Source("document", data.decode("utf-8"))
        document = load(source, report)
        if report.refused:
            raise Unsayable(report.lines()[0])
        if not isinstance(document, dict) or "schema" not in document:
            raise Unsayable("document: form")
        sys.stdout.write(reported("document", lambda d: PARTS[part[0]](d, as_json), document))
    except (Unsayable, UnicodeDecodeError) as why:
        return complain(why, 1)
    return 0
