"""Why a text is no document: all faults of it, each with its offset in the text, its place inside the
document and what is wrong there."""
import json

import places
import rules
from form import Fault, form_faults

LONGEST = 16777216


def faults_of(document):
    """The faults of a value: those of its form, and those in the rules of the parts that have their
    form."""
    found = form_faults(document)
    if not isinstance(document, dict):
        return found
    if "effect" in document and "schema" not in document:
        return [
            Fault(
                (),
                'this is one policy; a document is {"schema":{..},"policies":[..],..}, '
                "and scripts/from-cedar makes one of what Cedar has",
            )
        ]
    lists = (("policies",), ("edits",), ("entities",))
    broken = {fault.path[:2] if fault.path[:1] in lists else fault.path[:1] for fault in found}
    if ("schema",) not in broken and "schema" in document:
        found += rules.schema_faults(document["schema"])
    if ("policies",) not in broken:
        found += rules.policy_faults(
            [known_part(p) if ("policies", i) in broken else p for i, p in enumerate(document.get("policies", []))]
        )
    if ("edits",) not in broken:
        found += rules.edit_faults(
            [None if ("edits", i) in broken else e for i, e in enumerate(document.get("edits", []))]
        )
    if ("entities",) not in broken:
        found += rules.entity_faults(
            [None if ("entities", i) in broken else e for i, e in enumerate(document.get("entities", []))]
        )
    return found


def known_part(policy):
    """Of a policy that has not the expected form the id alone."""
    id_ = policy.get("id") if isinstance(policy, dict) else None
    return {"id": id_, "faulty": True} if isinstance(id_, str) else None


OTHERS = {"request": "requests", "requests": "request", "policies": "edits", "edits": "policies"}


def faults_for(command, document):
    """The members of a document that this command does not take."""
    refused = {"batch": ("request", "edits"), "live": ("requests", "policies")}.get(command, ("requests", "edits"))
    for member in refused if isinstance(document, dict) else ():
        if member in document:
            yield Fault((member,), f"`{command}` takes `{OTHERS[member]}`, and not `{member}`", name=True)


def reported(text, command=None):
    """Triples of an offset in the text, a place and what is wrong there."""
    try:
        value, place = places.read(text)
    except places.NoJson as fault:
        return [(fault.args[0], "", fault.args[1])]
    faults = faults_of(value) + (list(faults_for(command, value)) if command else [])
    found = [(place.find(fault.path, fault.name), written(fault.path), fault.what) for fault in faults]
    return sorted(found, key=lambda fault: fault[0])


def written(path):
    """A path as policies[0].body[0].when."""
    steps = (
        f"[{step}]"
        if isinstance(step, int)
        else f".{step}"
        if step.isidentifier()
        else f"[{json.dumps(step, ensure_ascii=False)}]"
        for step in path
    )
    return "".join(steps).lstrip(".")


def faults_in(data, command=None):
    """The text of the bytes, and the faults of them as a document, for a command where one is named."""
    if len(data) > LONGEST:
        return "", [(0, "", f"the document has {len(data)} bytes, and {LONGEST} is the most")]
    if data.startswith((b"\xff\xfe", b"\xfe\xff")) or b"\0" in data[:2]:
        return "", [(0, "", "the bytes are UTF-16 or UTF-32, not UTF-8")]
    if not data.strip(b" \t\r\n"):
        return "", [(0, "", "the document is empty")]
    try:
        text = data.decode()
    except UnicodeDecodeError as fault:
        text = data[: fault.start].decode()
        return text, [
            (len(text), "", f"the bytes from here on are no UTF-8 (byte {fault.start} is {data[fault.start]:#04x})")
        ]
    return text, reported(text, command)
