"""What the program finds of a document, taken apart: each finding with its severity, kind, policy,
place, source location, text and help.

Ids of policies may hold any text, also one that looks like a finding. So the program is given the
document with other ids, which nobody can have foreseen, and the true ones are put back into what it
says. It is also given a source location for each expression, by which a finding says what part of the
document it is about. So findings that differ in nothing but that part are reported once each."""
import json
import re
import secrets
import signal
import subprocess

ENTRY = re.compile(r"request: (?:request's )?(principal|action|resource|context) ")
MEMBER = re.compile(r": (?:required )?(attribute|tag|ancestor) `(.*?)` ", re.DOTALL)
MEMBERS = {"attribute": "attrs", "tag": "tags"}
PART = re.compile(r"document: (schema|policies|entities|requests?)(?:\[(\d+)\])?")
ENTRIES = ("principal", "action", "resource", "context")
MOST_HELPS = 20  # for so many requests the program is asked once more, which gives a help
ESCAPES = str.maketrans({"\\": "\\\\", '"': '\\"', "\n": "\\n", "\r": "\\r", "\t": "\\t", "\0": "\\0"})


class Broken(Exception):
    """The status with which the program ended, and why there are no findings."""


def checked(program, returncode):
    """The status of a run; one that a signal has ended has no answer, and is reported."""
    if returncode < 0:
        name = signal.Signals(-returncode).name
        raise Broken(128 - returncode, f"{program} was ended by {name}: out of stack, or a limit was met")
    return returncode


class Finding:
    """What is found: `path` is that of the part of the document that it is about, `at` the source
    location that the document gives, or None; `help` is the program's, `hint` the scripts' own."""

    def __init__(self, severity, kind, text, path, policy=None, at=None, help=None, hint=None):
        self.severity, self.kind, self.text, self.help, self.hint = severity, kind, text, help, hint
        self.path, self.policy, self.at = path, policy, at


def ask(program, words, document):
    """The status and the text that the program answers with; a list of requests is for `batch` alone, and a list of
    edits for `live`."""
    others = {"requests": ["batch"], "edits": ["live"]}
    document = {name: part for name, part in document.items() if others.get(name, list(words)) == list(words)}
    try:
        ran = subprocess.run(
            [program, *words], input=json.dumps(document, ensure_ascii=False).encode(), capture_output=True
        )
    except OSError as fault:
        raise Broken(125, f"{program} can't be run: {fault.strerror}") from None
    return checked(program, ran.returncode), ran.stdout.decode(errors="replace")


def findings_of(program, document, words=("check",), ask=ask):
    """What `check`, or another command, finds of a document that has its form; `ask` runs the program."""
    token = secrets.token_hex(8) + "x"
    policies, marks = document.get("policies", []), []
    renamed = with_ids(policies, token)
    status, reported = ask(program, words, document | {"policies": with_marks(renamed, marks)})
    if status in (3, 11):  # with source locations it is nested too deep, or too long
        marks = []
        status, reported = ask(program, words, document | {"policies": renamed})
    if status not in (0, 1):
        raise Broken(status, f"{words[0]} ended with {status}: {reported.strip()}")
    found = list(taken_apart(reported, token, [policy["id"] for policy in policies], marks))
    errors = sum(finding.severity == "error" for finding in found)
    if not reported.endswith(f"errors {errors}, warnings {len(found) - errors}\n"):
        raise Broken(125, f"what {words[0]} says could not be taken apart: " + reported)
    return found


def with_ids(policies, token):
    """The policies with their places in the list as ids."""
    new = {policy["id"]: f"{token}{i}" for i, policy in enumerate(policies)}
    return [
        policy | {"id": new[policy["id"]]} | ({"link": new[policy["link"]]} if "link" in policy else {})
        for policy in policies
    ]


def with_marks(policies, marks):
    """The policies with a number as source location of each expression; `marks` gets, for each number,
    the path and the location that was there."""
    made = []
    for i, policy in enumerate(policies):
        body = [
            {kind: marked(inner, ("policies", i, "body", j, kind), None, marks) for kind, inner in clause.items()}
            for j, clause in enumerate(policy.get("body", []))
        ]
        made.append(policy | {"body": body} if body else policy)
    return made


def marked(expression, path, at, marks):
    if isinstance(expression, dict) and "of" in expression:
        return marked(expression["of"], path + ("of",), at or expression["at"], marks)
    marks.append((path, at))
    number = len(marks) - 1
    return {"at": [number, number], "of": with_marked_operands(expression, path, marks)}


def with_marked_operands(expression, path, marks):
    def each(parts, path, first=0, last=None):
        return [
            marked(part, path + (i,), None, marks) if first <= i and (last is None or i < last) else part
            for i, part in enumerate(parts)
        ]

    if isinstance(expression, list):
        return each(expression, path)
    if not isinstance(expression, dict):
        return expression
    kind, inner = next(iter(expression.items()))
    path += (kind,)
    if kind in ("id", "var"):
        return expression
    if kind == "record":
        return {kind: {name: marked(part, path + (name,), None, marks) for name, part in inner.items()}}
    if kind in ("get", "has", "like", "is"):
        return {kind: each(inner, path, last=1)}
    if kind == "call":
        return {kind: each(inner, path, first=1)}
    return {
        kind: each(inner, path)
        if isinstance(inner, list) and kind not in ("not", "neg", "isEmpty")
        else marked(inner, path, None, marks)
    }


def taken_apart(reported, token, ids, marks):
    """The findings of a text, in the order of the list of policies."""
    name = rf"for policy `{token}([0-9]+)`"
    head = r"(?:error|warning) \w+(?: at \d+\.\.\d+)?: "
    begins = rf"{head}(?:for policy `{token}|the types )"
    pattern = (
        rf"^(error|warning) (\w+)(?: at (\d+)\.\.\d+)?: (?:({name}[,:] .*?)|(the types .*? are not compatible))"
        rf"(?:\n  help: (.*?))?\n(?={begins}|errors \d+, warnings \d+\n\Z)"
    )
    found = []
    for match in re.finditer(pattern, reported, re.MULTILINE | re.DOTALL):
        severity, kind, mark, own, index, types, help_ = match.groups()
        named = re.match(name, help_ or "") if own is None else None
        if own is None and not named:
            continue
        index = int(index if named is None else named[1])
        path, at = marks[int(mark)] if mark and marks else (("policies", index), None)
        text, help_ = (put_back(part, token, ids) for part in (own or types, help_))
        found.append(Finding(severity, kind, text, path, ids[index], at, help_))
    return sorted(found, key=lambda finding: finding.path[1])


def put_back(text, token, ids):
    return re.sub(rf"{token}([0-9]+)", lambda match: ids[int(match[1])], text) if text else text


def conformance_of(program, document):
    """What `request` says against the requests and the entities of a document: of each request, and of the entities, at
    most one finding."""
    rest = {name: part for name, part in document.items() if name not in ("request", "requests", "policies")}
    if "requests" not in document:
        found = one_conformance(program, document, ("request",))
        if found and found[0].kind == "InvalidRequest":  # then nothing is said of the entities yet
            found += one_conformance(program, rest, ())
        return found
    found = one_conformance(program, rest, ())  # without a request, what is said is said of an entity
    if not document["requests"]:
        return found
    asked = {"schema": rest["schema"], "requests": document["requests"]}
    status, reported = ask(program, ["batch"], asked)
    if status != 0:
        raise Broken(status, f"batch ended with {status}: {reported.strip()}")
    for i, (request, line) in enumerate(zip(document["requests"], reported.split("\n"))):
        why = json.loads(line).get("refused")
        is_partial = None in map(request.get, ENTRIES)  # of which `batch` does not say what is wrong
        if is_partial or why is not None and len(found) < MOST_HELPS:
            found += one_conformance(program, {"schema": rest["schema"], "request": request}, ("requests", i))
        elif why is not None:
            found.append(Finding("error", "InvalidRequest", f"request: {why}", ("requests", i)))
    return found


def one_conformance(program, document, path):
    """What `request` says of a document with one request, which is at the path."""
    status, reported = ask(program, ["request"], document)
    if status == 0:
        return []
    if status not in (4, 5):
        raise Broken(status, f"request ended with {status}: {reported.strip()}")
    if status == 5:
        path = entity_path(reported, document.get("entities", []))
        path += member_path(reported[len("entity: ") :]) if len(path) > 1 else ()
        return [Finding("error", "InvalidEntity", reported.rstrip("\n"), path)]
    text, _, help_ = reported.rstrip("\n").partition("\n  help: ")
    entry = ENTRY.match(text)
    return [Finding("error", "InvalidRequest", text, path + ((entry[1],) if entry else ()), help=help_ or None)]


def uid(id_):
    """An id as the program prints it."""
    return f'{id_[0]}::"{id_[1].translate(ESCAPES)}"'


def entity_path(reported, entities):
    """Where the entity is that a text begins with."""
    named = [
        (len(uid(entity["id"])), i)
        for i, entity in enumerate(entities)
        if reported.startswith(f"entity: {uid(entity['id'])}: ")
    ]
    return ("entities", max(named)[1]) if named else ("entities",)


def rule_path(status, text, document):
    """The path of the part of the document that a text of a status is about; None where there is none."""
    if status == 5:
        path = entity_path(text, document.get("entities", []))
        return path + member_path(text[len("entity: ") :]) if len(path) > 1 else None
    part = PART.match(text)
    if status == 3 and part:
        return (part[1], int(part[2])) if part[2] else (part[1],)
    if status not in (4, 6) or "request" not in document:
        return None
    entry = ENTRY.match(text)
    return ("request", entry[1]) if entry else ("request",)


def member_path(text):
    """The member of an entity that a text is about."""
    member = MEMBER.search(text)
    if member is None:
        return ()
    return ("parents",) if member[1] == "ancestor" else (MEMBERS[member[1]], member[2])
