"""Forbids that may be passed over, as palvumiose_analysis finds them: nothing is found where it is not there."""
import json
import os
import re
import secrets
import subprocess

from findings import Finding, with_ids, with_marks
from script import TOP

PROGRAM = TOP / "release/palvumiose_analysis-x86_64-linux"
WHERE = {
    "entity does not exist": "where {} is not stored",
    "integer overflow": "where a number does not fit 64 bits",
    "datetime or duration overflow": "where a datetime or duration does not fit 64 bits",
}
CAUSE = re.compile(rf"  ({'|'.join(WHERE)}) at ([0-9]+)\.\.[0-9]+")


def open_forbids(document):
    """A warning for each part that can end a forbid with an error, though principal and resource are stored."""
    if not os.access(PROGRAM, os.X_OK):
        return []
    policies, token, marks = document.get("policies", []), secrets.token_hex(8) + "x", []
    found, number = [], 0
    for line in asked({"schema": document["schema"], "policies": with_marks(with_ids(policies, token), marks)}):
        cause = CAUSE.fullmatch(line)
        if cause:
            path, at = marks[int(cause[2])]
            what = f"forbid `{policies[number]['id']}` is passed over " + WHERE[cause[1]].format(named(document, path))
            found.append(Finding("warning", "OpenForbid", what, path, policy=policies[number]["id"], at=at))
        elif line.startswith("unknown "):
            number = int(line.removeprefix(f"unknown {token}"))
    return found


def asked(document):
    """The lines of the program; none where it does not answer, as where policies are not accepted."""
    text = json.dumps(document, ensure_ascii=False).encode()
    try:
        ran = subprocess.run([PROGRAM, "fail-open", "stored"], input=text, capture_output=True)
    except OSError:
        return []
    return [] if ran.returncode else ran.stdout.decode(errors="replace").splitlines()


def named(document, path):
    """How the expression at a path is called: a variable and its attributes, or an entity."""
    part = document
    for step in path:
        part = part[step]
    names = []
    while isinstance(part, dict) and ("of" in part or "get" in part):
        part, name = (part["of"], None) if "of" in part else part["get"]
        names += [name] if name is not None else []
    if not isinstance(part, dict) or "var" not in part:
        return "an entity"
    return f"`{'.'.join([part['var'], *reversed(names)])}`"
