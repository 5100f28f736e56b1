"""A document of edits, as one of the policies that they leave, so that all that asks about policies can be asked of it."""
import re

from findings import Broken, Finding, ask


def replayed(program, document):
    """The document with policies in place of edits; a function that puts the places of findings back into the edits; and
    the first edit that is refused, as a finding. Of the edits those before it are made; an edit that is refused for what is
    found of its entry is among the policies too, so that this is found again."""
    if "edits" not in document:
        return document, lambda found: found, []
    refused, why = first_refused(program, document)
    left = left_by(document["edits"][:refused])
    if why == "findings":
        left.append((refused, document["edits"][refused]))
    places = [i for i, _ in left]

    def moved(found):
        for finding in found:
            finding.path = place_of(finding.path, places)
        return found

    rest = {name: part for name, part in document.items() if name != "edits"}
    found = [] if refused is None else [Finding("error", "RefusedEdit", f"edit {refused}: {why}", ("edits", refused))]
    return rest | {"policies": [edit for _, edit in left]}, moved, found


def first_refused(program, document):
    """The place of the first edit that `live` refuses, and why; None where none is."""
    status, reported = ask(program, ["live"], document)
    if status == 0:
        return None, None
    refused = re.match("edit ([0-9]+): (.*)", reported)
    if status != 12 or not refused:
        raise Broken(status, f"live ended with {status}: {reported.strip()}")
    return int(refused[1]), refused[2]


def left_by(edits):
    """What edits leave, none of which is refused: pairs of a place in their list and an entry, in the order of these."""
    left = {}
    for i, edit in enumerate(edits):
        if "remove" in edit:
            del left[edit["remove"]]
        else:
            left[edit["id"]] = (i, edit)
    return list(left.values())


def place_of(path, places):
    """The path that a path in the policies had in the edits, of which these places are left."""
    if path[:1] != ("policies",):
        return path
    return ("edits", places[path[1]], *path[2:]) if len(path) > 1 else ("edits",)
