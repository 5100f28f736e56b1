"""Tests of the policies in the page, as scripts/palvumiose test reads and runs them."""
from cedar import cases
from cedar.places import Source
from findings import Broken
from habits import is_template

from playground_page.reading import CedarTexts, placed, reported

NONE = "Tests are for Cedar’s text and JSON: a list in the part `tests`, as in docs/FROM_CEDAR.md."


def tested(read, parts, program, faults):
    """The results of the tests, and how far they reach; or why there are none. Faults of the tests join the others."""
    text = parts.get("tests", "")
    if not isinstance(read, CedarTexts) or not text.strip():
        return {"refused": NONE}
    given = [part for part in parts if parts[part].strip()]
    reader = cases.Reader(read.made, given)
    found = reader.cases(Source("tests", text))
    if read.made.report.refused:
        faults += [reported(*one) for one in read.made.report.refused.values() if one]
        return {"refused": "The tests are not read."}
    policies = read.document.get("policies", [])
    coverage = cases.Coverage([policy["id"] for policy in policies if not is_template(policy)])
    document = read.document | {"policies": policies}
    try:
        results = cases.run_cases(program.path, document, found, coverage, program.ask)
        cases.note_true(program.path, document, found, coverage, program.ask)
    except Broken as fault:
        return {"refused": str(fault.args[1])}
    pairs = zip(found, results)
    shown = [{"name": case.name, "wrong": one.wrong, "spans": [placed(case.place)]} for case, one in pairs]
    return {"results": shown, "coverage": list(coverage.lines())}
