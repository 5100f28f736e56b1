"""Tests of policies: Cedar's own test files, and lines as of scripts/check-lines."""
import json
import pathlib
import subprocess
import sys
from collections import Counter
from dataclasses import dataclass, field
from xml.sax.saxutils import quoteattr

import lines
from cedar import entities, explain, files, words
from cedar.command import tell_report
from cedar.objects import is_text, members
from cedar.places import Place
from cedar.schema import Schema
from findings import Broken, ask
from habits import is_template
from script import complain, program_at
from visible import visible

DECISIONS = {"allow": "Allow", "deny": "Deny", "Allow": "Allow", "Deny": "Deny"}
FLAGS = ("--coverage", "--quiet", "-q")


@dataclass
class Case:
    """A test: where it is, its request and entities, and what is expected."""

    place: Place
    name: str
    request: dict
    stored: list
    decision: str
    reasons: object  # a list, or None where they are not tested
    errors: int


@dataclass
class Result:
    """What has become of a test: `wrong` is empty where it passed."""

    file: str
    name: str
    wrong: str = ""

    def __str__(self):
        return visible(f"FAILED  {self.name}: {self.wrong}")


@dataclass
class Coverage:
    """How often each policy was a reason of a decision, by its id, and which were true in some test."""

    ids: list
    reasons: Counter = field(default_factory=Counter)
    true: set = field(default_factory=set)

    def lines(self):
        covered = [id_ for id_ in self.ids if self.reasons[id_]]
        yield f"{len(covered)} of {len(self.ids)} policies were a reason of a decision"
        rest = [id_ for id_ in self.ids if not self.reasons[id_]]
        for what, ids in (
            ("true, and never a reason", [id_ for id_ in rest if id_ in self.true]),
            ("never true", [id_ for id_ in rest if id_ not in self.true]),
        ):
            if ids:
                yield f"{what}: {', '.join(map(visible, ids))}"


class Reader:
    """Reads the tests of Cedar's files."""

    def __init__(self, made, given=()):
        self.made, self.report, self.known = made, made.report, {}
        self.schema = Schema(made.report)
        self.schema.types, self.schema.actions = (made.document["schema"][part] for part in ("entityTypes", "actions"))
        self.schema.attributes = {name: type_.get("attributes", {}) for name, type_ in self.schema.types.items()}
        self.schema.tags = {name: type_["tags"] for name, type_ in self.schema.types.items() if "tags" in type_}
        self.schema.contexts = {tuple(one["id"]): one.get("context", {}) for one in self.schema.actions}
        self.stored = made.document.get("entities") if "entities" in given else None

    def cases(self, source):
        """The tests of a file."""
        value, top = files.json_value(source, self.made), Place(source)
        if value is None:
            return []
        if not isinstance(value, list) or not value:
            self.report.no(top, "expected a list of tests, of one or more")
            return []
        return [self.case(one, top[i], i) for i, one in enumerate(value)]

    def case(self, value, place, index):
        needed = ("request", "decision") + (("entities",) if self.stored is None else ())
        known = ("name", "entities", "reason", "reasons", "num_errors")
        if not members(value, place, self.report, needed, known) or not is_text(value, place, self.report, "decision"):
            return None
        if value["decision"] not in DECISIONS:
            return self.report.no(place["decision"], "expected `allow` or `deny`")
        given, errors = [value[part] for part in ("reason", "reasons") if part in value], value.get("num_errors", 0)
        if not all(isinstance(ids, list) and all(isinstance(one, str) for one in ids) for ids in given):
            return self.report.no(place, "expected `reason` as a list of policies' ids")
        reasons = given[0] if given else None
        if not isinstance(errors, int) or isinstance(errors, bool):
            return self.report.no(place["num_errors"], "expected a number")
        stored = self.stored
        if "entities" in value:
            stored = self.store(value["entities"], place["entities"])
        request = entities.request(value["request"], place["request"], self.schema, self.report)
        name = value.get("name") or f"test {index + 1}"
        return Case(place, str(name), request, stored, DECISIONS[value["decision"]], reasons, errors)

    def store(self, value, place):
        """The entities of a test, with those of actions; equal ones of several tests are one list."""
        key = json.dumps(value, default=lambda number: {"": {"": number.text}})  # which is no text
        if key not in self.known:
            found = [one for one, _ in entities.store(value, place, self.schema, self.report, {})]
            added = entities.missing_actions(found, self.schema, Place(self.made.source("schema")), self.report)
            self.known[key] = found + added
        return self.known[key]


def judged(case, answer):
    """What is wrong with the answer to a test, or nothing."""
    if "refused" in answer:
        return f"the request is refused: {answer['refused']}"
    wrong = []
    if answer["decision"] != case.decision:
        wrong.append(f"expected {case.decision}, found {answer['decision']}")
    if case.reasons is not None and set(case.reasons) != set(answer["reasons"]):
        wrong.append(f"expected the reasons {sorted(set(case.reasons))}, found {answer['reasons']}")
    if case.errors != len(answer["errors"]):
        wrong.append(f"expected {case.errors} errors, found {answer['errors']}")
    return "; ".join(wrong)


def grouped(cases):
    """The tests by their entities."""
    groups = {}
    for case in cases:
        groups.setdefault(id(case.stored), []).append(case)
    return groups.values()


def batch(program, document, cases, ask=ask):
    """The answers to tests with the same entities, or why there are none."""
    asked = {part: document[part] for part in ("schema", "policies")}
    asked |= {"entities": cases[0].stored, "requests": [case.request for case in cases]}
    status, reported = ask(program, ["batch"], asked)
    if status == 5:
        return [{"refused": reported.strip()}] * len(cases)
    if status != 0:
        raise Broken(status, f"batch ended with {status}: {reported.strip()}")
    return [json.loads(line) for line in reported.split("\n")[:-1]]


def run_cases(program, document, cases, coverage, ask=ask):
    """The results of tests, in their order."""
    results = {}
    for group in grouped(cases):
        for case, answer in zip(group, batch(program, document, group, ask)):
            coverage.reasons.update(answer.get("reasons", ()))
            results[id(case)] = Result(case.place.source.name, f"{case.place.short()}: {case.name}", judged(case, answer))
    return [results[id(case)] for case in cases]


def note_true(program, document, cases, coverage, ask=ask):
    """Finds out which of the policies that were never a reason are true in some test: each is asked alone, as a
    permit."""
    policies = {policy["id"]: policy for policy in document["policies"]}
    for id_ in coverage.ids:
        own = policies[id_]
        alone = [policies[own["link"]] | {"effect": "permit"}, own] if "link" in own else [own | {"effect": "permit"}]
        for group in () if coverage.reasons[id_] else grouped(cases):
            answers = batch(program, document | {"policies": alone}, group, ask)
            if any(answer.get("decision") == "Allow" for answer in answers):
                coverage.true.add(id_)
                break


def run_lines(program, name):
    """The results of a file of lines."""
    for number, line in lines.lines_of(pathlib.Path(name)):
        wrong = []
        for command in line.commands:
            ran = subprocess.run([program, *command], input=line.document, capture_output=True, check=False)
            reported = ran.stdout.decode(errors="replace")
            if (ran.returncode, reported) != (line.status, line.reported):
                wrong.append(f"{' '.join(command)}: {ran.returncode} {reported.rstrip()}")
        yield Result(name, f"{name}:{number}", "; ".join(wrong))


def junit(results):
    """The results as JUnit's XML."""

    def attribute(text):
        return quoteattr("".join(c for c in visible(text) if c not in "\ufffe\uffff"))

    by_file = {}
    for result in results:
        by_file.setdefault(result.file, []).append(result)
    yield '<?xml version="1.0" encoding="UTF-8"?>\n<testsuites>'
    for file, found in by_file.items():
        failed = sum(bool(result.wrong) for result in found)
        yield f'<testsuite name={attribute(file)} tests="{len(found)}" failures="{failed}">'
        for result in found:
            head = f"<testcase classname={attribute(file)} name={attribute(result.name)}"
            yield f"{head}><failure message={attribute(result.wrong)}/></testcase>" if result.wrong else f"{head}/>"
        yield "</testsuite>"
    yield "</testsuites>\n"


def main(given):
    asked = words.parsed(given, words.FRONT, FLAGS, ("--junit", "--program"))
    if not asked.rest:
        raise words.Usage("test needs a file with tests")
    program = program_at(asked.values.get("--program"))
    if not program:
        return 125
    try:
        return tested(asked, program)
    except lines.Fault as fault:
        return complain(fault, 3)


def tested(asked, program):
    texts, results, coverage = [], [], Coverage([])
    made = files.make(asked.given) if asked.given else files.Made()
    for name in asked.rest:
        source = files.opened(name, made)
        if source is not None and source.text.lstrip()[:1] in ("[", "{"):
            texts.append(source)
        elif source is not None:
            results += run_lines(program, name)
    if texts and not made.report.refused:
        words.check(asked.given)
        if "policies" not in asked.given:
            raise words.Usage("test needs -p POLICIES")
        status = run_texts(asked, program, made, texts, results, coverage)
        if status:
            return status
    if made.report.refused:
        return tell_report(made, quiet=True)
    return reported(asked, results, coverage)


def run_texts(asked, program, made, texts, results, coverage):
    """Runs the tests of Cedar's files; the status where the policies have errors or a file is refused, else 0."""
    reader = Reader(made, asked.given)
    cases = [case for source in texts for case in reader.cases(source)]
    if made.report.refused:
        return tell_report(made, quiet=True)
    checked = explain.run(program, ["check"], made)
    if checked.status:
        sys.stdout.write(str(checked))
        return checked.status
    coverage.ids += [policy["id"] for policy in made.document["policies"] if not is_template(policy)]
    results += run_cases(program, made.document, cases, coverage)
    if "--coverage" in asked.flags:
        note_true(program, made.document, cases, coverage)
    return 0


def reported(asked, results, coverage):
    failed = [result for result in results if result.wrong]
    for result in failed:
        print(result)
    if "--coverage" in asked.flags and coverage.ids:
        for line in coverage.lines():
            print(line)
    if "--junit" in asked.values:
        pathlib.Path(asked.values["--junit"]).write_text("\n".join(junit(results)), encoding="utf-8", errors="replace")
    print(f"{len(results) - len(failed)} passed, {len(failed)} failed")
    return 1 if failed or not results else 0
