#!/usr/bin/env python3
"""What scripts/palvumiose does with Cedar's own files: its --help says more. Called by it, with a command and words of
which one names a schema."""
import gc
import json
import pathlib
import sys

sys.dont_write_bytecode = True
SCRIPTS = pathlib.Path(__file__).resolve().parents[1]
if __name__ == "__main__":
    sys.path[:1] = [str(SCRIPTS), str(SCRIPTS / "lib")]

from script import bytes_of, complain, program_at, run  # noqa: E402

from dataclasses import dataclass  # noqa: E402

import linting  # noqa: E402
from cedar import cases, compare, directory, documents, explain, fail_open, files, words  # noqa: E402
from cedar.command import tell_report  # noqa: E402
from findings import Broken  # noqa: E402
from refusals import faults_in  # noqa: E402
from review import table  # noqa: E402
from visible import visible  # noqa: E402

POLICIES, ENTITIES, REQUEST = ("policies", "-p POLICIES"), ("entities", "-e ENTITIES"), ("request", "-r REQUEST")


@dataclass(frozen=True)
class Command:
    """What a command needs: how many words, and which files."""

    words: tuple
    needs: tuple
    usage: str


COMMANDS = {
    "check": Command((0,), (POLICIES,), "check"),
    "level": Command((1,), (POLICIES,), "level N"),
    "manifest": Command((0,), (POLICIES,), "manifest"),
    "review": Command((0,), (POLICIES,), "review [--plain]"),
    "request": Command((0,), (), "request"),
    "slice": Command((0,), (POLICIES, ENTITIES, REQUEST), "slice"),
    "decide": Command((0,), (POLICIES, ENTITIES, REQUEST), "decide"),
    "batch": Command((0,), (POLICIES, ENTITIES, REQUEST), "batch"),
    "list": Command((1, 3), (POLICIES, ENTITIES, REQUEST), "list LIMIT [TYPE EID]"),
}
QUIET = ("--quiet", "-q")
FLAGS = (*QUIET, "--plain", "--table")
SEVERAL = ("batch",)  # these take several requests
OPTIONAL = {"list": ("principal",)}  # what of the request may be absent


def parsed(command, given):
    """The words of a command; its own are in `rest`."""
    asked = words.parsed(given, words.FRONT, FLAGS, ("--program",))
    expected = COMMANDS[command]
    words.check(asked.given, OPTIONAL.get(command, ()))
    if command in SEVERAL and "request" in asked.given:
        asked.given["requests"] = [asked.given.pop("request")]
    has = set(asked.given) | ({"request"} if {"requests", "action"} & set(asked.given) else set())
    missing = [name for part, name in expected.needs if part not in has]
    if command == "request" and not {"entities", "request"} & has:
        missing = [ENTITIES[1], "or", REQUEST[1]]
    if missing:
        raise words.Usage(f"{command} needs {' '.join(missing)}")
    if len(asked.rest) not in expected.words or {"--plain", "--table"} & asked.flags and command != "review":
        raise words.Usage(f"expected {expected.usage} and files, found {' '.join([command, *asked.rest])}")
    return asked


def review_document(given):
    """The table of a review of a document, which `review --table` asks for."""
    asked = words.parsed(given, {}, FLAGS, ("--program",))
    if len(asked.rest) > 1 or "--plain" in asked.flags:
        raise words.Usage("expected review --table and the name of a document")
    data, fault = bytes_of(asked.rest[0] if asked.rest else None)
    if fault:
        return complain(fault, 8)
    text, faults = faults_in(data, "review")
    if faults:
        return complain("this is no document for review: scripts/why-not review says where and why", 3)
    program = program_at(asked.values.get("--program"))
    if not program:
        return 125
    write(table(program, json.loads(text)))
    return 0


def answer(command, given):
    """Answers a command of the program on Cedar's files."""
    if command == "review" and "--table" in given and not set(words.FRONT) & {word.partition("=")[0] for word in given}:
        return review_document(given)
    asked = parsed(command, given)
    program = program_at(asked.values.get("--program"))
    if not program:
        return 125
    made, quiet = files.make(asked.given, OPTIONAL.get(command, ())), bool(set(QUIET) & asked.flags)
    if made.report.refused:
        return tell_report(made, quiet)
    reported = explain.run(program, [command, *asked.rest], made)
    if command == "review" and reported.status == 0 and "--plain" not in asked.flags:
        reported.text = table(program, made.document)
    write(str(reported))
    tell_report(made, quiet)
    return reported.status


def write(text):
    """Writes an answer; on a terminal with what it hides as escapes."""
    if sys.stdout.isatty():
        text = "\n".join(map(visible, text.split("\n")))
    sys.stdout.write(text)
    sys.stdout.flush()


def document(given):
    """Writes the document that is made of Cedar's files."""
    asked = words.parsed(given, words.FRONT, (*QUIET, "--line"))
    words.check(asked.given)
    made, quiet = files.make(asked.given), bool(set(QUIET) & asked.flags)
    if made.report.refused:
        return tell_report(made, quiet)
    sys.stdout.write(documents.text_of(made.document, "--line" in asked.flags))
    sys.stdout.flush()
    return tell_report(made, quiet)


OTHERS = {
    "lint": linting.main,
    "test": cases.main,
    "compare": compare.main,
    "fail-open": fail_open.main,
    "directory": directory.main,
    "document": document,
}


def main(given):
    sys.setrecursionlimit(10000)
    gc.disable()  # what is read is kept to the end, and looking through it takes half of the time
    command, rest = given[0], given[1:]
    try:
        if command in OTHERS:
            return OTHERS[command](rest)
        if command in COMMANDS:
            return answer(command, rest)
        raise words.Usage(f"{command} does not take Cedar's files" if command == "live" else f"{command} is no command")
    except words.Usage as why:
        return complain(f"{why}; scripts/palvumiose --help says more", 2)
    except Broken as fault:
        return complain(fault.args[1], fault.args[0])


if __name__ == "__main__":
    sys.argv[0] = "palvumiose"
    run(main, __doc__)
