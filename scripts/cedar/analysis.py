"""palvumiose_analysis on Cedar's own files: what its commands share."""
import os
import subprocess
import sys

from cedar import documents, explain
from cedar.command import tell_report
from findings import Broken, checked
from script import TOP, complain, program_at

PROGRAM = TOP / "release/palvumiose_analysis-x86_64-linux"
QUIET = ("--quiet", "-q")


def programs(values):
    """The program that is asked, and the one that checks the policies; None where one of them is no program."""
    program = values.get("--program", str(PROGRAM))
    if not os.access(program, os.X_OK):
        complain(f"{program} is no program", 125)
        return None
    checker = program_at(values.get("--checker"))
    return (program, checker) if checker else None


def refused(checker, front, made, quiet):
    """Says why one side is no set of policies, or is not accepted, with the places in its files; the status, or 0."""
    if made.report.refused:
        return tell_report(made, quiet)
    answer = explain.run(checker, ["check"], made)
    if answer.status:
        sys.stdout.write("".join(f"{front}{line}\n" for line in str(answer).splitlines()))
        sys.stdout.flush()
    return answer.status


def lines_of(program, asked, document):
    """The lines that the program answers on a document."""
    try:
        ran = subprocess.run(
            [program, *asked],
            input=documents.text_of(document, in_one_line=True).encode(),
            stdout=subprocess.PIPE,
            check=False,
        )
    except OSError as fault:
        raise Broken(125, f"{program} can't be run: {fault.strerror}") from None
    text = ran.stdout.decode(errors="replace")
    if checked(program, ran.returncode):
        raise Broken(ran.returncode, text.rstrip("\n") or f"{program} ended with {ran.returncode}")
    return text.removesuffix("\n").split("\n") if text else []
