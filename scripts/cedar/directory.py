"""palvumiose_directory on Cedar's own files."""
import json
import os
import pathlib
import subprocess
import sys

from cedar import documents, files, words
from cedar.command import tell_report
from findings import Broken, checked
from script import TOP, complain

PROGRAM = TOP / "release/palvumiose_directory-x86_64-linux"
NEEDS = {
    "import": (("entities", "-e ENTITIES"),),
    "check": (),
    "decide": (("policies", "-p POLICIES"), ("request", "-r REQUESTS")),
}
DATABASE = 13  # the status where the file can't be used
SQLITE = b"SQLite format 3\0"


def main(given):
    """`directory import DB`, `check DB` or `decide DB`, with Cedar's files."""
    asked = words.parsed(given, words.FRONT, ("--quiet", "-q"), ("--program",))
    if len(asked.rest) != 2 or asked.rest[0] not in NEEDS:
        raise words.Usage("expected directory import DB, check DB or decide DB, and files")
    command = asked.rest[0]
    words.check(asked.given)
    missing = [name for part, name in NEEDS[command] if part not in asked.given]
    if missing:
        raise words.Usage(f"directory {command} needs {' '.join(missing)}")
    if "request" in asked.given:
        asked.given["requests"] = [asked.given.pop("request")]
    program = asked.values.get("--program", str(PROGRAM))
    if not os.access(program, os.X_OK):
        return complain(f"{program} is no program", 125)
    file = pathlib.Path(asked.rest[1])
    if file.exists() and not file.is_file():
        return complain(f"{file} is no ordinary file", DATABASE)  # the program would wait for what a FIFO may bring
    made = files.make(asked.given)
    quiet = bool({"--quiet", "-q"} & asked.flags)
    if made.report.refused:
        return tell_report(made, quiet)
    status = ran(program, asked.rest, lines(command, made.document))
    tell_report(made, quiet)
    hint = hint_for(file) if status == DATABASE else None
    return complain(hint, status) if hint else status


def hint_for(file):
    """What of a database's header the program does not take, and how to change it."""
    try:
        with file.open("rb") as opened:
            header = opened.read(100)
    except OSError as fault:
        return f"{file} can't be read: {fault.strerror}"
    if not os.access(file, os.W_OK) or not os.access(file.parent, os.W_OK):
        return f"{file} and its folder have to be writable"
    if not header.startswith(SQLITE) or len(header) < 100:
        return None
    if header[56:60] in (b"\0\0\0\2", b"\0\0\0\3"):
        return f"{file} has texts in UTF-16: make one with `PRAGMA encoding = 'UTF-8'`, and copy the rows"
    if any(header[52:56]):
        return f"{file} has auto_vacuum: `PRAGMA auto_vacuum = NONE; VACUUM` in SQLite's shell takes it away"
    return None


def lines(command, document):
    """What the program reads: a document in one line, and for `decide` the requests, a line each."""
    if command != "decide":
        return documents.text_of(document, in_one_line=True)
    asked = {part: document[part] for part in ("schema", "policies") if part in document}
    requests = (json.dumps(one, ensure_ascii=False) for one in document["requests"])
    return documents.text_of(asked, in_one_line=True) + "".join(f"{request}\n" for request in requests)


def ran(program, rest, text):
    """Runs the program, which a limit of file size does not end by a signal: Python ignores that signal, and so does
    what it starts here."""
    try:
        answer = subprocess.run(
            [program, *rest], input=text.encode(), stdout=subprocess.PIPE, check=False, restore_signals=False
        )
    except OSError as fault:
        raise Broken(125, f"{program} can't be run: {fault.strerror}") from None
    sys.stdout.write(answer.stdout.decode(errors="replace"))
    sys.stdout.flush()
    return checked(program, answer.returncode)
