"""The words of scripts/from-cedar."""
import gc
import sys

from cedar import documents, explain, files, located, words
from findings import Broken
from script import complain

HELP = """usage: scripts/from-cedar --schema FILE [--policies FILE] [--links FILE] [--entities FILE] [REQUEST]
                          [--explain COMMAND [WORD]]

Makes one document of this repository (docs/FORMAT.md) of what Cedar has, and writes it to standard
output:

  scripts/from-cedar --schema s.cedarschema --policies p.cedar --entities e.json \\
                     --request r.json > document.json
  scripts/from-cedar --schema s.cedarschema --policies p.cedar --explain check

  --schema FILE    (-s) a schema: Cedar's text or JSON
  --policies FILE  (-p) policies: Cedar's text (static policies and templates), a policy set as JSON,
                   or one policy as JSON
  --links FILE     (-k, --template-linked) links of templates: what `cedar link` keeps, or a list as in
                   a policy set
  --entities FILE  entities: JSON
  REQUEST          --request FILE (--request-json): JSON with principal, action, resource, context; or
                   --principal UID --action UID --resource UID (-l, -a, -r) as User::"alice", and
                   --context FILE (-c): JSON

The form of a file is known by its content, not by its name; - is standard input. --policies, --links and --entities
may be given several times. A folder means the .cedar files (entities: .json) in it and below it, by
their names. Policies are numbered through all files. A request needs entities, if only [].

  --explain COMMAND [WORD]  the last words of the call: answers the document by scripts/palvumiose
                   COMMAND, with each finding's place as FILE:LINE:COLUMN, its line and carets
                   underneath; the status is that of the program

  --line           the document in one line
  --quiet          (-q) no notes on what is dropped and added
  --program PROGRAM  with --explain, asks this program and not the one that scripts/palvumiose chooses

Standard error has a line FILE:LINE:COLUMN: .. for what is dropped (annotations; a policy's id is
the text of its @id, else policy0, policy1, ..), and for what is added (entities of actions that the schema
puts below others), both after the answer. It has one for all that is refused: what is not Cedar, and what
has no counterpart here. Where anything is refused, no document is written.

Lines and columns count from 1, columns in characters. `at` in the document counts bytes of the
policies' text, from 0.

Status: 0 done; 2 usage; 3 something is refused; 8 a file can't be read; 9 the document can't be written;
with --explain else that of the program. Nothing of this is proved.
"""


KEPT = []  # what was read, to the end of the process: freeing it takes a tenth of the time


def parsed(given):
    """The words, and the command that is to be explained."""
    made = words.parsed(given, words.FROM_CEDAR, ("--quiet", "-q", "--line"), ("--program",), last="--explain")
    if "--explain" in made.flags and not made.rest:
        raise words.Usage("--explain needs a command, as check")
    if made.rest and "--explain" not in made.flags:
        raise words.Usage(f"{made.rest[0]} is no option")
    words.check(made.given)
    if {"request", "principal"} & set(made.given) and "entities" not in made.given:
        raise words.Usage("--entities is missing: a request is decided on entities, if only on those of a file with []")
    return made


def tell_report(made, quiet=False):
    """Writes what is dropped, added and refused to standard error, the latter with the lines of its places; the status
    that what is refused ends with, or 0."""
    for line, place in made.report.placed_lines(quiet):
        sys.stderr.write(line + "\n")
        if place is not None and place.source.text:
            sys.stderr.write("".join(one + "\n" for one in located.spot_of(place).excerpt()))
    return (8 if made.unread else 3) if made.report.refused else 0


def main(given, program=None):
    try:
        asked = parsed(given)
    except words.Usage as why:
        return complain(f"{why}; scripts/from-cedar --help says more", 2)
    sys.setrecursionlimit(10000)
    gc.disable()  # what is read is kept to the end, and looking through it takes half of the time
    made, quiet = files.make(asked.given), bool({"--quiet", "-q"} & asked.flags)
    KEPT.append(made)
    if made.report.refused:
        return tell_report(made, quiet)
    try:
        status, text = written(asked, made, program)
    except Broken as fault:
        return complain(fault.args[1], fault.args[0])
    sys.stdout.write(text)
    sys.stdout.flush()
    tell_report(made, quiet)
    return status


def written(asked, made, program):
    if "--explain" in asked.flags:
        answer = explain.run(asked.values.get("--program", program), asked.rest, made)
        return answer.status, str(answer)
    return 0, documents.text_of(made.document, "--line" in asked.flags)
