"""Mutated inputs: each is refused with a place, or makes a document that the program reads; none ends in a traceback."""
import json
import random
import traceback

import linting
import reports
from cedar import explain, to_command
from cedar.tests.examples import forms
from cedar.tests.shared import EXAMPLES, make, run, text_of

MUTANTS, ANSWERED = 500, 60
PIECES = ("(", ")", "{", "}", "[", "]", ",", ";", ":", "::", ".", "\"", "\\", "@", "?", "?principal", "//", "&&", "||", "!", "-", "=", "==", "<", "in", "is", "has", "like",
          "if", "then", "else", "true", "null", "1.5", "-0", "99999999999999999999", "1e999", "\\u{41}", "\\ud800", "\ud800", "\0", "\ufeff", "\u00e9", "__entity", "__extn", "__expr",
          "\"a\": 1,", "principal", "Action::\"x\"", "namespace N {", "entity E;", "enum", "tags Long", "\n", "\r", "(" * 300, "[" * 3000, "{\"a\":" * 200, "-" * 6, "1+" * 80)
NAMES = ("schema", "policies", "entities", "request")


def mutate(r, text):
    for _ in range(r.randint(1, 3)):
        i = r.randrange(len(text) + 1)
        j = min(len(text), i + r.choice([0, 1, 1, 2, 5, 30]))
        put = r.choice(["", r.choice(PIECES), r.choice(PIECES), text[r.randrange(len(text) + 1):][:20]])
        text = text[:i] + put + text[j:]
    return text


def swapped(r, value):
    """JSON with one part in another's place."""
    left, spots = [value], []
    while left:
        x = left.pop()
        for step, y in (x.items() if isinstance(x, dict) else enumerate(x)):
            spots.append((x, step))
            if isinstance(y, (dict, list)):
                left.append(y)
    (a, i), (b, j) = r.choice(spots), r.choice(spots)
    a[i] = r.choice([json.loads(json.dumps(b[j])), None, 1.5, True, [], {}, "x", {"type": "x"}])
    return json.dumps(value)


def mutant(r, given):
    """The files of an example, one of them mutated."""
    texts = {word: path.read_text() for word, path in given.items()}
    word = r.choice([w for w in NAMES if w in texts])
    if texts[word][:1] in ("{", "[") and r.random() < 0.5:
        texts[word] = swapped(r, json.loads(texts[word]))
    else:
        texts[word] = mutate(r, texts[word])
    return {w: t.encode("utf-8", "surrogatepass") for w, t in texts.items()}


def tried(program, given, answered):
    """What is wrong with a mutant, if anything, and whether it made a document."""
    try:
        made = make(given)
        if made.report.refused:
            found, _ = linting.look_at_files(program, made)
            reports.sarif(found)
            str([one for one in found for line in one.lines(True)])
            placed = all(":" in line and line.split(":")[1].isdigit() for line in made.lines)
            return (None if placed else f"a line without a place: {made.lines}"), False
        document = text_of(made)
        for part in to_command.PARTS:
            to_command.reported(part, lambda d, p=part: to_command.PARTS[p](d, False), made.document)
        if answered:
            status, answer = run(program, ["check"], document)
            str(explain.run(program, ["check"], made))
            reports.sarif(linting.look_at_files(program, made)[0])
            if status not in (0, 1) and not answer.startswith(b"document: schema: "):
                return f"{status} {answer}", True
        return None, True
    except Exception:  # noqa: BLE001: a traceback of any kind is what is looked for
        return traceback.format_exc(), False


def test(program):
    r = random.Random("from-cedar, mutated")
    folders = [EXAMPLES / name for name in ("tinytodo", "hotel-chains", "tags-roles", "sales-orgs", "streaming-service")]
    wrong, answered = [], 0
    for i in range(MUTANTS):
        given = mutant(r, r.choice(forms(r.choice(folders), "0")))
        fault, has_document = tried(program, given, answered < ANSWERED)
        answered += has_document
        if fault:
            wrong.append(f"{i}: {fault}: " + str({word: text[:200] for word, text in given.items()}))
    return MUTANTS, wrong
