"""The examples of examples/cedar/: from text and from JSON the same document but for places, and the
answers of the one written by hand."""
import json

from cedar.tests.shared import COMMANDS, EXAMPLES, make, plain, run, text_of, without_places


def decisions():
    """EXAMPLE, REQUEST, DECISION and the reasons of each line."""
    for line in (EXAMPLES / "decisions.txt").read_text().splitlines():
        if line and not line.startswith("#"):
            name, request, decision, *reasons = line.split(" ", 3)
            yield name, request, decision, reasons[0].split("; ") if reasons else []


def forms(folder, request):
    """The files of an example as text, and as JSON."""
    shared = {"entities": folder / "entities.json", "request": folder / f"request{request}.json"}
    text = {"schema": folder / "schema.cedarschema", "policies": folder / "policies.cedar", **shared}
    if (folder / "links.json").exists():
        text["links"] = folder / "links.json"
    return text, {"schema": folder / "schema.json", "policies": folder / "policies.json", **shared}


def answers(program, name, documents, commands):
    """What is wrong with the answers of documents that say the same."""
    for command in commands:
        found = {form: run(program, command, document) for form, document in documents.items()}
        expected = found["by hand"]
        for form, answer in found.items():
            if answer != expected and (form == "JSON" or without_places(answer) != without_places(expected)):
                yield f"{name}: {' '.join(command)} {form}: {answer}, by hand: {expected}"


def test(program):
    wrong, count = [], 0
    for name, request, decision, reasons in decisions():
        folder = EXAMPLES / name
        text, as_json = (make(given) for given in forms(folder, request))
        wrong += [line for made in (text, as_json) for line in made.lines if "refused" in line]
        if plain(text.document) != plain(as_json.document):
            wrong.append(f"{name} {request}: the documents of text and of JSON differ")
        by_hand = json.loads((folder / "document.json").read_text())
        by_hand["request"] = as_json.document["request"]
        documents = {"by hand": json.dumps(by_hand).encode(), "text": text_of(text), "JSON": text_of(as_json)}
        wrong += answers(
            program, f"{name} {request}", documents, COMMANDS if request == "0" else (["request"], ["slice"])
        )
        status, answer = run(program, ["decide"], documents["text"])
        found = json.loads(answer) if status == 0 else {}
        if (found.get("decision"), found.get("reasons")) != (decision, reasons):
            wrong.append(f"{name} {request}: {status} {answer}")
        count += 1
    return count, wrong
