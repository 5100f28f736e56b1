"""What the tests share: making documents of texts, running the program, and documents without
places."""
import os
import pathlib
import re
import subprocess
import tempfile

from cedar import documents, files

TOP = pathlib.Path(__file__).resolve().parents[3]
EXAMPLES = TOP / "examples/cedar"
COMMANDS = (["check"], ["level", "1"], ["manifest"], ["request"], ["decide"], ["slice"])
PLACE = re.compile(rb"^((?:error|warning) \w+) at \d+\.\.\d+:", re.M)
COUNT = re.compile(rb"errors \d+(?=, warnings \d+$)")


def make(given):
    """What is made of texts (or of the names of files, as paths), by their words."""
    with tempfile.TemporaryDirectory() as folder:
        words = {}
        for word, text in given.items():
            words[word] = text
            if isinstance(text, pathlib.Path):
                words[word] = str(text)
            elif word not in ("principal", "action", "resource"):
                words[word] = os.path.join(folder, word)
                with open(words[word], "wb") as file:
                    file.write(text.encode() if isinstance(text, str) else text)
        made = files.make(words)
        made.lines = [line.replace(folder + os.sep, "") for line in made.report.lines()]
        return made


def text_of(made):
    return documents.text_of(made.document).encode()


def run(program, command, document):
    """The status and the text of the program."""
    ran = subprocess.run([program, *command], input=document, stdout=subprocess.PIPE)
    return ran.returncode, ran.stdout


def without_places(answer):
    """An answer without places, each of its lines once, and without the count of findings: without
    places equal ones are one."""
    status, text = answer
    lines = PLACE.sub(rb"\1:", text).split(b"\n")
    return status, list(dict.fromkeys(COUNT.sub(b"errors", line) for line in lines))


def plain(value):
    """JSON of a document without `at`, with the chains of `all`, `any`, `get` and `if` in one."""
    if isinstance(value, list):
        return [plain(x) for x in value]
    if not isinstance(value, dict):
        return value
    if set(value) == {"at", "of"}:
        return plain(value["of"])
    made = {k: plain(x) for k, x in value.items()}
    for form, index in (("all", 0), ("any", 0), ("get", 0), ("if", -1)):
        inner = made.get(form)
        while (
            set(made) == {form}
            and isinstance(inner, list)
            and inner
            and isinstance(inner[index], dict)
            and set(inner[index]) == {form}
        ):
            inner = inner[index][form] + inner[1:] if index == 0 else inner[:-1] + inner[index][form]
            made[form] = inner
    return made
