"""The examples of the repository, as the page offers them."""
import json
import pathlib

EXAMPLES = pathlib.Path(__file__).resolve().parents[2] / "examples"
TEXT = {
    "schema": "schema.cedarschema",
    "policies": "policies.cedar",
    "links": "links.json",
    "entities": "entities.json",
}
JSON = {
    "schema": "schema.json",
    "policies": "policies.json",
    "entities": "entities.json",
}  # links are in the policy set
GROUPS = (
    ("Small documents", "*.json"),
    ("Policies with findings", "check/*.json"),
    ("Applications, as documents", "applications/*.json"),
)


def examples():
    """All examples: those in Cedar's files with their requests, then documents. A document with many requests or
    with edits is none: the page has no `batch` and no `live`."""
    found = [of_files(folder) for folder in sorted((EXAMPLES / "cedar").iterdir()) if folder.is_dir()]
    for group, pattern in GROUPS:
        for path in sorted(EXAMPLES.glob(pattern)):
            text = path.read_text(encoding="utf-8")
            if not {"requests", "edits"} & set(json.loads(text)):
                found.append(example(path, group, {"document": {"document": text}}, []))
    return found


def example(path, group, forms, requests):
    name = str(path.relative_to(EXAMPLES).with_suffix(""))
    return {"name": name, "title": path.stem, "group": group, "forms": forms, "requests": requests}


def of_files(folder):
    forms = {"text": texts(folder, TEXT), "json": texts(folder, JSON)}
    paths = sorted(folder.glob("request*.json"), key=lambda path: (len(path.name), path.name))
    requests = [{"title": title(path), "text": path.read_text(encoding="utf-8")} for path in paths]
    return example(folder, "Applications, in Cedar's files", forms, requests)


def texts(folder, names):
    """The parts in one of Cedar's forms; what has no file is empty."""
    paths = {part: folder / name for part, name in names.items()}
    return {part: path.read_text(encoding="utf-8") if path.exists() else "" for part, path in paths.items()}


def title(path):
    """What a request is called: the ids of its principal, action and resource."""
    request = json.loads(path.read_text(encoding="utf-8"))
    return " ".join(eid(request[part]) for part in ("principal", "action", "resource"))


def eid(written):
    if isinstance(written, dict):
        return written.get("__entity", written)["id"]
    return written.partition('::"')[2].rpartition('"')[0] or written
