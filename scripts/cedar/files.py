"""The files of one call: reads each in its form, which is known by what it holds, and makes the document."""
import bisect
import errno
import os
import sys

from cedar import documents, entities, json_text, plain_store, policy_json, policy_text, schema_text
from cedar.objects import uid_of_text
from cedar.places import Place, Report, Source
from cedar.schema import Schema

ENDINGS = {"policies": ".cedar", "entities": ".json"}  # of the files that a folder is taken for
MARGIN = 10
MOST_OTHERS = 5  # so many other files of a folder are named


class Made:
    """The document that is made, and where its parts come from: `texts` has the sources of each kind of files, `policies`
    the policies and links, `stored` and `asked` the places of the entities and requests (None of an entity that is of no
    file), `entries` those of a request that is given in words. `unread` says whether a file can't be read."""

    def __init__(self):
        self.document, self.texts, self.policies, self.stored, self.asked, self.entries = {}, {}, [], [], [], {}
        self.report, self.unread = Report(), False

    def source(self, word):
        """The first text of a kind of files, or None."""
        return self.texts[word][0] if self.texts.get(word) else None

    def source_at(self, byte):
        """The text of policies in which an `at` of the document is, and the offset there."""
        texts = [text for text in self.texts.get("policies", []) if not text.is_json]
        if not texts:
            return None, 0
        text = texts[max(0, bisect.bisect_right([text.base for text in texts], byte) - 1)]
        return text, text.offset(byte - text.base)


def bytes_in(name):
    if name != "-":
        with open(name, "rb") as file:
            return file.read()
    if sys.stdin is None:
        raise OSError(errno.EBADF, "it is closed")
    return sys.stdin.buffer.read()


def opened(name, made):
    """The text of a file, as a source; None where there is none. What is a source already is taken as it is."""
    source = name if isinstance(name, Source) else source_of(name, made)
    if source is not None and source.text.startswith("\ufeff"):
        return made.report.no(Place(source, 0), "a byte order mark, which Cedar does not read")
    return source


def source_of(name, made):
    try:
        read = bytes_in(name)
        return Source("standard input" if name == "-" else name, read.decode("utf-8"))
    except OSError as fault:
        made.unread = True
        return made.report.no(Place(Source(name, "")), f"it can't be read: {fault.strerror}")
    except UnicodeDecodeError as fault:
        front = Source(name, read[: fault.start].decode())
        return made.report.no(Place(front, len(front.text)), "no UTF-8")


def names_in(word, given, made):
    """The names of the files of one kind; a folder is taken for the files in it and below it, by their names."""
    for name in given[word] if isinstance(given[word], list) else [given[word]]:
        if isinstance(name, Source) or word not in ENDINGS or not os.path.isdir(name):
            yield name
        else:
            yield from files_below(name, ENDINGS[word], made)


def files_below(folder, ending, made):
    """The files in a folder and below it, by their names. What can't be looked through is refused, as a forbid may be
    there; files of other endings are named in a note."""

    def unread(what, why):
        made.unread = True
        made.report.no(Place(Source(what, "")), why)

    def failed(fault):
        unread(fault.filename, f"it can't be read: {fault.strerror}")

    found, others = [], []
    for here, folders, files in os.walk(folder, onerror=failed):
        folders[:] = [name for name in folders if not name.startswith(".")]
        for name in folders:
            if os.path.islink(os.path.join(here, name)):
                unread(os.path.join(here, name), "a link to a folder, which is not followed")
        for name in files:
            if not name.startswith("."):
                (found if name.endswith(ending) else others).append(os.path.join(here, name))
    if others:
        reported = ", ".join(sorted(others)[:MOST_OTHERS]) + (", .." if len(others) > MOST_OTHERS else "")
        made.report.dropped(Place(Source(folder, "")), f"files that do not end with {ending}: {reported}")
    if not found:
        unread(folder, f"no file in this folder ends with {ending}")
    return sorted(found)


def sources(word, given, made):
    """The texts of one kind of files, each once it can be read; they are kept with what is made."""
    for name in names_in(word, given, made) if word in given else ():
        source = opened(name, made)
        if source is not None:
            source.is_json = source.text.lstrip()[:1] in ("{", "[")
            made.texts.setdefault(word, []).append(source)
            yield source


def values(word, given, made):
    """The JSON values of one kind of files, each with its place."""
    for source in sources(word, given, made):
        value = json_value(source, made)
        if value is not None:
            yield value, Place(source)


def json_value(source, made):
    source.finder, source.is_json = json_text.Finder(), True
    return json_text.load(source, made.report)


def read_schema(given, made):
    schema = Schema(made.report)
    for source in sources("schema", given, made):
        value = json_value(source, made) if source.is_json else schema_text.read(source, made.report)
        if value is not None:
            schema.read(value, Place(source))
    return schema


def read_policies(given, made):
    """The policies and links. Texts are as if they were one, one behind another: in numbers of policies, and in the
    bytes of places."""
    static, links, base = [], [], 0
    for source in sources("policies", given, made):
        if source.is_json:
            value = json_value(source, made)
            if value is not None:
                found, also = policy_json.read(value, Place(source), made.report, len(static))
                static, links = static + found, links + also
        else:
            source.base = base
            base += len(source.text.encode()) + 1
            static += policy_text.read(source, made.report, len(static))
    for value, top in values("links", given, made):
        links = links + policy_json.links(value, top, made.report)
    made.policies = static + links
    return documents.policies(static, links, made.report)


def stored_in(source, made, schema, known):
    """The entities of a text, and their places."""
    source.finder, source.is_json = json_text.Finder(), True
    plain = plain_store.read(source, schema, known)
    if plain:
        return plain
    value = json_text.load(source, made.report)
    found = [] if value is None else entities.store(value, Place(source), schema, made.report, known)
    return [one for one, _ in found], [place for _, place in found]


def read_entities(given, made, schema):
    known, found = {}, []
    for source in sources("entities", given, made):
        stored, places = stored_in(source, made, schema, known)
        found += stored
        made.stored += places
    if not {"entities", "request", "requests", "action"} & set(given) or "schema" not in made.texts:
        return found
    added = entities.missing_actions(found, schema, Place(made.source("schema")), made.report)
    made.stored += [None] * len(added)
    return found + added


def read_request(given, made, schema, optional):
    """The request: of its file, or of words with perhaps a file of the context."""
    if "action" not in given:
        for value, top in values("request", given, made):
            return entities.request(value, top, schema, made.report, optional)
        return None
    found = {}
    for part in (part for part in entities.PARTS if part in given):
        made.entries[part] = Place(Source(f"--{part}", given[part]), 0)
        found[part] = uid_of_text(given[part], made.entries[part], made.report)
    if "context" not in given:
        made.report.added(Place(Source("--context", ""), 0), "an empty context")
        return {**found, "context": {}}
    for value, top in values("context", given, made):
        found["context"] = entities.context(value, found["action"], top, schema, made.report)
    return found


def read_requests(given, made, schema):
    """The requests of files, each of which has a list of one or more, or one request."""
    found = []
    for value, top in values("requests", given, made):
        several = value if isinstance(value, list) else [value]
        for i, one in enumerate(several):
            made.asked.append(top[i] if several is value else top)
            found.append(entities.request(one, made.asked[-1], schema, made.report))
        if not several:
            made.report.no(top, "expected one request or more")
    return found


def make(given, optional=()):
    """The document of the files that are given by their words, each word with a name or a list of names; it counts only
    where the report refuses nothing. Of a request the parts that are optional may be absent."""
    made = Made()
    schema = read_schema(given, made)
    document = {"schema": schema.document()}
    if "policies" in given or "links" in given:
        document["policies"] = read_policies(given, made)
    store = read_entities(given, made, schema)
    if store or "entities" in given:
        document["entities"] = store
    request = read_request(given, made, schema, optional)
    if request is not None:
        document["request"] = request
    if "requests" in given:
        document["requests"] = read_requests(given, made, schema)
    made.document = document
    if not made.report.refused:
        tell_depth(made)
    return made


def tell_depth(made):
    """Refuses what would nest deeper than the program reads; policies are cut to fit before."""
    for word in ("schema", "entities", "request", "requests"):
        part, texts = made.document.get(word), made.texts.get(word, [])
        if texts and all(text.depth is not None and 2 * text.depth + MARGIN < documents.NESTED for text in texts):
            continue  # a record of Cedar's nests twice as deep in the document, at most
        if part is not None and documents.depth(part) + 1 > documents.NESTED and word in made.texts:
            made.report.no(
                Place(made.source(word)),
                f"its part of the document nests deeper than {documents.NESTED}, which is not read",
            )
