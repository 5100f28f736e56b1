"""What is in the page's fields, as a document: of Cedar's texts by scripts/cedar, or a document as it is. Each
has `data`, the document's bytes (None where Cedar's texts make none), `value`, their JSON (None where they have none),
`document`, the same (None where it has a fault), `faults` and `notes`, each with its span, and finds the span of a
part of the document."""
import places
from cedar import documents, files
from cedar.located import place_of
from cedar.places import Source
from refusals import faults_in

from playground_page.spans import span

PARTS = ("schema", "policies", "links", "entities", "request")


class CedarTexts:
    """Cedar's texts or JSON, part by part; an empty part is absent."""

    def __init__(self, parts):
        given = {
            part: Source(part, parts[part])
            for part in PARTS
            if part in parts and (part == "schema" or parts[part].strip())
        }
        self.made = files.make(given)
        report = self.made.report
        self.faults = [reported(*one) for one in report.refused.values() if one]
        more = len(report.refused) - len(self.faults)
        if more:
            self.faults.append({"text": f"{more} more", "place": "", "spans": []})
        self.notes = [reported(*one) for one in report.notes.values()]
        self.document = self.value = None if report.refused else self.made.document
        self.data = documents.text_of(self.document).encode() if self.document is not None else None
        self.policies = {policy.name: policy for policy in self.made.policies}

    def span(self, path):
        """The span of a part of the document; None where it is in none of the texts."""
        place = place_of(self.made, path) if path else None
        return placed(place) if place else None

    def policy_span(self, index):
        """The span of a policy: its effect and scope, where it is in Cedar's text."""
        policy = self.made.policies[index]
        return span("policies", policy.place.source.text, *policy.head) if policy.head else placed(policy.place)


class DocumentText:
    """A document as the page has it."""

    notes = ()

    def __init__(self, text):
        self.text, self.data, self.document, self.value = text, text.encode(), None, None
        _, found = faults_in(self.data)
        self.faults = [{"text": what, "place": place, "spans": [self.at(offset)]} for offset, place, what in found]
        try:
            self.value, self.top = places.read(text)
        except places.NoJson:
            return
        if not found:
            self.document = self.value

    def at(self, offset):
        return span("document", self.text, offset)

    def span(self, path):
        return self.at(self.top.find(path))

    def policy_span(self, index):
        return self.span(("policies", index, "id"))


def placed(place):
    return span(place.source.name, place.source.text, place.offset())


def reported(place, text):
    """What a report says at a place."""
    inside = str(place)[len(place.short()) + 2 :]
    return {"text": text, "place": inside, "spans": [placed(place)]}


def read(form, parts):
    return DocumentText(parts.get("document", "")) if form == "document" else CedarTexts(parts)
