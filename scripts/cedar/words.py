"""The words of a call that name Cedar's files."""
from dataclasses import dataclass, field

REPEATED = ("policies", "links", "entities", "requests")  # these may be given several times
CEDAR = {  # as the `cedar` command has them
    "--schema": "schema",
    "-s": "schema",
    "--policies": "policies",
    "-p": "policies",
    "--links": "links",
    "-k": "links",
    "--template-linked": "links",
    "--entities": "entities",
    "--request": "request",
    "--request-json": "request",
    "--principal": "principal",
    "-l": "principal",
    "--action": "action",
    "-a": "action",
    "--resource": "resource",
    "--context": "context",
    "-c": "context",
}
FROM_CEDAR = CEDAR | {"-r": "resource"}
FRONT = CEDAR | {"-e": "entities", "-r": "request"}
ENTRIES = ("principal", "action", "resource")


class Usage(Exception):
    """What is wrong with the words of a call."""


@dataclass
class Words:
    """The files by their words, the flags, the values of other options, and the words besides."""

    given: dict = field(default_factory=dict)
    flags: set = field(default_factory=set)
    values: dict = field(default_factory=dict)
    rest: list = field(default_factory=list)

    def put(self, name, word, value):
        if word in REPEATED:
            self.given.setdefault(word, []).append(value)
        elif word in self.given:
            raise Usage(f"{name} is given twice")
        else:
            self.given[word] = value


def parsed(words, table, flags=(), valued=(), last=None):
    """The words taken apart. An option may have its value behind `=`; behind the option `last` all is besides."""
    made, left = Words(), list(words)
    while left:
        word = left.pop(0)
        name, equals, value = word.partition("=")
        if word == last:
            made.rest += left
            made.flags.add(last)
            return made
        if word in flags:
            made.flags.add(word)
        elif name in table or name in valued:
            if not equals and not left:
                raise Usage(f"{word} needs a value")
            value = value if equals else left.pop(0)
            if name in table:
                made.put(name, table[name], value)
            else:
                made.values[name] = value
        elif word.startswith("-") and word != "-":
            raise Usage(f"{word} is no option")
        else:
            made.rest.append(word)
    return made


def check(given, optional=()):
    """What the words of a request need of one another."""
    entries = [word for word in (*ENTRIES, "context") if word in given]
    if "schema" not in given:
        raise Usage("--schema is missing")
    if entries and "request" in given:
        raise Usage(f"--request and --{entries[0]} exclude each other")
    if entries and not set(ENTRIES) - set(optional) <= set(given):
        raise Usage("--principal, --action and --resource are given together")
    names = [name for one in given.values() for name in (one if isinstance(one, list) else [one])]
    if names.count("-") > 1:
        raise Usage("standard input is read once")
