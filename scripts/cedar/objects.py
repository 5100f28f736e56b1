"""What the readers of Cedar's JSON share: objects with known members, names, ids of entities, extension
values."""
import json
import re
from functools import lru_cache

from cedar import extensions
from cedar.json_text import SURROGATE, Number
from cedar.places import Report, Source
from cedar.tokens import RESERVED, Reader, Stop

NAME = re.compile(r"[A-Za-z_][A-Za-z0-9_]*(?:::[A-Za-z_][A-Za-z0-9_]*)*")


def shown(value):
    text = value.text if isinstance(value, Number) else json.dumps(value, ensure_ascii=False, default=lambda n: n.text)
    return text if len(text) <= 60 else text[:60] + ".."


def members(value, place, report, needed=(), known=()):
    """Whether it is an object with the members that are needed; others than the known ones are
    refused."""
    if not isinstance(value, dict):
        return bool(report.no(place, f"expected an object, found {shown(value)}"))
    if len(value) == len(needed) and all(name in value for name in needed):
        return True
    missing = [name for name in needed if name not in value]
    for name in missing:
        report.no(place, f"the member `{name}` is missing")
    for name in value:
        if name not in needed and name not in known:
            report.no(place[name], f"the member `{name}` has no counterpart")
    return not missing


def is_text(value, place, report, *names):
    """Whether these members of an object are texts."""
    wrong = [name for name in names if not isinstance(value[name], str)]
    for name in wrong:
        report.no(place[name], f"expected a text, found {shown(value[name])}")
    return not wrong


def is_list(value, place, report, what):
    return isinstance(value, list) or bool(report.no(place, f"expected a list of {what}, found {shown(value)}"))


@lru_cache(maxsize=1 << 12)
def is_known_name(text):
    return is_name(text)


def is_name(text, single=False):
    """Whether it is a name of Cedar: components without reserved words; or one component alone."""
    good = isinstance(text, str) and NAME.fullmatch(text) and not RESERVED & set(text.split("::"))
    return bool(good) and not (single and "::" in text)


def type_name(name, place, report):
    return name if is_name(name) else report.no(place, f"no name of an entity type: {shown(name)}")


def plain_uid(u):
    """An entity's id where nothing is wrong with it, or None: an object of `type` and `id`, perhaps below `__entity`."""
    if not isinstance(u, dict):
        return None
    if len(u) == 1:
        u = u.get("__entity")
    if isinstance(u, dict) and len(u) == 2:
        kind, eid = u.get("type"), u.get("id")
        if isinstance(eid, str) and isinstance(kind, str) and is_known_name(kind):
            return [kind, eid]
    return None


def uid(u, place, report, text=False):
    """An entity's id, also where something is wrong with it; or also Cedar's text."""
    if text and isinstance(u, str):
        return uid_of_text(u, place, report)
    plain = plain_uid(u)
    if plain:
        return plain
    if isinstance(u, dict) and "__entity" in u:
        if not members(u, place, report, ("__entity",)):
            return None
        u, place = u["__entity"], place["__entity"]
    if isinstance(u, dict) and "__expr" in u:
        return report.no(place, "`__expr` has no counterpart")
    if not isinstance(u, dict):
        return report.no(place, f'expected an entity\'s id, {{"type":..,"id":..}}, found {shown(u)}')
    if members(u, place, report, ("type", "id")) and is_text(u, place, report, "id"):
        name = type_name(u["type"], place["type"], report)
        return [name, u["id"]] if name else None
    return None


def uid_of_text(text, place, report):
    """An entity's id in Cedar's text, as User::"alice"; a fault inside is reported at the place of the
    whole."""
    inner = Report()
    reader = Reader(Source("", text), inner)
    if SURROGATE.search(text):
        return report.no(place, "no UTF-8")
    try:
        kind, quoted = reader.path("an entity")
        if quoted is not None and reader.next.kind == "end":
            eid = reader.unescaped(quoted)
            if not inner.refused:
                return [kind, eid]
    except Stop:
        pass
    return report.no(place, f'expected an entity\'s id, as User::"alice", found {shown(text)}')


def extension_call(call, place, report):
    """The function and the text of an extension value: `fn` and `arg`, or `args` with one text."""
    if isinstance(call, dict) and "__extn" in call:
        if not members(call, place, report, ("__extn",)):
            return None
        call, place = call["__extn"], place["__extn"]
    if not isinstance(call, dict) or "fn" not in call:
        return report.no(place, f'expected a call of an extension function, {{"fn":..,"arg":..}}, found {shown(call)}')
    argument = call.get("arg")
    if set(call) == {"fn", "args"} and isinstance(call["args"], list) and len(call["args"]) == 1:
        argument = call["args"][0]
    if (
        len(call) != 2
        or not isinstance(call["fn"], str)
        or call["fn"] not in extensions.TYPES
        or not isinstance(argument, str)
    ):
        return report.no(
            place,
            f"the call {shown(call)} is no value here: expected `ip`, `decimal`, `datetime` or `duration` of one text",
        )
    return call["fn"], argument
