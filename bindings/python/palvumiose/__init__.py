"""Decisions by Cedar policies, in the process.

    from palvumiose import Policies
    policies = Policies(schema, policies)
    if policies.decide(request, entities):
        ...

Schema, policies, requests and entities have the form of this project's documents (docs/FORMAT.md), as dicts and lists.
A decision is true only where it is Allow. Whatever is no decision is raised, so nothing is allowed by an answer that
was not looked at."""
from __future__ import annotations

import ctypes
import json
import resource
from collections.abc import Iterable, Mapping, Sequence
from dataclasses import dataclass, field
from pathlib import Path
from typing import Any

__all__ = ["Decision", "NotAccepted", "Policies", "Refused", "Slice"]

_ROOM = 1 << 16
_STACK = 8 << 20
_MEMBERS = {"schema", "policies", "entities", "request", "requests"}


class Refused(Exception):
    """There is no decision: a rule is broken, or memory ran out. `status` and `text` are those of docs/FORMAT.md. In a
    list of answers it is false, as a Deny is."""

    def __init__(self, status: int, text: str) -> None:
        super().__init__(text or f"status {status}")
        self.status = status
        self.text = text

    def __bool__(self) -> bool:
        return False


class NotAccepted(Refused):
    """The policies are not accepted by the schema; the text has all that is found of them."""


@dataclass(frozen=True)
class Decision:
    """A decision. It is true where it is Allow."""

    allowed: bool
    reasons: list[str] = field(default_factory=list)
    """The ids of the policies that settled it."""
    errors: list[str] = field(default_factory=list)
    """The ids of the policies that failed and were skipped: a forbid among them did not apply."""

    def __bool__(self) -> bool:
        return self.allowed


@dataclass(frozen=True)
class Slice:
    """A decision, with the entities that are enough for it."""

    decision: Decision
    entities: list[dict[str, Any]]


def _library() -> Any:
    beside = Path(__file__).with_name("libpalvumiose_c.so")
    release = Path(__file__).resolve().parents[3] / "release/libpalvumiose_c.so"
    call = ctypes.CDLL(str(beside if beside.exists() else release)).palvumiose_c_run
    call.argtypes = [ctypes.c_char_p, ctypes.c_size_t] * 3 + [ctypes.POINTER(ctypes.c_size_t)]
    call.restype = ctypes.c_uint8
    return call


def _raise_stack() -> None:
    """Lets the main thread's stack grow to 8 MiB where the hard limit allows it, for the deepest documents."""
    soft, hard = resource.getrlimit(resource.RLIMIT_STACK)
    most = _STACK if hard == resource.RLIM_INFINITY else min(_STACK, hard)
    if soft != resource.RLIM_INFINITY and soft < most:
        resource.setrlimit(resource.RLIMIT_STACK, (most, hard))


_CALL = _library()
_raise_stack()


def _run(command: bytes, document: bytes) -> tuple[int, str]:
    room = _ROOM
    while True:
        out, size = ctypes.create_string_buffer(room), ctypes.c_size_t()
        status = _CALL(command, len(command), document, len(document), out, room, size)
        if size.value <= room:
            return status, out.raw[: size.value].decode()
        room = size.value


def _json(value: Any, what: str) -> bytes:
    """The JSON of a value. Of a name that is no text nothing is guessed, nor of a number that JSON has not."""
    _check(value, what)
    return json.dumps(value, ensure_ascii=True, allow_nan=False, separators=(",", ":")).encode()


def _check(value: Any, what: str) -> None:
    rest = [value]
    while rest:
        at = rest.pop()
        if isinstance(at, Mapping):
            for name in at:
                if not isinstance(name, str):
                    raise TypeError(f"{what}: a name has to be a text: {name!r}")
            rest.extend(at.values())
        elif isinstance(at, (list, tuple)):
            rest.extend(at)


def _list(value: Any, what: str) -> list[Any]:
    if isinstance(value, (str, bytes, Mapping)) or not isinstance(value, Iterable):
        raise TypeError(f"{what} has to be a list")
    return list(value)


def _object(value: Any, what: str) -> Mapping[str, Any]:
    if not isinstance(value, Mapping):
        raise TypeError(f"{what} has to be a dict")
    return value


def _decision(answer: Mapping[str, Any]) -> Decision:
    return Decision(answer["decision"] == "Allow", list(answer["reasons"]), list(answer["errors"]))


class Policies:
    """A schema and policies that it accepts."""

    def __init__(self, schema: Mapping[str, Any], policies: Iterable[Mapping[str, Any]]) -> None:
        """Raises `NotAccepted` with the findings where the schema does not accept the policies, and `Refused` where the
        two have not the form of documents."""
        schema_json = _json(_object(schema, "schema"), "schema")
        policies_json = _json(_list(policies, "policies"), "policies")
        self._start = b'{"schema":' + schema_json + b',"policies":' + policies_json
        self.findings: str = self._answer(b"check", b"}")
        """What `check` writes: the warnings."""

    @classmethod
    def from_document(cls, document: Mapping[str, Any] | str | bytes) -> Policies:
        """The schema and the policies of a document, as `scripts/palvumiose document` makes it of Cedar's files. Of its
        entities and its request nothing is kept. A member that a document has not is not passed over: `TypeError`."""
        parts = json.loads(document) if isinstance(document, (str, bytes)) else document
        parts = _object(parts, "document")
        if "schema" not in parts or set(parts) - _MEMBERS:
            raise TypeError("document: it has a schema, and no member that a document has not")
        return cls(parts["schema"], parts.get("policies", []))

    def decide(self, request: Mapping[str, Any], entities: Iterable[Mapping[str, Any]]) -> Decision:
        """The decision on a request: with entities that are all of the store, or a slice of it for this request."""
        return _decision(json.loads(self._answer(b"decide", self._rest(request, entities))))

    def slice(self, request: Mapping[str, Any], entities: Iterable[Mapping[str, Any]]) -> Slice:
        """The decision, and the entities that are enough for it: with these each policy has the same outcome."""
        answer = json.loads(self._answer(b"slice", self._rest(request, entities)))
        return Slice(_decision(answer), answer["slice"])

    def decide_many(
        self, requests: Iterable[Mapping[str, Any]], entities: Iterable[Mapping[str, Any]]
    ) -> list[Decision | Refused]:
        """The decision on each of many requests over one store, which is read once; or why there is none."""
        listed = [_object(request, "request") for request in _list(requests, "requests")]
        text = self._answer(b"batch", self._entities(entities) + b',"requests":' + _json(listed, "requests") + b"}")
        answers = [_answer_of(json.loads(line)) for line in text.splitlines()]
        if len(answers) != len(listed):
            raise Refused(0, f"{len(answers)} answers to {len(listed)} requests")
        return answers

    def _entities(self, entities: Iterable[Mapping[str, Any]]) -> bytes:
        listed = [_object(entity, "entity") for entity in _list(entities, "entities")]
        return b',"entities":' + _json(listed, "entities")

    def _rest(self, request: Mapping[str, Any], entities: Iterable[Mapping[str, Any]]) -> bytes:
        return self._entities(entities) + b',"request":' + _json(_object(request, "request"), "request") + b"}"

    def _answer(self, command: bytes, rest: bytes) -> str:
        status, text = _run(command, self._start + rest)
        if status == 0:
            return text
        raise (NotAccepted if status == 1 else Refused)(status, text)


def _answer_of(answer: Mapping[str, Any]) -> Decision | Refused:
    return Refused(4, answer["refused"]) if "refused" in answer else _decision(answer)
