#!/usr/bin/env python3
"""A service that answers authorization requests over HTTP, beside the one that asks.

usage: examples/sidecar/sidecar.py DOCUMENT [--canary DOCUMENT] [--action-type TYPE] [--host HOST] [--port PORT]

DOCUMENT has the schema, the policies and the entities (docs/FORMAT.md; `scripts/palvumiose document` makes one of
Cedar's files). On SIGHUP it is read again; where it is refused, the policies and entities that were there stay.

  POST /access/v1/evaluation      an OpenID AuthZEN evaluation
  POST /access/v1/evaluations     several, with `execute_all` alone
  any  /ext_authz/..              Envoy's external authorization over HTTP: 200 or 403, by the headers
                                  x-authz-principal-type, x-authz-principal-id, x-authz-action,
                                  x-authz-resource-type and x-authz-resource-id
  GET  /health                    what was loaded, and what was counted

  --canary DOCUMENT    asks these policies too, and counts where they decide otherwise; nothing else comes of it
  --action-type TYPE   the type of actions (Action)
  --host HOST          the address to listen on (127.0.0.1: no other machine can ask)
  --port PORT          the port (8181; 0 takes a free one)

Whatever is no Allow is answered with false or an error. It needs the package of bindings/python, or this repository."""
import argparse
import json
import signal
import sys
import threading
from http.server import BaseHTTPRequestHandler, ThreadingHTTPServer
from pathlib import Path

try:
    from palvumiose import Policies, Refused
except ImportError:
    sys.path.append(str(Path(__file__).resolve().parents[2] / "bindings/python"))
    from palvumiose import Policies, Refused

BODY = 1 << 20  # bytes of a request's body, at most
SECONDS = 10  # for a request to be sent
MANY = 1000  # evaluations of one request, at most


class Wrong(Exception):
    """What was sent is no request."""


class Loaded:
    """The policies and entities of a document."""

    def __init__(self, path):
        document = json.loads(Path(path).read_bytes())
        self.policies = Policies.from_document(document)
        self.entities = document.get("entities", [])
        self.policies.decide_many([], self.entities)  # the entities conform, or this is refused


class Service:
    """Decides by what was loaded last, and counts."""

    def __init__(self, path, canary):
        self.paths = [path] if canary is None else [path, canary]
        self.loaded = [Loaded(path) for path in self.paths]
        self.counts = dict.fromkeys(("allowed", "denied", "refused", "differences", "reloads", "failed_reloads"), 0)
        self.lock = threading.Lock()

    def count(self, name):
        with self.lock:
            self.counts[name] += 1

    def reload(self, *_):
        try:
            self.loaded = [Loaded(path) for path in self.paths]
            self.count("reloads")
        except Exception as why:
            self.count("failed_reloads")
            print(f"sidecar: not read again: {why}", file=sys.stderr, flush=True)

    def decide(self, request):
        """The answer to a request: whether it is allowed, and why."""
        loaded = self.loaded
        allowed, why = decided(loaded[0], request)
        if len(loaded) > 1 and decided(loaded[1], request)[0] != allowed:
            self.count("differences")
        self.count("refused" if "refused" in why else "allowed" if allowed else "denied")
        return {"decision": allowed, "context": why}


def decided(loaded, request):
    try:
        decision = loaded.policies.decide(request, loaded.entities)
    except Refused as refused:
        return False, {"refused": refused.text}
    return decision.allowed, {"reasons": decision.reasons, "errors": decision.errors}


def once(pairs):
    """An object of JSON, which has each name once."""
    found = dict(pairs)
    if len(found) < len(pairs):
        raise Wrong("a name is there twice")
    return found


def text_of(value, what):
    if not isinstance(value, str):
        raise Wrong(f"{what} has to be a text")
    return value


def part_of(evaluation, name, members):
    """The texts of these members of a part, which has no others."""
    part = evaluation.get(name)
    if not isinstance(part, dict):
        raise Wrong(f"{name} has to be an object")
    if part.get("properties"):
        raise Wrong(f"{name}: properties are not used: attributes are those of the entities")
    if set(part) - {*members, "properties"}:
        raise Wrong(f"{name} has members that are not known")
    return [text_of(part.get(member), f"{name}.{member}") for member in members]


def request_of(evaluation, action_type):
    """The request of an AuthZEN evaluation. A member that is not known is no member to pass over."""
    if set(evaluation) - {"subject", "action", "resource", "context"}:
        raise Wrong("the evaluation has members that are not known")
    context = evaluation.get("context", {})
    if not isinstance(context, dict):
        raise Wrong("context has to be an object")
    return {
        "principal": part_of(evaluation, "subject", ("type", "id")),
        "action": [action_type, *part_of(evaluation, "action", ("name",))],
        "resource": part_of(evaluation, "resource", ("type", "id")),
        "context": context,
    }


def evaluations_of(body):
    """Each of several evaluations, with what they share."""
    if (body.get("options") or {}).get("evaluations_semantic", "execute_all") != "execute_all":
        raise Wrong("evaluations_semantic: only execute_all is known")
    listed = body.get("evaluations")
    if not isinstance(listed, list) or not all(isinstance(item, dict) for item in listed) or len(listed) > MANY:
        raise Wrong(f"evaluations has to be a list of at most {MANY} objects")
    shared = {name: value for name, value in body.items() if name not in ("evaluations", "options")}
    return [{**shared, **item} for item in listed]


class Handler(BaseHTTPRequestHandler):
    protocol_version = "HTTP/1.1"
    timeout = SECONDS

    def answer(self, status, value):
        text = json.dumps(value).encode()
        self.send_response(status)
        self.send_header("Content-Type", "application/json")
        self.send_header("Content-Length", str(len(text)))
        self.end_headers()
        if self.command != "HEAD":
            self.wfile.write(text)

    def body(self):
        try:
            size = int(self.headers.get("Content-Length", "0"))
        except ValueError:
            size = -1
        if self.headers.get("Transfer-Encoding") or not 0 <= size <= BODY:
            self.close_connection = True
            raise Wrong(f"a body has to have its length, of at most {BODY} bytes")
        return self.rfile.read(size)

    def json_body(self):
        body = json.loads(self.body(), object_pairs_hook=once)
        if not isinstance(body, dict):
            raise Wrong("the body has to be an object")
        return body

    def evaluated(self):
        service, action_type = self.server.service, self.server.action_type
        if self.path == "/access/v1/evaluation":
            return service.decide(request_of(self.json_body(), action_type))
        requests = [request_of(evaluation, action_type) for evaluation in evaluations_of(self.json_body())]
        return {"evaluations": [service.decide(request) for request in requests]}

    def do_POST(self):
        if self.path not in ("/access/v1/evaluation", "/access/v1/evaluations"):
            return self.checked()
        try:
            self.answer(200, self.evaluated())
        except (Wrong, ValueError, TypeError, RecursionError) as why:
            self.answer(400, {"error": str(why)})

    def checked(self):
        """Envoy's check of a request: the headers say of what."""
        try:
            self.body()
            if not self.path.startswith("/ext_authz/"):
                return self.answer(404, {"error": "no such path"})
            self.headers_allow()
        except (Wrong, ValueError, TypeError) as why:
            self.answer(403, {"error": str(why)})

    def headers_allow(self):
        names = ("principal-type", "principal-id", "action", "resource-type", "resource-id")
        values = [self.headers.get_all(f"x-authz-{name}", []) for name in names]
        if any(len(value) != 1 for value in values):
            raise Wrong("each x-authz header has to be there once")
        principal, name, action, resource, eid = (value[0].encode("latin-1").decode() for value in values)
        request = {
            "principal": [principal, name],
            "action": [self.server.action_type, action],
            "resource": [resource, eid],
            "context": {},
        }
        answer = self.server.service.decide(request)
        self.answer(200 if answer["decision"] else 403, answer)

    def do_GET(self):
        if self.path != "/health":
            return self.checked()
        self.answer(200, {"status": "ok", "counts": dict(self.server.service.counts)})

    do_PUT = do_DELETE = do_PATCH = do_HEAD = do_OPTIONS = checked

    def log_message(self, *_):
        pass


def main():
    parser = argparse.ArgumentParser(usage=__doc__.split("usage: ")[1].split("\n")[0], add_help=False)
    parser.add_argument("document")
    parser.add_argument("--canary")
    parser.add_argument("--action-type", default="Action")
    parser.add_argument("--host", default="127.0.0.1")
    parser.add_argument("--port", type=int, default=8181)
    words = parser.parse_args()
    try:
        service = Service(words.document, words.canary)
    except (OSError, ValueError, TypeError, KeyError, Refused) as why:
        sys.exit(f"sidecar: {why}")
    signal.signal(signal.SIGHUP, service.reload)
    threading.stack_size(8 << 20)
    server = ThreadingHTTPServer((words.host, words.port), Handler)
    server.service, server.action_type, server.daemon_threads = service, words.action_type, True
    print(f"listening on http://{words.host}:{server.server_port}", flush=True)
    server.serve_forever()


if __name__ == "__main__":
    main()
