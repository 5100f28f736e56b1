"""scripts/playground, started for a test: its address, what it answers, and how it ends."""
import http.client
import json
import pathlib
import signal
import subprocess
import sys
import tempfile

from script import TOP


class Served:
    """A server on a free port. Used by `with`; it ends with it, and `errors` has what it wrote to standard error."""

    def __init__(self, *words):
        self.process = subprocess.Popen(
            [sys.executable, str(TOP / "scripts/playground"), *words],
            stdout=subprocess.PIPE,
            stderr=subprocess.PIPE,
            text=True,
        )
        self.address = self.process.stdout.readline().strip()
        self.origin, _, secret = self.address.rstrip("/").rpartition("/")
        self.port, self.prefix = int(self.origin.rpartition(":")[2]), f"/{secret}"
        self.errors, self.status = "", None

    def __enter__(self):
        return self

    def __exit__(self, *_):
        self.process.send_signal(signal.SIGINT)
        self.errors = self.process.communicate(timeout=30)[1]
        self.status = self.process.returncode

    def send(self, method, path, body=None, headers=(), prefix=None):
        """The status, the headers and the body; the path goes behind the secret part of the address."""
        path = (self.prefix if prefix is None else prefix) + path
        connection = http.client.HTTPConnection("127.0.0.1", self.port, timeout=120)
        try:
            try:
                connection.request(method, path, body, dict(headers))
            except (BrokenPipeError, ConnectionResetError):
                pass  # refused before all was sent; the answer says so
            reply = connection.getresponse()
            return reply.status, dict(reply.getheaders()), reply.read()
        finally:
            connection.close()

    def ask(self, job, path="/answer"):
        """The status, and the JSON of the body."""
        body = job if isinstance(job, bytes) else json.dumps(job).encode()
        status, _, reported = self.send("POST", path, body, {"Content-Type": "application/json"})
        return status, json.loads(reported)

    def examples(self):
        return json.loads(self.send("GET", "/examples")[2])["examples"]


def program_of(words):
    """The program that a test names, or the release."""
    return str(pathlib.Path(words[0]).resolve()) if words else str(TOP / "release/palvumiose-x86_64-linux")


class Endless:
    """A program that is taken for the real one, and never answers. Used by `with`: its path."""

    def __init__(self, program):
        self.program = program

    def __enter__(self):
        self.folder = tempfile.TemporaryDirectory()
        path = pathlib.Path(self.folder.name) / "endless"
        path.write_text(f'#!/bin/sh\n[ $# -eq 0 ] && exec "{self.program}"\nexec sleep 600\n', encoding="utf-8")
        path.chmod(0o755)
        return str(path)

    def __exit__(self, *_):
        self.folder.cleanup()


def chain_document(length):
    """A document with a chain of groups, whose ancestors grow with its square."""
    groups = [{"id": ["Group", f"g{i}"], "parents": [["Group", f"g{i + 1}"]]} for i in range(length)]
    action = {"id": ["Action", "view"], "principals": ["Group"], "resources": ["Group"]}
    ids = {"principal": ["Group", "g0"], "action": ["Action", "view"], "resource": ["Group", "g1"], "context": {}}
    return json.dumps(
        {
            "schema": {"entityTypes": {"Group": {"memberOf": ["Group"]}}, "actions": [action]},
            "policies": [{"id": "p", "effect": "permit", "principal": {"in": ["Group", f"g{length}"]}}],
            "entities": groups,
            "request": ids,
        }
    )
