"""The server of the page: on the loopback address alone, for its own page alone, with bounded requests. The page's
address has a secret part, which other users of the machine do not know."""
import hmac
import io
import json
import pathlib
import secrets
import socket
import sys
from http.server import BaseHTTPRequestHandler, ThreadingHTTPServer

from playground_page.connections import Connections, TimedReader
from playground_page.examples import examples
from playground_page.workers import Workers

HERE = pathlib.Path(__file__).resolve().parent
ADDRESS = "127.0.0.1"
LONGEST_BODY = 1 << 20
LONGEST_READ = 64 << 20  # so much of a body that is too long is read, and thrown away, before it is refused
WORK = ("/answer", "/convert")
KINDS = {
    ".html": "text/html; charset=utf-8",
    ".css": "text/css; charset=utf-8",
    ".js": "text/javascript; charset=utf-8",
    ".svg": "image/svg+xml",
}
FILES = {f"/{path.name}": path for path in HERE.iterdir() if path.suffix in KINDS} | {"/": HERE / "index.html"}
HEADERS = {
    "Content-Security-Policy": "default-src 'none'; script-src 'self'; style-src 'self'; connect-src 'self'; "
    "img-src 'self'; base-uri 'none'; form-action 'none'; frame-ancestors 'none'",
    "X-Content-Type-Options": "nosniff",
    "Referrer-Policy": "no-referrer",
    "Cross-Origin-Opener-Policy": "same-origin",
    "Cross-Origin-Resource-Policy": "same-origin",
    "Cache-Control": "no-store",
}


class Refused(Exception):
    """A request that is not answered: the status and why."""


class Server(ThreadingHTTPServer):
    daemon_threads, request_queue_size = True, 64
    seconds = 20  # so long a request may take to arrive, and an answer to be taken

    def __init__(self, port, program):
        super().__init__((ADDRESS, port), Handler)
        self.program, self.workers, self.connections = program, Workers(program), Connections()
        self.secret = secrets.token_urlsafe(12)
        self.address = f"http://{ADDRESS}:{self.server_port}/{self.secret}/"
        names = [f"{name}:{self.server_port}" for name in (ADDRESS, "localhost")]
        self.hosts, self.origins = set(names), {f"http://{name}" for name in names}

    def process_request(self, request, client_address):
        if self.connections.admit(request):
            super().process_request(request, client_address)
        else:
            self.shutdown_request(request)

    def shutdown_request(self, request):
        self.connections.forget(request)
        super().shutdown_request(request)

    def handle_error(self, request, client_address):
        """Of a connection that breaks nothing is said; of a fault one line, without a trace."""
        fault = sys.exc_info()[1]
        if not isinstance(fault, (ConnectionError, TimeoutError, socket.timeout)):
            print(f"playground: a request ended with a fault of the page: {type(fault).__name__}", file=sys.stderr)


class Handler(BaseHTTPRequestHandler):
    protocol_version, server_version, sys_version = "HTTP/1.1", "playground", ""

    def setup(self):
        super().setup()
        self.timed = TimedReader(self.connection)
        self.rfile = io.BufferedReader(self.timed)

    def handle_one_request(self):
        self.timed.begin(self.server.seconds)
        super().handle_one_request()

    def do_GET(self):
        self.answered(self.get)

    def do_POST(self):
        self.answered(self.post)

    def answered(self, work):
        """Answers by what `work` makes, or says why not."""
        try:
            self.from_here()
            status, kind, body = work(self.own_path())
        except Refused as why:
            status, kind, body = why.args[0], "application/json", as_json({"refused": why.args[1]})
            self.close_connection = True
            self.pass_over()
        except (ConnectionError, TimeoutError, socket.timeout):
            raise
        except Exception as fault:  # whatever it is, the page is reported
            status, kind = 500, "application/json"
            body = as_json({"refused": f"this page has a fault of its own: {type(fault).__name__}"})
        self.send(status, kind, body)

    def send(self, status, kind, body):
        self.connection.settimeout(self.server.seconds)
        self.send_response(status)
        for name, value in (HEADERS | {"Content-Type": kind, "Content-Length": str(len(body))}).items():
            self.send_header(name, value)
        if self.close_connection:
            self.send_header("Connection", "close")
        self.end_headers()
        self.wfile.write(body)

    def from_here(self):
        """Refuses what other hosts' names and other origins ask."""
        if (
            self.headers.get_all("Host") is None
            or self.headers.get_all("Host")[1:]
            or self.headers["Host"] not in self.server.hosts
        ):
            raise Refused(403, "this host's name is not answered")
        if "Origin" in self.headers and self.headers["Origin"] not in self.server.origins:
            raise Refused(403, "another origin is not answered")
        if self.headers.get("Sec-Fetch-Site", "none") not in ("none", "same-origin") and not self.is_followed_link():
            raise Refused(403, "another site is not answered")

    def is_followed_link(self):
        """Whether a browser opens the page itself in a window of its own, as where a link is followed."""
        wanted = {"Sec-Fetch-Mode": "navigate", "Sec-Fetch-Dest": "document"}
        is_opened = all(self.headers.get(name) == value for name, value in wanted.items())
        return is_opened and self.command == "GET" and self.path == f"/{self.server.secret}/"

    def own_path(self):
        """The path behind the secret of the address."""
        secret, slash, path = self.path.partition("?")[0][1:].partition("/")
        if not slash or not hmac.compare_digest(secret.encode(), self.server.secret.encode()):
            raise Refused(404, "the page's whole address is what scripts/playground has printed")
        self.server.connections.trust(self.connection)
        return f"/{path}"

    def get(self, path):
        if path in FILES:
            return 200, KINDS[FILES[path].suffix], FILES[path].read_bytes()
        if path == "/examples":
            return 200, "application/json", as_json({"examples": examples(), "about": self.server.program.about()})
        raise Refused(404, "there is no such page")

    def post(self, path):
        if path not in WORK:
            raise Refused(404, "there is no such page")
        status, body = self.server.workers.ask(path, self.body())
        return status, "application/json", body

    def body(self):
        """The body, which has to be said to be JSON."""
        if self.headers.get_content_type() != "application/json":
            raise Refused(415, "the body has to be application/json")
        length = self.length()
        if length is None:
            raise Refused(411, "the body's length has to be said")
        if length > LONGEST_BODY:
            raise Refused(
                413, f"This page reads at most {LONGEST_BODY} bytes; scripts/palvumiose reads longer documents."
            )
        return self.rfile.read(length)

    def length(self):
        """The length of the body; None where it is not said."""
        length = self.headers.get("Content-Length", "")
        is_said = length.isascii() and length.isdigit() and len(length) < 16 and "Transfer-Encoding" not in self.headers
        return int(length) if is_said else None

    def pass_over(self):
        """Reads the body of a request that is refused, so that who sends it gets the answer."""
        left = min(self.length() or 0, LONGEST_READ)
        while left > 0 and self.rfile.read(min(left, 1 << 16)):
            left -= 1 << 16

    def send_error(self, code, message=None, explain=None):
        self.close_connection = True
        self.send(code, "application/json", as_json({"refused": message or f"status {code}"}))

    def log_message(self, format, *args):
        pass


def as_json(reported):
    return json.dumps(reported, ensure_ascii=False, separators=(",", ":")).encode()
