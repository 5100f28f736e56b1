"""A process of the page's server that answers one request after another: reads PATH LENGTH and a body, writes STATUS
LENGTH and a body. So reading a text has limits of time and memory too. Called by workers.py: worker.py PROGRAM SECONDS
MEBIBYTES."""
import json
import pathlib
import resource
import sys

sys.dont_write_bytecode = True
SCRIPTS = pathlib.Path(__file__).resolve().parents[1]
sys.path[:1] = [str(SCRIPTS), str(SCRIPTS / "lib")]

from playground_page.answers import BadJob, answer, converted  # noqa: E402
from playground_page.program import Limits, Program  # noqa: E402

WORK = {"/answer": answer, "/convert": converted}
MEMORY = 2 << 30


def replied(path, body, program):
    """The status and what is answered; a fault is reported by its name."""
    try:
        return 200, WORK[path](json.loads(body), program)
    except BadJob as why:
        return 400, {"refused": str(why)}
    except (RecursionError, MemoryError):
        return 422, {"refused": "this nests too deep, or is too large, to be read here"}
    except ValueError:
        return 400, {"refused": "the body is no JSON"}
    except Exception as fault:  # whatever it is, the page is reported
        return 500, {"refused": f"this page has a fault of its own: {type(fault).__name__}"}


def written(status, reported):
    body = json.dumps(reported, ensure_ascii=False, separators=(",", ":")).encode(errors="replace")
    sys.stdout.buffer.write(f"{status} {len(body)}\n".encode() + body)
    sys.stdout.buffer.flush()


def main(words):
    program = Program(words[0], "", Limits(float(words[1]), int(words[2])))
    resource.setrlimit(resource.RLIMIT_AS, (MEMORY, MEMORY))
    sys.setrecursionlimit(10000)
    for line in iter(sys.stdin.buffer.readline, b""):
        path, length = line.decode().split()
        status, reported = replied(path, sys.stdin.buffer.read(int(length)), program)
        written(status, reported)


if __name__ == "__main__":
    try:
        main(sys.argv[1:])
    except (BrokenPipeError, KeyboardInterrupt):
        pass  # the server has ended
