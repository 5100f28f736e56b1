"""The program that answers, and a run of it with limits of time, memory and length."""
import json
import pathlib
import resource
import subprocess
import tempfile
import time
from typing import NamedTuple

TOP = pathlib.Path(__file__).resolve().parents[2]
RELEASE = TOP / "release/palvumiose-x86_64-linux"
LONGEST_ANSWER = 8 << 20
NO_MEMORY = 10


class Limits(NamedTuple):
    seconds: float = 5
    mebibytes: int = 512


class Ran(NamedTuple):
    """How a run ended: `limit` is the limit that it met (time, memory, length), or None."""

    status: int
    text: str
    limit: str
    seconds: float


class Program:
    """The program, and what is to be said of it."""

    def __init__(self, path, note, limits):
        self.path, self.note, self.limits = str(path), note, limits

    def run(self, words, data):
        """Answers a document. The limits are set before the program gets a byte of the document."""
        began = time.monotonic()
        with tempfile.TemporaryFile() as written:
            process = subprocess.Popen(
                [self.path, *words], stdin=subprocess.PIPE, stdout=written, stderr=subprocess.DEVNULL
            )
            try:
                confine(process.pid, self.limits)
                process.communicate(data, timeout=self.limits.seconds)
                late = False
            except subprocess.TimeoutExpired:
                late = True
            finally:
                process.kill()
                process.wait()
            written.seek(0)
            text = written.read(LONGEST_ANSWER).decode(errors="replace")
        status = process.returncode
        return Ran(status, text, limit_met(status, text, late), time.monotonic() - began)

    def ask(self, _, words, document):
        """As the scripts of scripts/lib ask a program: the status and the text."""
        ran = self.run(words, json.dumps(document, ensure_ascii=False).encode())
        return ran.status, ran.text

    def about(self):
        """What the page says of the program."""
        about = {"name": named(self.path), "note": self.note, "version": "", "limits": self.limits._asdict()}
        if self.path == str(RELEASE):
            about["version"] = line_of_release("version")
        return about


def confine(pid, limits):
    """Sets the limits of a process that has begun."""
    memory, seconds = limits.mebibytes << 20, int(limits.seconds) + 1
    try:
        resource.prlimit(pid, resource.RLIMIT_AS, (memory, memory))
        resource.prlimit(pid, resource.RLIMIT_CPU, (seconds, seconds))
        resource.prlimit(pid, resource.RLIMIT_FSIZE, (LONGEST_ANSWER, LONGEST_ANSWER))
        resource.prlimit(pid, resource.RLIMIT_CORE, (0, 0))
    except ProcessLookupError:
        pass  # it has ended


def limit_met(status, text, late):
    if late:
        return "time"
    if status == NO_MEMORY:
        return "memory"
    if len(text.encode(errors="replace")) >= LONGEST_ANSWER:
        return "length"
    return None


def named(path):
    """The path as it is from the repository's top, where it is inside."""
    path = pathlib.Path(path)
    return str(path.relative_to(TOP)) if TOP in path.parents else str(path)


def line_of_release(word):
    """What is behind a word in the .about file of the release."""
    try:
        lines = pathlib.Path(f"{RELEASE}.about").read_text(encoding="utf-8").splitlines()
    except OSError:
        return ""
    return next((line[len(word) + 1 :] for line in lines if line.startswith(word + " ")), "")


def chosen(name, limits):
    """The program of this name; without a name the one that scripts/palvumiose would choose, and where that would
    have to be proved first, the release, with a note. Proves and builds nothing."""
    if name:
        return Program(pathlib.Path(name).resolve(), "", limits)
    ran = subprocess.run([str(TOP / "scripts/palvumiose"), "--path"], stdout=subprocess.PIPE, stderr=subprocess.DEVNULL)
    if ran.returncode == 0:
        return Program(pathlib.Path(ran.stdout.decode().strip()).resolve(), "", limits)
    version = line_of_release("version")
    note = (
        f"The release (version {version}) answers. It was made of other sources than those of this folder, "
        "of which nothing is built here."
    )
    return Program(RELEASE, note, limits)


def fault_of(program):
    """Why the program can't be run here; None where it can."""
    try:
        ran = subprocess.run([program.path], stdin=subprocess.DEVNULL, capture_output=True)
    except OSError as fault:
        return f"{named(program.path)} can't be run: {fault.strerror}"
    if ran.returncode != 2:
        return f"{named(program.path)} does not answer as the program does"
    return None
