"""The processes that read texts and run the program for the server: a few, each of which is ended and replaced where
it takes too long."""
import os
import pathlib
import queue
import select
import signal
import subprocess
import sys
import time

WORKER = pathlib.Path(__file__).resolve().parent / "worker.py"
COUNT = 2


class TooLong(Exception):
    """No reply within the time."""


class Worker:
    """One process."""

    def __init__(self, words):
        self.process = subprocess.Popen(
            [sys.executable, "-B", str(WORKER), *words],
            stdin=subprocess.PIPE,
            stdout=subprocess.PIPE,
            stderr=subprocess.DEVNULL,
            start_new_session=True,
        )
        self.read = b""

    def ask(self, path, body, seconds):
        """The status and the body of the reply."""
        end = time.monotonic() + seconds
        self.process.stdin.write(f"{path} {len(body)}\n".encode() + body)
        self.process.stdin.flush()
        while b"\n" not in self.read:
            self.more(end)
        head, _, self.read = self.read.partition(b"\n")
        status, length = map(int, head.split())
        parts, missing = [self.read], length - len(self.read)
        while missing > 0:
            self.read = b""
            self.more(end)
            parts.append(self.read)
            missing -= len(self.read)
        self.read = b""
        return status, b"".join(parts)

    def more(self, end):
        out = self.process.stdout.fileno()
        if not select.select([out], [], [], max(0, end - time.monotonic()))[0]:
            raise TooLong
        read = os.read(out, 1 << 20)
        if not read:
            raise BrokenPipeError
        self.read += read

    def end(self):
        """Ends the process and the program that it runs."""
        try:
            os.killpg(self.process.pid, signal.SIGKILL)
        except ProcessLookupError:
            pass
        self.process.wait()
        self.process.stdin = None
        self.process.stdout.close()


class Workers:
    """The processes; each request takes one, and waits where none is free."""

    def __init__(self, program):
        limits = program.limits
        self.words = [program.path, str(limits.seconds), str(limits.mebibytes)]
        self.seconds = 3 * limits.seconds + 5  # for reading, and for two runs of the program
        self.free = queue.Queue()
        for _ in range(COUNT):
            self.free.put(Worker(self.words))

    def ask(self, path, body):
        try:
            worker = self.free.get(timeout=self.seconds)
        except queue.Empty:
            return 503, refused("Other requests are still answered; ask again in a while.")
        if worker.process.poll() is not None:  # it was ended from outside
            worker = self.replaced(worker)
        try:
            return worker.ask(path, body, self.seconds)
        except TooLong:
            worker = self.replaced(worker)
            return 422, refused(
                f"Stopped: this takes more than {self.seconds:g} s to read and answer, the limit of this page."
            )
        except OSError:
            worker = self.replaced(worker)
            return 422, refused("This can’t be read here: it nests too deep, or is too large.")
        finally:
            self.free.put(worker)

    def replaced(self, worker):
        worker.end()
        return Worker(self.words)

    def end(self):
        while not self.free.empty():
            self.free.get().end()


def refused(why):
    return b'{"refused":"%s"}' % why.encode()
