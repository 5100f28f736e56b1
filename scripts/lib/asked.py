"""Answers to commands within a time and a memory: of the program, which is started for each, or of the library
for C in this process; and trials in a child, which a call that goes wrong may end."""
import ctypes
import json
import os
import resource
import signal
import subprocess
import time
import traceback

ROOM = 1 << 16
MAPPED_FROM = 1 << 17


class Program:
    """The program is started for each command."""

    def __init__(self, path):
        self.path = path

    def ask(self, words, data, seconds, mebibytes):
        """The status and the text of a command, a list of words."""

        def limit():
            resource.setrlimit(resource.RLIMIT_CPU, (seconds, seconds))
            resource.setrlimit(resource.RLIMIT_AS, (mebibytes << 20, mebibytes << 20))

        ran = subprocess.run([self.path, *words], input=data, capture_output=True, preexec_fn=limit)
        return ran.returncode, ran.stdout


class Library:
    """The library for C is called, which saves the starts."""

    def __init__(self, path):
        self.call = ctypes.CDLL(path).palvumiose_c_run
        self.call.argtypes = [ctypes.c_char_p, ctypes.c_size_t] * 3 + [ctypes.POINTER(ctypes.c_size_t)]
        self.call.restype = ctypes.c_uint8
        own = ctypes.CDLL(None)
        # large blocks are given back at once, so that each call begins with as little memory as the one before
        own.mallopt(-3, MAPPED_FROM)
        own.mallopt(-1, MAPPED_FROM)
        self.give_back = own.malloc_trim

    def ask(self, words, data, seconds, mebibytes, room=ROOM):
        """As of the program; where a call takes more time than it may, the process ends by SIGXCPU."""
        command, out, size = "\0".join(words).encode(), ctypes.create_string_buffer(room), ctypes.c_size_t()
        self.give_back(0)
        with open("/proc/self/statm") as sizes:
            taken = int(sizes.read().split()[0]) * resource.getpagesize()
        # the limit counts ticks, which on a busy machine are more than the clock's seconds
        allow(resource.RLIMIT_CPU, int(1.25 * time.process_time()) + seconds + 1)
        allow(resource.RLIMIT_AS, taken + (mebibytes << 20))
        status = self.call(command, len(command), data, len(data), out, room, size)
        allow(resource.RLIMIT_AS)
        allow(resource.RLIMIT_CPU)
        if size.value > room:
            return self.ask(words, data, seconds, mebibytes, size.value)
        return status, out.raw[: size.value]


def allow(what, most=None):
    """Limits this process; without a number, by nothing more than it can't change."""
    least = resource.getrlimit(what)[1]
    resource.setrlimit(what, (least if most is None or 0 <= least < most else most, least))


class Both:
    """Two that answer alike; another answer of the second is -1."""

    def __init__(self, first, second):
        self.first, self.second = first, second

    def ask(self, *asked):
        answer = self.first.ask(*asked)
        return answer if self.second.ask(*asked) == answer else (-1, b"")


def tried(seeds, trial):
    """What `trial` gives for each of these numbers, in turn, as a list that JSON can say. Where it ends its
    process, a text says how, and the trials of the next numbers go on in another."""
    left = list(seeds)
    while left:
        reading, writing = os.pipe()
        child = os.fork()
        if child == 0:
            tell_all(left, trial, writing)
        os.close(writing)
        with open(reading) as lines:
            for line in lines:
                yield left.pop(0), json.loads(line)
        _, status = os.waitpid(child, 0)
        if left:
            yield left.pop(0), how_ended(status)


def tell_all(seeds, trial, writing):
    """Writes a line for each, and ends the process."""
    status = 1
    try:
        with open(writing, "w") as out:
            for seed in seeds:
                print(json.dumps(trial(seed)), file=out, flush=True)
        status = 0
    except Exception:
        traceback.print_exc()
    finally:
        os._exit(status)


def how_ended(status):
    if os.WIFSIGNALED(status):
        return f"a call ended the process by {signal.Signals(os.WTERMSIG(status)).name}"
    return f"the trial ended with {os.waitstatus_to_exitcode(status)}"
