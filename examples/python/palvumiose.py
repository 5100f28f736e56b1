"""Palvumiose in the process, by the library of the release.

As a program it answers as palvumiose does: python3 examples/python/palvumiose.py WORD.. < DOCUMENT
LIBRARY in the environment names another library than release/libpalvumiose_c.so.

The deepest documents take half a MiB of stack. So the main thread's may grow to 8 MiB once this is imported, where the
hard limit allows it; for threads call threading.stack_size(1 << 20), or with more, before they start."""
import ctypes
import os
import resource
import sys
from pathlib import Path

STACK = 8 << 20

RELEASE = Path(__file__).resolve().parents[2] / "release/libpalvumiose_c.so"
CALL = ctypes.CDLL(os.environ.get("LIBRARY", RELEASE)).palvumiose_c_run
CALL.argtypes = [ctypes.c_char_p, ctypes.c_size_t] * 3 + [ctypes.POINTER(ctypes.c_size_t)]
CALL.restype = ctypes.c_uint8


def raise_stack():
    """Raises the soft limit of the main thread's stack, where it is lower, and the hard one allows it."""
    soft, hard = resource.getrlimit(resource.RLIMIT_STACK)
    most = STACK if hard == resource.RLIM_INFINITY else min(STACK, hard)
    if soft != resource.RLIM_INFINITY and soft < most:
        resource.setrlimit(resource.RLIMIT_STACK, (most, hard))


raise_stack()


def run(words, document, room=1 << 16):
    """The status and the text of a command, as ["level", "2"], on the bytes of a document."""
    command, out, size = "\0".join(words).encode(), ctypes.create_string_buffer(room), ctypes.c_size_t()
    status = CALL(command, len(command), document, len(document), out, room, size)
    return (status, out.raw[: size.value]) if size.value <= room else run(words, document, size.value)


if __name__ == "__main__":
    ended, text = run(sys.argv[1:], sys.stdin.buffer.read())
    sys.stdout.buffer.write(text)
    sys.exit(ended)
