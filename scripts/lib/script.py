"""How a script begins and ends: its help, a file or standard input, the program, and no traceback where
a reader goes away."""
import errno
import os
import pathlib
import resource
import subprocess
import sys

if sys.version_info < (3, 9):
    sys.exit("%s: this is Python %d.%d, and 3.9 or later is needed" % (os.path.basename(sys.argv[0]), *sys.version_info[:2]))

from visible import visible

TOP = pathlib.Path(__file__).resolve().parents[2]
RELEASE = TOP / "release/palvumiose-x86_64-linux"
STACK = 8 << 20


def run(main, doc):
    """Ends the process with the status that `main` gives for the words of the command line; -h, --help
    prints the script's own text."""
    words = sys.argv[1:]
    raise_stack()
    try:
        take_utf8()
        if words[:1] in (["-h"], ["--help"], ["help"]):
            print(doc.strip())
            status = 0
        else:
            status = main(words)
        sys.stdout.flush()
    except OSError as fault:
        if not isinstance(fault, BrokenPipeError):
            complain(f"{fault.filename or 'standard output'}: {fault.strerror}", 9)
        os.dup2(os.open(os.devnull, os.O_WRONLY), 1)
        status = 9
    except KeyboardInterrupt:
        status = 130
    sys.exit(status)


def raise_stack():
    """The stack of the main thread, and of programs that are started, may grow to 8 MiB where the hard limit allows
    it: the deepest documents take half a MiB of the program."""
    soft, hard = resource.getrlimit(resource.RLIMIT_STACK)
    most = STACK if hard == resource.RLIM_INFINITY else min(STACK, hard)
    if soft != resource.RLIM_INFINITY and soft < most:
        resource.setrlimit(resource.RLIMIT_STACK, (most, hard))


def take_utf8():
    """What is written is UTF-8, whatever the locale; a standard output that is closed can't be written."""
    if sys.stdout is None:
        raise OSError(errno.EBADF, os.strerror(errno.EBADF))
    for stream in filter(None, (sys.stdout, sys.stderr)):
        stream.reconfigure(encoding="utf-8", errors="surrogateescape", newline="\n")


def complain(text, status):
    print(f"{pathlib.Path(sys.argv[0]).name}: {visible(str(text))}", file=sys.stderr)
    return status


def bytes_of(name):
    """The bytes of the file, or of standard input where there is no name; or what is wrong with it."""
    try:
        if name:
            return pathlib.Path(name).read_bytes(), None
        if sys.stdin is not None:
            return sys.stdin.buffer.read(), None
        return None, "standard input can't be read: it is closed"
    except (OSError, ValueError) as fault:
        why = getattr(fault, "strerror", None) or fault
        return None, f"{name or 'standard input'} can't be read: {why}"


def tell_tests(found):
    """Prints what is wrong of the tests that were tried, None for each that holds, and how many; the
    status."""
    for wrong in filter(None, found):
        print(f"FAILED  {wrong}")
    failed = sum(map(bool, found))
    print(f"{len(found) - failed} passed, {failed} failed")
    return 1 if failed else 0


def taken_out(words, option="--program"):
    """What is behind an option, or None, and the other words."""
    if option not in words[:-1]:
        return None, words
    i = words.index(option)
    return words[i + 1], words[:i] + words[i + 2 :]


def program_at(name):
    """The program with this name, or without a name the one that scripts/palvumiose chooses; None where
    there is none, which is then said."""
    if name:
        path = pathlib.Path(name).resolve()
        if path.is_file() and os.access(path, os.X_OK):
            return str(path)
        complain(f"{name} is no program", 125)
        return None
    ran = subprocess.run([str(TOP / "scripts/palvumiose"), "--path"], stdout=subprocess.PIPE)
    return ran.stdout.decode().strip() if ran.returncode == 0 else None
