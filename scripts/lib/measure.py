"""Measures one run of a program: the seconds of the processor, the most memory that it had, its status.
As a command, `measure.py FILE PROGRAM [WORD..]` prints the seconds of the fastest of three runs on a file,
the most MiB, and the status where it is not 0, as cells of a table.

The most memory that wait4 reports of a child has a floor: what this interpreter had when it made the
child. So the program is stopped at its first write, by a pipe that is full, and what the kernel knows
of its own memory is read then, when each of its threads waits; it has made the whole text before it writes."""
import contextlib
import fcntl
import os
import re
import resource
import sys
import time


class Run:
    def __init__(self, seconds, mebibytes, status):
        self.seconds, self.mebibytes, self.status = seconds, mebibytes, status


def full_pipe():
    reader, writer = os.pipe()
    fcntl.fcntl(writer, 1031, 4096)  # F_SETPIPE_SZ
    os.set_blocking(writer, False)
    with contextlib.suppress(BlockingIOError):
        while True:
            os.write(writer, b"\0" * 4096)
    os.set_blocking(writer, True)
    return reader, writer


def of_status(name, path):
    """What a line of a status file of /proc says first; None where there is no such line."""
    with open(path) as status:
        found = re.search(rf"^{name}:\s+(\w+)", status.read(), re.MULTILINE)
    return found and found[1]


def most_memory(pid):
    """What the most memory of a process was up to now, in KiB, and whether all its threads wait."""
    most = of_status("VmHWM", f"/proc/{pid}/status")
    tasks = f"/proc/{pid}/task"
    waits = all(of_status("State", f"{tasks}/{task}/status") == "S" for task in os.listdir(tasks))
    return int(most or 0), waits


def run(program, words, path, seconds=60, mebibytes=4096):
    """One run on the document in a file, with at most so many seconds of the processor and so much
    memory."""
    reader, writer = full_pipe()
    actions = [
        (os.POSIX_SPAWN_OPEN, 0, path, os.O_RDONLY, 0),
        (os.POSIX_SPAWN_DUP2, writer, 1),
        (os.POSIX_SPAWN_OPEN, 2, os.devnull, os.O_WRONLY, 0),
        (os.POSIX_SPAWN_CLOSE, reader),
    ]
    pid = os.posix_spawnp(program, [program, *words], os.environ, file_actions=actions)
    os.close(writer)
    resource.prlimit(pid, resource.RLIMIT_CPU, (seconds, seconds))
    resource.prlimit(pid, resource.RLIMIT_AS, (mebibytes << 20, mebibytes << 20))
    most, waits, ended = 0, False, 0
    while not waits and not ended:
        with contextlib.suppress(OSError):
            seen, waits = most_memory(pid)
            most = max(most, seen)
        ended, status, used = os.wait4(pid, os.WNOHANG)
        time.sleep(0 if ended else 0.001)
    while os.read(reader, 1 << 20):
        pass
    os.close(reader)
    if not ended:
        _, status, used = os.wait4(pid, 0)
    return Run(used.ru_utime + used.ru_stime, most / 1024, os.waitstatus_to_exitcode(status))


if __name__ == "__main__":
    runs = [run(sys.argv[2], sys.argv[3:], sys.argv[1]) for _ in range(3)]
    status = f" (status {runs[0].status})" if runs[0].status else ""
    print(f"{min(one.seconds for one in runs):.2f} | {max(one.mebibytes for one in runs):.0f}{status}")
