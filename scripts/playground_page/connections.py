"""The server's connections: how many there may be at once, and how long a request may take to arrive."""
import io
import socket
import threading
import time

MOST = 64


class Connections:
    """Those that are open. Where one more than MOST comes, the oldest is closed that has not yet named the secret of the
    page's address; so others of the machine, who don't know it, can't keep its user out."""

    def __init__(self, most=MOST):
        self.most, self.lock, self.strange, self.known = most, threading.Lock(), {}, set()

    def admit(self, connection):
        """Whether there is room for one more."""
        with self.lock:
            if len(self.strange) + len(self.known) >= self.most and not self.drop_oldest():
                return False
            self.strange[connection] = True
            return True

    def drop_oldest(self):
        if not self.strange:
            return False
        oldest = next(iter(self.strange))
        del self.strange[oldest]
        try:
            oldest.shutdown(socket.SHUT_RDWR)
        except OSError:
            pass  # it has ended
        return True

    def trust(self, connection):
        """It has named the secret."""
        with self.lock:
            if self.strange.pop(connection, False):
                self.known.add(connection)

    def forget(self, connection):
        with self.lock:
            self.strange.pop(connection, None)
            self.known.discard(connection)


class TimedReader(io.RawIOBase):
    """What arrives on a connection, until a time that `begin` sets anew."""

    def __init__(self, connection):
        self.connection, self.end = connection, 0

    def begin(self, seconds):
        self.end = time.monotonic() + seconds

    def readable(self):
        return True

    def readinto(self, buffer):
        left = self.end - time.monotonic()
        if left <= 0:
            raise socket.timeout("the request takes too long to arrive")
        self.connection.settimeout(left)
        return self.connection.recv_into(buffer)
