"""A headless Chromium, driven by its DevTools protocol over a pipe, for tests of a page."""
import base64
import json
import os
import shutil
import subprocess
import tempfile
import time

NAMES = ("chromium", "chromium-browser", "google-chrome", "google-chrome-stable")
WORDS = ["--headless=new", "--disable-gpu", "--no-first-run", "--disable-background-networking", "--disable-extensions"]


def browser_here():
    """The path of a browser; None where there is none."""
    return next((path for path in map(shutil.which, NAMES) if path), None)


class Fault(Exception):
    """What the browser says against a call, or that it is too late."""


class Browser:
    """A browser with one page. Used by `with`; it ends with it."""

    def __init__(self, path, width=1440, height=1000):
        self.folder = tempfile.TemporaryDirectory()
        self.number, self.rest, self.events = 0, b"", []
        down, self.writes = os.pipe()
        self.reads, up = os.pipe()
        words = [*WORDS, f"--window-size={width},{height}", f"--user-data-dir={self.folder.name}"]
        words += ["--no-sandbox"] if os.getuid() == 0 else []
        self.process = subprocess.Popen(
            ["nice", "-n", "15", path, *words, "--remote-debugging-pipe", "about:blank"],
            preexec_fn=lambda: (os.dup2(down, 3), os.dup2(up, 4)),
            pass_fds=(3, 4),
            stdout=subprocess.DEVNULL,
            stderr=subprocess.DEVNULL,
        )
        os.close(down)
        os.close(up)
        self.session = None
        target = self.call("Target.createTarget", url="about:blank")["targetId"]
        self.session = self.call("Target.attachToTarget", targetId=target, flatten=True)["sessionId"]
        for domain in ("Page", "Runtime", "Network", "Log"):
            self.call(f"{domain}.enable")

    def __enter__(self):
        return self

    def __exit__(self, *_):
        self.process.terminate()
        self.process.wait()
        os.close(self.writes)
        os.close(self.reads)
        for _ in range(50):
            try:
                return self.folder.cleanup()
            except OSError:  # a process that the browser began still writes
                time.sleep(0.1)

    def call(self, method, **given):
        """The result of a call; what happens meanwhile is kept in `events`."""
        self.number += 1
        message = {"id": self.number, "method": method, "params": given}
        message |= {"sessionId": self.session} if self.session else {}
        os.write(self.writes, json.dumps(message).encode() + b"\0")
        while True:
            reported = self.message()
            if reported.get("id") == self.number:
                if "error" in reported:
                    raise Fault(f"{method}: {reported['error']['message']}")
                return reported["result"]
            self.events.append(reported)

    def message(self):
        while b"\0" not in self.rest:
            read = os.read(self.reads, 1 << 20)
            if not read:
                raise Fault("the browser has ended")
            self.rest += read
        reported, _, self.rest = self.rest.partition(b"\0")
        return json.loads(reported)

    def run(self, script):
        """The value of an expression of the page's script, of a promise what it brings."""
        reported = self.call("Runtime.evaluate", expression=script, awaitPromise=True, returnByValue=True)
        if "exceptionDetails" in reported:
            raise Fault(reported["exceptionDetails"].get("exception", {}).get("description", "an exception"))
        return reported["result"].get("value")

    def until(self, is_so, what, seconds=20):
        """Waits until something is so outside of the page."""
        end = time.monotonic() + seconds
        while not is_so():
            if time.monotonic() > end:
                raise Fault(f"not within {seconds} s: {what}")
            time.sleep(0.05)

    def wait(self, script, seconds=20):
        """Waits until an expression of the page is true."""
        self.until(lambda: self.run(script), script, seconds)

    def give(self, selector, *paths):
        """Gives files to the page's field for files."""
        root = self.call("DOM.getDocument")["root"]["nodeId"]
        node = self.call("DOM.querySelector", nodeId=root, selector=selector)["nodeId"]
        self.call("DOM.setFileInputFiles", files=list(map(str, paths)), nodeId=node)

    def dark(self, is_dark):
        feature = {"name": "prefers-color-scheme", "value": "dark" if is_dark else "light"}
        self.call("Emulation.setEmulatedMedia", features=[feature])

    def picture(self):
        """A PNG of what is seen."""
        return base64.b64decode(self.call("Page.captureScreenshot", format="png")["data"])
