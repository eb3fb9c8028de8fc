"""A headless Chromium, driven over a pipe by the DevTools protocol. It needs Python's standard library alone."""
import base64
import contextlib
import json
import os
import select
import shutil
import signal
import subprocess
import sys
import tempfile
import threading
import time
from functools import partial
from http.server import SimpleHTTPRequestHandler, ThreadingHTTPServer

NAMES = ("chromium", "chromium-headless-shell", "google-chrome")
# Chromium has no sandbox as root, and little shared memory in a container.
WORDS = ("--headless", "--no-sandbox", "--disable-gpu", "--disable-dev-shm-usage", "--no-first-run", "--remote-debugging-pipe")


def found():
    """The browser of this machine, or None."""
    return next(filter(None, map(shutil.which, NAMES)), None)


# The browser reads its descriptor 3 and writes its descriptor 4.
PLACED = """
import fcntl, os, sys
ask, answer = (fcntl.fcntl(int(it), fcntl.F_DUPFD_CLOEXEC, 10) for it in sys.argv[1:3])
os.dup2(ask, 3)
os.dup2(answer, 4)
os.execv(sys.argv[3], sys.argv[3:])
"""
KEYS = {"Tab": 9, "Enter": 13, "ArrowRight": 39, "ArrowDown": 40}
MOST_SECONDS = 30
MOST_DIALOGS = 20


class Refused(Exception):
    """The browser answers with an error, or not at all."""


class Exchange:
    """A request of the page, and the status and the fields of its answer."""

    def __init__(self, request, number):
        self.number, self.method, self.address = number, request["method"], request["url"]
        self.body = request.get("postData", "").encode()
        self.status, self.fields = None, {}

    def answered(self, response):
        self.status, self.fields = response["status"], {name.lower(): value for name, value in response["headers"].items()}


class Browser:
    """A browser with one page. `dialogs` has the texts of the dialogs that a script opened, and `exchanges` what went over the network."""

    def __init__(self, path):
        self.room, self.number, self.rest, self.dialogs, self.exchanges = tempfile.mkdtemp(prefix="browsed-"), 0, b"", [], []
        (there, self.ask), (self.answer, here) = os.pipe(), os.pipe()
        words = [path, *WORDS, f"--user-data-dir={self.room}", "about:blank"]
        started = [sys.executable, "-c", PLACED, str(there), str(here), *words]
        quiet = {"stdout": subprocess.DEVNULL, "stderr": subprocess.DEVNULL}
        self.process = subprocess.Popen(started, pass_fds=(there, here), start_new_session=True, **quiet)
        os.close(there)
        os.close(here)
        self.session = None
        target = self.call("Target.createTarget", url="about:blank")["targetId"]
        self.session = self.call("Target.attachToTarget", targetId=target, flatten=True)["sessionId"]
        for part in "Page", "Runtime", "Accessibility", "Network":
            self.call(f"{part}.enable")

    def message(self):
        """The next message of the browser, which NUL ends."""
        while b"\0" not in self.rest:
            if not select.select([self.answer], [], [], MOST_SECONDS)[0]:
                raise Refused(f"the browser says nothing for {MOST_SECONDS} seconds")
            read = os.read(self.answer, 1 << 16)
            if not read:
                raise Refused("the browser has ended")
            self.rest += read
        line, self.rest = self.rest.split(b"\0", 1)
        return json.loads(line)

    def send(self, method, **params):
        self.number += 1
        said = {"id": self.number, "method": method, "params": params, **({"sessionId": self.session} if self.session else {})}
        os.write(self.ask, json.dumps(said).encode() + b"\0")
        return self.number

    def exchanged(self, method, params):
        """Takes down a request or an answer, unless its request is not among the exchanges any more."""
        asked = [it for it in self.exchanges if it.number == params["requestId"]]
        answer = params.get("redirectResponse" if method == "Network.requestWillBeSent" else "response")
        if asked and answer:
            asked[-1].answered(answer)
        # An icon is asked for by the browser, and not by the page.
        if method == "Network.requestWillBeSent" and not params["request"]["url"].endswith("/favicon.ico"):
            self.exchanges.append(Exchange(params["request"], params["requestId"]))

    def seen(self, message):
        """Takes down what goes over the network, and closes a dialog that a script opened."""
        if message.get("method") in ("Network.requestWillBeSent", "Network.responseReceived"):
            self.exchanged(message["method"], message["params"])
        if message.get("method") == "Page.javascriptDialogOpening":
            self.dialogs.append(message["params"]["message"])
            if len(self.dialogs) > MOST_DIALOGS:
                raise Refused("a script opens dialogs without end")
            self.send("Page.handleJavaScriptDialog", accept=True)

    def call(self, method, **params):
        number = self.send(method, **params)
        while True:
            message = self.message()
            self.seen(message)
            if message.get("id") == number:
                break
        if "error" in message:
            raise Refused(f"{method}: {message['error']['message']}")
        return message["result"]

    def loaded(self, method, **params):
        """Calls what loads a page, and waits until it is there. The exchanges are those of this page then."""
        self.exchanges.clear()
        self.send(method, **params)
        while True:
            message = self.message()
            self.seen(message)
            if message.get("method") == "Page.loadEventFired":
                return

    def run(self, script):
        """Runs a script that loads a page."""
        self.loaded("Runtime.evaluate", expression=script)

    def value(self, script):
        """The value of an expression on the page, as JSON."""
        result = self.call("Runtime.evaluate", expression=script, returnByValue=True)
        if "exceptionDetails" in result:
            raise Refused(f"{script}: {result['exceptionDetails']['text']}")
        return result["result"].get("value")

    def press(self, *keys):
        for key in keys:
            text = {"text": "\r"} if key == "Enter" else {}
            for kind in ("keyDown", "keyUp"):
                typed = text if kind == "keyDown" else {}
                self.call("Input.dispatchKeyEvent", type=kind, key=key, code=key, windowsVirtualKeyCode=KEYS[key], **typed)

    def pictured(self, path):
        path.write_bytes(base64.b64decode(self.call("Page.captureScreenshot", format="png")["data"]))

    def __enter__(self):
        return self

    def __exit__(self, *_):
        # All of its processes, so that none still writes into its folder.
        os.killpg(self.process.pid, signal.SIGKILL)
        self.process.wait(MOST_SECONDS)
        os.close(self.ask)
        os.close(self.answer)
        shutil.rmtree(self.room, ignore_errors=True)


class Quiet(SimpleHTTPRequestHandler):
    def end_headers(self):
        # A page that is isolated has a clock with steps of 5 microseconds.
        self.send_header("Cross-Origin-Opener-Policy", "same-origin")
        self.send_header("Cross-Origin-Embedder-Policy", "require-corp")
        super().end_headers()

    def log_message(self, *_):
        pass


@contextlib.contextmanager
def served(folder):
    """The address at which the files of a folder are served meanwhile."""
    server = ThreadingHTTPServer(("127.0.0.1", 0), partial(Quiet, directory=folder))
    threading.Thread(target=server.serve_forever, daemon=True).start()
    try:
        yield f"http://127.0.0.1:{server.server_port}"
    finally:
        server.shutdown()
        server.server_close()


def said_by(folder, script, seconds):
    """The version of the browser, and the value of `said` that the script of this name leaves on a page. Both are in this folder."""
    (folder / "page.html").write_text(f"<!DOCTYPE html><script type=module src={script}></script>", encoding="utf-8")
    with served(folder) as address, Browser(found()) as browser:
        browser.loaded("Page.navigate", url=f"{address}/page.html")
        ends = time.monotonic() + seconds
        while not (said := browser.value("globalThis.said")):
            if time.monotonic() > ends:
                raise Refused(f"{script} says nothing for {seconds} seconds")
            time.sleep(0.2)
        return browser.call("Browser.getVersion")["product"], said
