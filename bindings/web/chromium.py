"""A headless Chromium by the DevTools protocol, over two pipes, and a server of folders for it."""
import collections
import contextlib
import fcntl
import functools
import http.server
import json
import os
import pathlib
import select
import shutil
import signal
import subprocess
import tempfile
import threading
import time

# What bindings/README.md names, and the style sheet of index.html and its empty icon; a server sends it with each file.
NAMED_POLICY = "script-src 'self' 'wasm-unsafe-eval'; worker-src 'self'; connect-src 'self'"
POLICY = f"default-src 'none'; {NAMED_POLICY}; style-src 'self'; img-src data:"
FLAGS = ["--headless", "--no-sandbox", "--disable-gpu", "--disable-dev-shm-usage", "--no-first-run"]
FLAGS += ["--disable-background-networking", "--disable-extensions"]
PATIENCE = 60  # seconds


def program():
    """Where Chromium stands, or None."""
    return shutil.which("chromium") or shutil.which("chromium-browser") or shutil.which("google-chrome")


class Browser:
    """A Chromium process, which ends with the block, and all that it started with it."""

    def __enter__(self):
        self.folder = tempfile.mkdtemp(prefix="qoi-chromium-")
        commands, self.to = os.pipe()
        self.of, answers = os.pipe()
        # Where it expects them, at 3 and 4, might stand one of these
        ends = [fcntl.fcntl(it, fcntl.F_DUPFD, 20) for it in (commands, answers)]
        start = f'exec "$@" 3<&{ends[0]} 4>&{ends[1]}'
        command = [program(), *FLAGS, "--remote-debugging-pipe", f"--user-data-dir={self.folder}", "about:blank"]
        self.process = subprocess.Popen(
            ["bash", "-c", start, "bash", *command],
            pass_fds=ends,
            stdin=subprocess.DEVNULL,
            stdout=subprocess.DEVNULL,
            stderr=subprocess.DEVNULL,
            start_new_session=True,
        )
        for it in (commands, answers, *ends):
            os.close(it)
        self.received, self.number, self.events = b"", 0, []
        return self

    def __exit__(self, *_):
        with contextlib.suppress(ProcessLookupError):
            os.killpg(self.process.pid, signal.SIGKILL)
        self.process.wait()
        for it in (self.to, self.of):
            os.close(it)
        shutil.rmtree(self.folder, ignore_errors=True)

    def call(self, method, session=None, **parameters):
        """What a method of the protocol answers."""
        self.number += 1
        message = {"id": self.number, "method": method, "params": parameters}
        if session:
            message["sessionId"] = session
        os.write(self.to, json.dumps(message).encode() + b"\0")
        end = time.monotonic() + PATIENCE
        while True:
            answer = self.receive(end)
            if answer.get("id") == self.number:
                if "error" in answer:
                    raise RuntimeError(f"{method}: {answer['error']['message']}")
                return answer["result"]
            self.events.append(answer)

    def receive(self, end):
        """The next message."""
        while b"\0" not in self.received:
            if not select.select([self.of], [], [], max(0, end - time.monotonic()))[0]:
                raise TimeoutError("Chromium doesn't answer")
            part = os.read(self.of, 1 << 20)
            if not part:
                raise EOFError("Chromium ended")
            self.received += part
        message, _, self.received = self.received.partition(b"\0")
        return json.loads(message)

    def page(self, url, width=800, height=600, before=""):
        """A page, before whose own scripts a text of JavaScript runs."""
        target = self.call("Target.createTarget", url="about:blank")["targetId"]
        page = Page(self, target)
        page.call("Page.enable")
        page.call("Emulation.setDeviceMetricsOverride", width=width, height=height, deviceScaleFactor=1, mobile=False)
        if before:
            page.call("Page.addScriptToEvaluateOnNewDocument", source=before)
        page.call("Page.navigate", url=url)
        page.until("document.readyState === 'complete' && location.href !== 'about:blank'")
        return page


class Page:
    """A page of a browser."""

    def __init__(self, browser, target):
        self.browser, self.target = browser, target
        self.session = browser.call("Target.attachToTarget", targetId=target, flatten=True)["sessionId"]

    def __enter__(self):
        return self

    def __exit__(self, *_):
        self.browser.call("Target.closeTarget", targetId=self.target)

    def call(self, method, **parameters):
        return self.browser.call(method, self.session, **parameters)

    def value(self, expression):
        """The value of an expression, of a promise what it is kept by."""
        answer = self.call("Runtime.evaluate", expression=expression, awaitPromise=True, returnByValue=True)
        if "exceptionDetails" in answer:
            details = answer["exceptionDetails"]
            raise RuntimeError(details.get("exception", {}).get("description") or details["text"])
        return answer["result"].get("value")

    def until(self, expression):
        """Waits until an expression is true."""
        end = time.monotonic() + PATIENCE
        while not self.value(f"!!({expression})"):
            if time.monotonic() > end:
                raise TimeoutError(f"not after {PATIENCE} seconds: {expression}")
            time.sleep(0.02)

    def press(self, key, code=0, text=""):
        """Presses a key and lets it go."""
        parameters = {"key": key, "code": key, "windowsVirtualKeyCode": code}
        self.call("Input.dispatchKeyEvent", type="keyDown", text=text, **parameters)
        self.call("Input.dispatchKeyEvent", type="keyUp", **parameters)


class Handler(http.server.SimpleHTTPRequestHandler):
    """Serves a folder, with the policy; what a test makes has its own names."""

    made = {}

    def do_GET(self):
        path = self.path.partition("?")[0]
        self.server.asked[path] += 1
        if path not in self.made:
            return super().do_GET()
        time.sleep(0.3 * path.startswith("/slow/"))
        self.send_response(200)
        self.send_header("Content-Type", self.guess_type(path))
        self.send_header("Content-Length", str(len(self.made[path])))
        self.end_headers()
        with contextlib.suppress(ConnectionError):
            self.wfile.write(self.made[path])

    def end_headers(self):
        self.send_header("Content-Security-Policy", POLICY)
        self.send_header("Cache-Control", "no-store")
        super().end_headers()

    def guess_type(self, path):
        # No server needs to know the type of a module
        return "text/plain" if str(path).endswith(".wasm") else super().guess_type(path)

    def log_message(self, *_):
        pass


class Server(http.server.ThreadingHTTPServer):
    """A server of a folder and of made bytes, by path, at a free port of this machine alone."""

    daemon_threads = True

    def __init__(self, folder, made=None):
        handler = type("Made", (Handler,), {"made": made or {}})
        super().__init__(("127.0.0.1", 0), functools.partial(handler, directory=str(pathlib.Path(folder))))
        self.asked = collections.Counter()  # how often, by path
        self.address = f"http://127.0.0.1:{self.server_port}"

    def handle_error(self, *_):
        """A page that no longer wants an answer is no error."""

    def __enter__(self):
        threading.Thread(target=self.serve_forever, daemon=True).start()
        return super().__enter__()

    def __exit__(self, *_):
        self.shutdown()
        super().__exit__(*_)
