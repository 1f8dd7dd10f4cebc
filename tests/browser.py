"""Chromium without a window, by its DevTools protocol over two pipes, and a web server of one folder. Standard library
alone."""

import fcntl
import functools
import gzip
import http.server
import json
import os
import select
import shutil
import subprocess
import tempfile
import threading
import time
from contextlib import contextmanager
from pathlib import Path

SECONDS = 120
NAMES = ("chromium", "chromium-browser", "google-chrome", "chrome")
WORDS = ["--headless=new", "--no-sandbox", "--disable-gpu", "--no-first-run", "--disable-extensions"]
WORDS += ["--disable-background-networking", "--disable-component-update", "--disable-sync", "--remote-debugging-pipe"]
# (a page without a window is not to be served last)
WORDS += ["--disable-renderer-backgrounding", "--disable-background-timer-throttling"]
WORDS += ["--disable-backgrounding-occluded-windows"]


def program():
    """Chromium, if it is installed."""
    return next(filter(None, map(shutil.which, NAMES)), None)


@functools.cache
def packed(path, _):
    """A file as servers send it; the second word is its time."""
    return gzip.compress(path.read_bytes(), 9)


class Packing(http.server.SimpleHTTPRequestHandler):
    """Gives the files of a folder, packed, and writes no log."""

    extensions_map = {**http.server.SimpleHTTPRequestHandler.extensions_map, ".wasm": "application/wasm"}

    def do_GET(self):
        path = Path(self.translate_path(self.path))
        path = path / "index.html" if path.is_dir() else path
        if not path.is_file():
            self.send_error(404)
            return
        held = packed(path, path.stat().st_mtime_ns)
        self.send_response(200)
        self.send_header("Content-Type", self.guess_type(path))
        self.send_header("Content-Encoding", "gzip")
        self.send_header("Content-Length", str(len(held)))
        self.end_headers()
        self.wfile.write(held)

    def log_message(self, *_):
        pass


@contextmanager
def served(folder):
    """The address of a server of a folder."""
    server = http.server.ThreadingHTTPServer(("127.0.0.1", 0), functools.partial(Packing, directory=str(folder)))
    threading.Thread(target=server.serve_forever, daemon=True).start()
    try:
        yield f"http://127.0.0.1:{server.server_address[1]}/"
    finally:
        server.shutdown()


class Refused(Exception):
    """What Chromium answers to a command that it does not do, or what a script of a page throws."""


class Chromium:
    """A browser of its own profile, which takes commands and tells events."""

    def __init__(self, profile, words=()):
        inward, self.to = os.pipe()
        self.of, outward = os.pipe()
        # (Chromium reads from 3 and writes to 4)
        ends = [fcntl.fcntl(it, fcntl.F_DUPFD, 64) for it in (inward, outward)]

        def place():
            for it, number in zip(ends, (3, 4)):
                os.dup2(it, number)

        command = [program(), *WORDS, *words, f"--user-data-dir={profile}", "about:blank"]
        how = {"stdin": subprocess.DEVNULL, "stdout": subprocess.DEVNULL, "stderr": subprocess.DEVNULL}
        self.process = subprocess.Popen(command, preexec_fn=place, pass_fds=(3, 4, *ends), **how)
        for it in (inward, outward, *ends):
            os.close(it)
        self.held, self.last, self.events = b"", 0, []

    def message(self, until):
        """The next message."""
        while b"\0" not in self.held:
            ready = select.select([self.of], [], [], max(until - time.monotonic(), 0))[0]
            read = os.read(self.of, 1 << 20) if ready else b""
            if not read:
                raise TimeoutError("Chromium does not answer")
            self.held += read
        front, _, self.held = self.held.partition(b"\0")
        return json.loads(front)

    def command(self, method, session=None, **words):
        """Does a command, and gives its answer; events that come before it are kept."""
        self.last += 1
        told = {"id": self.last, "method": method, "params": words}
        if session:
            told["sessionId"] = session
        os.write(self.to, json.dumps(told).encode() + b"\0")
        until = time.monotonic() + SECONDS
        while True:
            message = self.message(until)
            if message.get("id") == self.last:
                if "error" in message:
                    raise Refused(f"{method}: {message['error'].get('message')}")
                return message["result"]
            self.events.append(message)

    def close(self):
        try:
            self.command("Browser.close")
            self.process.wait(10)
        except (OSError, TimeoutError, Refused, subprocess.TimeoutExpired):
            self.process.kill()
            self.process.wait()


# Where the middle of an element is, once it is scrolled to.
PLACE = """(selector) => {
  const it = document.querySelector(selector);
  it?.scrollIntoView({ block: "nearest" });
  const box = it?.getBoundingClientRect();
  return box ? { x: box.left + box.width / 2, y: box.top + box.height / 2 } : null;
}"""
KEY_CODES = {"Enter": 13, "Tab": 9, "Escape": 27, "Space": 32}
KEY_CODES |= {"End": 35, "Home": 36, "ArrowLeft": 37, "ArrowUp": 38, "ArrowRight": 39, "ArrowDown": 40}
KEY_CODES |= {f"F{at}": 111 + at for at in range(1, 13)}
BITS = {"Alt": 1, "Control": 2, "Shift": 8}


class Tab:
    """A page in a tab."""

    def __init__(self, browser):
        self.browser = browser
        target = browser.command("Target.createTarget", url="about:blank")["targetId"]
        self.session = browser.command("Target.attachToTarget", targetId=target, flatten=True)["sessionId"]
        for it in ("Page", "Runtime", "Network", "Accessibility", "Log"):
            self.command(f"{it}.enable")

    def command(self, method, **words):
        return self.browser.command(method, self.session, **words)

    def open(self, address):
        self.command("Page.navigate", url=address)

    def run(self, script, *given):
        """What a function of JavaScript gives for these words, once it is there."""
        call = f"({script})({', '.join(map(json.dumps, given))})"
        words = {"expression": call, "awaitPromise": True, "returnByValue": True, "userGesture": True}
        answer = self.command("Runtime.evaluate", **words)
        if "exceptionDetails" in answer:
            told = answer["exceptionDetails"]
            raise Refused(told.get("exception", {}).get("description", told["text"]))
        return answer["result"].get("value")

    def wait(self, script, *given, seconds=30):
        """Waits until a function of JavaScript gives something, and gives it."""
        until = time.monotonic() + seconds
        while time.monotonic() < until:
            try:
                if found := self.run(script, *given):
                    return found
            except Refused as why:
                # (the page may just be opening)
                if "context" not in str(why) and "navigated" not in str(why):
                    raise
            time.sleep(0.05)
        raise TimeoutError(f"{seconds} s for {script} {given}")

    def write(self, text):
        self.command("Input.insertText", text=text)

    def press(self, keys):
        """Presses keys, as `Control+Enter`."""
        *held, key = keys.split("+")
        sign = " " if key == "Space" else key
        words = {"key": sign, "code": key, "windowsVirtualKeyCode": KEY_CODES[key]}
        words["modifiers"] = sum(BITS[it] for it in held)
        # (Enter is done by what it writes)
        down = {"type": "keyDown", "text": "\r"} if keys == "Enter" else {"type": "rawKeyDown"}
        self.command("Input.dispatchKeyEvent", **down, **words)
        self.command("Input.dispatchKeyEvent", type="keyUp", **words)

    def point(self, selector, clicks=1):
        """Moves the mouse to the middle of an element, and clicks so many times."""
        place = self.run(PLACE, selector)
        if place is None:
            raise Refused(f"nothing is {selector}")
        told = {"x": place["x"], "y": place["y"]}
        self.command("Input.dispatchMouseEvent", type="mouseMoved", **told)
        for count in range(1, clicks + 1):
            for kind in ("mousePressed", "mouseReleased"):
                self.command("Input.dispatchMouseEvent", type=kind, button="left", clickCount=count, **told)

    def size(self, width, height):
        words = {"width": width, "height": height, "deviceScaleFactor": 1, "mobile": width < 600}
        self.command("Emulation.setDeviceMetricsOverride", **words)

    def theme(self, name):
        features = [{"name": "prefers-color-scheme", "value": name}]
        self.command("Emulation.setEmulatedMedia", features=features)

    def picture(self, whole=False):
        """A PNG of what is seen, or of the whole page, in base64."""
        # (a whole page has no scroll bar, and must not be laid out for one)
        self.command("Emulation.setScrollbarsHidden", hidden=whole)
        return self.command("Page.captureScreenshot", format="png", captureBeyondViewport=whole)["data"]


@contextmanager
def browsing(words=()):
    """A browser, which is closed at the end."""
    with tempfile.TemporaryDirectory(prefix="chromium-", ignore_cleanup_errors=True) as profile:
        browser = Chromium(profile, words)
        try:
            yield browser
        finally:
            browser.close()
