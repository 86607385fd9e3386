"""Chromium without a window, led over a pipe by the DevTools protocol: for the tests of pages."""
import base64
import json
import os
import select
import shutil
import signal
import subprocess
import tempfile
import time

PROGRAM = shutil.which("chromium") or shutil.which("chromium-browser")
KEYS = {"Enter": 13, "Escape": 27, "Home": 36, "End": 35, "ArrowLeft": 37, "ArrowUp": 38, "ArrowRight": 39, "ArrowDown": 40, "Tab": 9}
SHIFT = 8


class Browser:
    """A browser with one page of a size in pixels."""

    def __init__(self, width=1400, height=1000, limit=300):
        self.limit, self.number, self.events, self.left, self.session = limit, 0, [], b"", None
        self.folder = tempfile.TemporaryDirectory(ignore_cleanup_errors=True)
        theirs, self.to = os.pipe()
        self.of, ours = os.pipe()
        words = [PROGRAM, "--headless", "--disable-gpu", "--hide-scrollbars", "--no-first-run", "--remote-debugging-pipe",
                 f"--user-data-dir={self.folder.name}", f"--window-size={width},{height}"] + ["--no-sandbox"] * (os.geteuid() == 0)
        # (the protocol is read at 3 and written at 4)
        self.process = subprocess.Popen(["bash", "-c", f'exec "$@" 3<&{theirs} 4>&{ours}', "browser", *words, "about:blank"],
                                        pass_fds=(theirs, ours), stdin=subprocess.DEVNULL, stdout=subprocess.DEVNULL,
                                        stderr=subprocess.DEVNULL, start_new_session=True)
        os.close(theirs)
        os.close(ours)
        try:
            self._begin(width, height)
        except BaseException:
            self.close()
            raise

    def _begin(self, width, height):
        page = next(it for it in self.ask("Target.getTargets")["targetInfos"] if it["type"] == "page")
        self.session = self.ask("Target.attachToTarget", targetId=page["targetId"], flatten=True)["sessionId"]
        for domain in ("Page", "Runtime"):
            self.ask(domain + ".enable")
        self.ask("Emulation.setDeviceMetricsOverride", width=width, height=height, deviceScaleFactor=1, mobile=False)

    def close(self):
        """Ends the browser, and what it started."""
        try:
            os.killpg(self.process.pid, signal.SIGKILL)
        except ProcessLookupError:
            pass
        self.process.wait()
        os.close(self.to)
        os.close(self.of)
        self.folder.cleanup()

    def ask(self, method, **params):
        """Makes a call of the protocol, and gives its result."""
        self.number += 1
        message = {"id": self.number, "method": method, "params": params}
        if self.session and not method.startswith(("Target.", "Browser.")):
            message["sessionId"] = self.session
        os.write(self.to, json.dumps(message).encode() + b"\0")
        while True:
            answer = self._next()
            if answer.get("id") == self.number:
                if "error" in answer:
                    raise RuntimeError(f"{method}: {answer['error']}")
                return answer["result"]
            self.events.append(answer)

    def _next(self):
        until = time.monotonic() + self.limit
        while b"\0" not in self.left:
            if not select.select([self.of], [], [], max(0, until - time.monotonic()))[0]:
                raise TimeoutError("the browser does not answer")
            data = os.read(self.of, 1 << 20)
            if not data:
                raise OSError("the browser has ended")
            self.left += data
        message, _, self.left = self.left.partition(b"\0")
        return json.loads(message)

    def open(self, path):
        """Opens a file, and waits until its script has run."""
        # (what is there still must not be taken for the page to come)
        self.value("delete document.documentElement.dataset.ready")
        self.ask("Page.navigate", url="file://" + os.path.abspath(path))
        until = time.monotonic() + self.limit
        while not self.value("document.documentElement?.dataset.ready === 'yes'"):
            if time.monotonic() > until:
                raise TimeoutError(f"{path} is not ready: {self.errors()}")
            time.sleep(0.1)

    def value(self, script):
        """The value of an expression in the page."""
        result = self.ask("Runtime.evaluate", expression=script, returnByValue=True, awaitPromise=True)
        if "exceptionDetails" in result:
            raise RuntimeError(f"{script}: {result['exceptionDetails']}")
        return result["result"].get("value")

    def errors(self):
        """What went wrong in the page so far."""
        return [it["params"] for it in self.events if it.get("method") == "Runtime.exceptionThrown"]

    def press(self, key, modifiers=0):
        """Presses a key."""
        text = {"text": "\r"} if key == "Enter" else {} if len(key) > 1 else {"text": key}
        code = KEYS.get(key, ord(key[0].upper()))
        for kind in ("keyDown", "keyUp"):
            self.ask("Input.dispatchKeyEvent", type=kind, key=key, windowsVirtualKeyCode=code, modifiers=modifiers,
                     **(text if kind == "keyDown" else {}))

    def write(self, text):
        """Writes a text where the focus is."""
        self.ask("Input.insertText", text=text)

    def click(self, x, y):
        """Clicks at a place of the page."""
        for kind in ("mouseMoved", "mousePressed", "mouseReleased"):
            self.ask("Input.dispatchMouseEvent", type=kind, x=x, y=y, button="left" if kind != "mouseMoved" else "none", clickCount=1)

    def media(self, kind="", scheme="light"):
        """Shows the page as in print, or in a dark or a light scheme."""
        self.ask("Emulation.setEmulatedMedia", media=kind, features=[{"name": "prefers-color-scheme", "value": scheme}])

    def picture(self, path):
        """Writes what is seen as a PNG."""
        with open(path, "wb") as it:
            it.write(base64.b64decode(self.ask("Page.captureScreenshot", format="png")["data"]))

    def printed(self):
        """The page as a PDF."""
        return base64.b64decode(self.ask("Page.printToPDF")["data"])
