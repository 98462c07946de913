"""Chromium without a window, told what to do over its debugging pipe: pages opened, scripts run, and the pointer moved as by a hand."""
import base64
import json
import os
import shutil
import signal
import subprocess
import tempfile
import time
from select import select

WORDS = ("--headless", "--no-sandbox", "--disable-gpu", "--no-first-run", "--disable-extensions", "--hide-scrollbars",
         "--remote-debugging-pipe", "--window-size=1400,900")
MOST_SECONDS = 300


def is_missing():
    """Whether there is no Chromium here."""
    return shutil.which("chromium") is None


class Browser:
    """A browser with one page."""

    def __init__(self):
        self.folder = tempfile.mkdtemp()
        reads, self.write_end = os.pipe()
        self.read_end, writes = os.pipe()
        for end in (reads, writes):
            os.set_inheritable(end, True)
        command = f'exec chromium "$@" 3<&{reads} 4>&{writes}'
        self.process = subprocess.Popen(["sh", "-c", command, "sh", *WORDS, f"--user-data-dir={self.folder}", "about:blank"], pass_fds=(reads, writes),
                                        stdout=subprocess.DEVNULL, stderr=subprocess.DEVNULL, start_new_session=True)
        os.close(reads)
        os.close(writes)
        self.number, self.held, self.session = 0, b"", None
        target = self.call("Target.createTarget", url="about:blank")["targetId"]
        self.session = self.call("Target.attachToTarget", targetId=target, flatten=True)["sessionId"]
        self.call("Page.enable")

    def close(self):
        """Ends the browser and what it started."""
        os.killpg(self.process.pid, signal.SIGKILL)
        self.process.wait()
        os.close(self.write_end)
        os.close(self.read_end)
        shutil.rmtree(self.folder, ignore_errors=True)

    def call(self, method, **words):
        """Calls a method, and returns its result."""
        self.number += 1
        message = {"id": self.number, "method": method, "params": words}
        if self.session:
            message["sessionId"] = self.session
        os.write(self.write_end, json.dumps(message).encode() + b"\0")
        deadline = time.monotonic() + MOST_SECONDS
        while True:
            answer = self.next_message(deadline)
            if answer.get("id") == self.number:
                if "error" in answer:
                    raise AssertionError(f"{method}: {answer['error']['message']}")
                return answer["result"]

    def next_message(self, deadline):
        """The next message of the browser."""
        while b"\0" not in self.held:
            if not select([self.read_end], [], [], max(deadline - time.monotonic(), 0))[0]:
                raise AssertionError(f"chromium has not answered within {MOST_SECONDS} seconds")
            more = os.read(self.read_end, 1 << 16)
            if not more:
                raise AssertionError("chromium has ended")
            self.held += more
        message, _, self.held = self.held.partition(b"\0")
        return json.loads(message)

    def value(self, script):
        """The value of a script, which may be a promise."""
        answer = self.call("Runtime.evaluate", expression=script, returnByValue=True, awaitPromise=True)
        if "exceptionDetails" in answer:
            raise AssertionError(f"{script}: {answer['exceptionDetails']}")
        return answer["result"].get("value")

    def wait_for(self, script):
        """Waits until a script is true."""
        deadline = time.monotonic() + MOST_SECONDS
        while not self.value(script):
            if time.monotonic() > deadline:
                raise AssertionError(f"not within {MOST_SECONDS} seconds: {script}")
            time.sleep(0.1)

    def open(self, path, address=""):
        """Opens a file, anew."""
        self.call("Page.navigate", url="about:blank")
        self.call("Page.navigate", url=f"file://{path}{address}")

    def mouse(self, kind, x, y, **words):
        """An event of the mouse."""
        self.call("Input.dispatchMouseEvent", type=kind, x=x, y=y, **words)

    def click(self, selector):
        """Clicks in the middle of the first element of this kind."""
        x, y = self.value(f"(() => {{ const e = document.querySelector({json.dumps(selector)}); e.scrollIntoView();"
                          " const r = e.getBoundingClientRect(); return [r.x + Math.min(r.width / 2, 60), r.y + r.height / 2]; })()")
        for kind in ("mousePressed", "mouseReleased"):
            self.mouse(kind, x, y, button="left", clickCount=1)

    def type(self, text):
        """Types into what has the focus."""
        self.call("Input.insertText", text=text)

    def screenshot(self):
        """A picture of the page, as PNG."""
        return base64.b64decode(self.call("Page.captureScreenshot", format="png")["data"])
