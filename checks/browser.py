"""Headless Chromium, spoken to by its protocol over two pipes; for checks/page and checks/live."""
import base64
import json
import os
import shutil
import subprocess
import sys
import time

NAMES = ("chromium", "chromium-browser", "google-chrome", "google-chrome-stable")
CHROMIUM = os.environ.get("CHROMIUM") or next(filter(None, map(shutil.which, NAMES)), None)
# Seconds: for an answer of the browser; for reading a large run.
PATIENCE, LOADING = 120, 90
KEYS = {"ArrowDown": 40, "ArrowRight": 39, "End": 35, "Enter": 13, "Escape": 27, "Home": 36, "Tab": 9}
CTRL = 2


def fail(why):
    sys.exit(f"wrong: {why}")


class Browser:
    """A page of Chromium. Messages are in JSON, each ended by a zero byte."""

    def __init__(self, folder):
        to, self.to = os.pipe()
        self.of, of = os.pipe()
        # Its protocol is on 3 and 4.
        words = [
            CHROMIUM,
            "--headless",
            "--disable-gpu",
            "--hide-scrollbars",
            "--no-first-run",
            "--remote-debugging-pipe",
            f"--user-data-dir={folder}/profile",
            *(["--no-sandbox"] if os.getuid() == 0 else []),
            "about:blank",
        ]
        self.child = subprocess.Popen(
            ["sh", "-c", f'exec "$@" 3<&{to} 4>&{of}', "sh", *words],
            pass_fds=(to, of),
            stdin=subprocess.DEVNULL,
            stdout=subprocess.DEVNULL,
            stderr=subprocess.DEVNULL,
        )
        os.close(to)
        os.close(of)
        self.got, self.number, self.session, self.said = b"", 0, None, []
        target = self.call("Target.createTarget", url="about:blank")["targetId"]
        self.session = self.call("Target.attachToTarget", targetId=target, flatten=True)["sessionId"]
        for domain in ("Page", "Runtime", "Log", "DOM"):
            self.call(f"{domain}.enable")

    def message(self):
        while b"\0" not in self.got:
            part = os.read(self.of, 1 << 20)
            if not part:
                fail("Chromium ended")
            self.got += part
        one, _, self.got = self.got.partition(b"\0")
        return json.loads(one)

    def call(self, method, **words):
        self.number += 1
        message = {"id": self.number, "method": method, "params": words}
        if self.session:
            message["sessionId"] = self.session
        os.write(self.to, json.dumps(message).encode() + b"\0")
        until = time.monotonic() + PATIENCE
        while time.monotonic() < until:
            it = self.message()
            if it.get("id") == self.number:
                if "error" in it:
                    fail(f"{method}: {it['error']}")
                return it["result"]
            # What the page says: errors that weren't caught, and all that it writes to its console.
            if it.get("method") in ("Runtime.exceptionThrown", "Runtime.consoleAPICalled"):
                self.said.append(json.dumps(it["params"])[:400])
            if it.get("method") == "Log.entryAdded" and it["params"]["entry"]["level"] in ("error", "warning"):
                self.said.append(it["params"]["entry"]["text"])
        fail(f"no answer to {method}")

    def ask(self, script):
        answer = self.call("Runtime.evaluate", expression=script, awaitPromise=True, returnByValue=True)
        if "exceptionDetails" in answer:
            fail(f"{script}: {answer['exceptionDetails']}")
        return answer["result"].get("value")

    def open(self, path, moment=""):
        self.call("Page.navigate", url="about:blank")
        self.call("Page.navigate", url=f"file://{path}{moment}")
        self.wait("document.documentElement && document.documentElement.dataset.ready === 'yes'", LOADING)

    def wait(self, condition, seconds):
        until = time.monotonic() + seconds
        while not self.ask(condition):
            if self.said or time.monotonic() > until:
                fail(f"{condition} isn't so after {seconds} seconds; the console: {self.said[:3]}")
            time.sleep(0.02)

    def press(self, key, modifiers=0):
        text = "\r" if key == "Enter" and not modifiers else key if len(key) == 1 else ""
        for kind in ("keyDown", "keyUp"):
            self.call(
                "Input.dispatchKeyEvent",
                type=kind,
                key=key,
                modifiers=modifiers,
                windowsVirtualKeyCode=KEYS.get(key, ord(key[0].upper())),
                **({"text": text} if kind == "keyDown" and text else {}),
            )

    def write(self, text):
        """Types the text where the focus is."""
        self.call("Input.insertText", text=text)

    def click(self, x, y):
        for kind in ("mousePressed", "mouseReleased"):
            self.call("Input.dispatchMouseEvent", type=kind, x=x, y=y, button="left", buttons=1, clickCount=1)

    def drag(self, x, y, by_x, by_y):
        for kind, at_x, at_y in (
            ("mousePressed", x, y),
            ("mouseMoved", x + by_x / 2, y + by_y / 2),
            ("mouseMoved", x + by_x, y + by_y),
            ("mouseReleased", x + by_x, y + by_y),
        ):
            self.call("Input.dispatchMouseEvent", type=kind, x=at_x, y=at_y, button="left", buttons=1, clickCount=1)

    def size(self, width, height):
        self.call("Emulation.setDeviceMetricsOverride", width=width, height=height, deviceScaleFactor=1, mobile=False)
        self.settle()

    def settle(self):
        """Waits until what was asked for is drawn."""
        self.ask("new Promise(next => requestAnimationFrame(() => requestAnimationFrame(next)))")

    def picture(self, width, height, theme):
        self.size(width, height)
        self.ask(f"theme('{theme}')")
        self.settle()
        return base64.b64decode(self.call("Page.captureScreenshot", format="png")["data"])

    def end(self):
        try:
            os.write(self.to, json.dumps({"id": 0, "method": "Browser.close"}).encode() + b"\0")
            self.child.wait(10)
        except (OSError, subprocess.TimeoutExpired):
            self.child.kill()
            self.child.wait()
