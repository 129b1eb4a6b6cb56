"""Headless Chromium by its debugging pipe, for bench/pictures: opens pages, asks and tells them."""
import base64
import json
import os
import select
import subprocess
import tempfile
import time


class Browser:
    def __init__(self, program="chromium", width=1280, height=900):
        to_read, self.out = os.pipe()
        self.into, to_write = os.pipe()
        self.home = tempfile.TemporaryDirectory(ignore_cleanup_errors=True)
        words = [
            program, "--headless", "--no-sandbox", "--disable-gpu", "--remote-debugging-pipe",
            "--disable-background-networking", "--no-first-run", "--hide-scrollbars",
            f"--user-data-dir={self.home.name}", f"--window-size={width},{height}", "about:blank",
        ]  # fmt: skip
        line = f'exec 3<&{to_read} 4>&{to_write}; exec "$@"'
        self.run = subprocess.Popen(
            ["bash", "-c", line, "chromium", *words],
            pass_fds=(to_read, to_write), stdout=subprocess.DEVNULL, stderr=subprocess.DEVNULL,
            env={**os.environ, "HOME": self.home.name},
        )  # fmt: skip
        os.close(to_read)
        os.close(to_write)
        self.number, self.held, self.events = 0, b"", []
        target = self.ask("Target.createTarget", url="about:blank")["targetId"]
        self.session = None
        self.session = self.ask("Target.attachToTarget", targetId=target, flatten=True)["sessionId"]
        for domain in ("Page", "Runtime", "Network", "Log"):
            self.ask(f"{domain}.enable")

    session = None

    def message(self, seconds=60):
        until = time.monotonic() + seconds
        while b"\0" not in self.held:
            left = until - time.monotonic()
            if left <= 0 or not select.select([self.into], [], [], left)[0]:
                raise TimeoutError("the browser doesn't answer")
            more = os.read(self.into, 1 << 20)
            if not more:
                raise EOFError("the browser has ended")
            self.held += more
        text, self.held = self.held.split(b"\0", 1)
        return json.loads(text)

    def ask(self, method, **params):
        self.number += 1
        message = {"id": self.number, "method": method, "params": params}
        if self.session:
            message["sessionId"] = self.session
        os.write(self.out, json.dumps(message).encode() + b"\0")
        while True:
            answer = self.message()
            if answer.get("id") == self.number:
                if "error" in answer:
                    raise RuntimeError(f"{method}: {answer['error']['message']}")
                return answer["result"]
            self.events.append(answer)

    def open(self, path):
        self.events = []
        self.ask("Page.navigate", url="file://" + os.path.abspath(path))
        while not any(e.get("method") == "Page.loadEventFired" for e in self.events):
            self.events.append(self.message())

    def value(self, expression):
        """What an expression of the page is worth, as JSON can tell it."""
        it = self.ask("Runtime.evaluate", expression=expression, returnByValue=True)
        if "exceptionDetails" in it:
            raise RuntimeError(it["exceptionDetails"]["exception"].get("description", expression))
        return it["result"].get("value")

    def key(self, key, code=None, number=0):
        text = key if len(key) == 1 else ""
        for kind in ("keyDown", "keyUp"):
            said = {"text": text if kind == "keyDown" else "", "windowsVirtualKeyCode": number}
            self.ask("Input.dispatchKeyEvent", type=kind, key=key, code=code or key, **said)

    def mouse(self, kind, x, y, **more):
        self.ask("Input.dispatchMouseEvent", type=kind, x=x, y=y, **more)

    def faults(self):
        """Exceptions, refused scripts, dialogs and whatever was fetched but the page itself."""
        self.value("0")
        found = []
        for event in self.events:
            method, params = event.get("method"), event.get("params", {})
            if method == "Runtime.exceptionThrown":
                found.append(params["exceptionDetails"].get("text", "exception"))
            elif method == "Page.javascriptDialogOpening":
                found.append("a dialog")
            elif method == "Log.entryAdded" and params["entry"]["level"] == "error":
                found.append(params["entry"]["text"])
            elif method == "Network.requestWillBeSent" and params.get("type") != "Document":
                found.append("a request to " + params["request"]["url"][:80])
        return found

    def scheme(self, name):
        self.ask(
            "Emulation.setEmulatedMedia", features=[{"name": "prefers-color-scheme", "value": name}]
        )

    def picture(self, path, clip=None):
        more = {"clip": {**clip, "scale": 1}} if clip else {}
        it = self.ask("Page.captureScreenshot", format="png", captureBeyondViewport=True, **more)
        with open(path, "wb") as file:
            file.write(base64.b64decode(it["data"]))

    def close(self):
        try:
            self.ask("Browser.close")
        except (EOFError, RuntimeError, TimeoutError):
            pass
        self.run.wait(20)
        self.home.cleanup()
