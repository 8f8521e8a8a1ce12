"""A headless Chromium that a test drives by DevTools over a pipe, with Python's standard library only.

Chromium reads commands on descriptor 3 and writes answers on 4, each a JSON text that ends with a zero byte.
"""
import base64
import json
import os
import select
import shutil
import subprocess
import tempfile
import time

from trials import Lacking, Wrong

NAMES = ("chromium", "chromium-browser", "google-chrome-stable", "google-chrome")
FLAGS = ("--headless", "--no-sandbox", "--disable-gpu", "--no-first-run", "--disable-extensions", "--disable-background-networking",
         "--hide-scrollbars", "--force-color-profile=srgb", "--remote-debugging-pipe")
# Seconds in which an answer or a page must come.
MOST = 120


def program():
    """The browser of this machine."""
    found = next(filter(None, map(shutil.which, NAMES)), None)
    if not found:
        raise Lacking("no Chromium")
    return found


class Browser:
    """One tab of a browser with an empty profile. `close` ends it, and so does the end of a `with`."""

    def __init__(self, *flags):
        found, self.home = program(), tempfile.mkdtemp(prefix="nms-browser-")
        commands, self.to = os.pipe()
        self.answers, said = os.pipe()

        def place():
            # First away from 3 and 4, so that neither overwrites the other.
            ends = [os.dup(commands), os.dup(said)]
            for end, wanted in zip(ends, (3, 4)):
                os.dup2(end, wanted)
                os.set_inheritable(wanted, True)

        self.process = subprocess.Popen([found, *FLAGS, f"--user-data-dir={self.home}", *flags, "about:blank"], preexec_fn=place,
                                        pass_fds=(3, 4, commands, said), stdout=subprocess.DEVNULL, stderr=subprocess.DEVNULL)
        os.close(commands)
        os.close(said)
        self.number, self.unread, self.events, self.session = 0, b"", [], None
        self.attach()

    def attach(self):
        tab = next(it for it in self("Target.getTargets")["targetInfos"] if it["type"] == "page")
        self.session = self("Target.attachToTarget", targetId=tab["targetId"], flatten=True)["sessionId"]
        for part in ("Page", "Runtime", "Network", "Log"):
            self(f"{part}.enable")

    def __enter__(self):
        return self

    def __exit__(self, *_):
        self.close()

    def message(self, end):
        """The next message; a browser that is silent until then has failed the test."""
        while b"\0" not in self.unread:
            if not select.select([self.answers], [], [], max(0, end - time.monotonic()))[0]:
                raise Wrong("the browser gives no answer")
            more = os.read(self.answers, 1 << 20)
            if not more:
                raise Wrong("the browser has ended")
            self.unread += more
        one, _, self.unread = self.unread.partition(b"\0")
        return json.loads(one)

    def __call__(self, method, **given):
        self.number += 1
        sent = {"id": self.number, "method": method, "params": given, **({"sessionId": self.session} if self.session else {})}
        text, end = json.dumps(sent).encode() + b"\0", time.monotonic() + MOST
        while text:
            text = text[os.write(self.to, text):]
        while (came := self.message(end)).get("id") != self.number:
            self.events.append(came)
        if "error" in came:
            raise Wrong(f"{method}: {came['error']['message']}")
        return came["result"]

    def wait(self, method, most=MOST):
        """Waits for an event; it may have come already."""
        end = time.monotonic() + most
        while not any(it.get("method") == method for it in self.events):
            self.events.append(self.message(end))

    def open(self, address):
        """Opens a page, and waits until it is loaded. The empty page before it makes each opening a new one."""
        for to in ("about:blank", address):
            self.events = []
            self("Page.navigate", url=to)
            self.wait("Page.loadEventFired")

    def js(self, text):
        """The value of an expression; that of a promise when it is there."""
        came = self("Runtime.evaluate", expression=text, returnByValue=True, awaitPromise=True)
        if "exceptionDetails" in came:
            raise Wrong(came["exceptionDetails"].get("exception", {}).get("description", str(came)))
        return came["result"].get("value")

    def settle(self, milliseconds=80):
        """Waits until the page has drawn, and has waited this long."""
        self.js(f"new Promise(done => requestAnimationFrame(() => setTimeout(done, {milliseconds})))")

    def size(self, width, height, is_phone=False):
        self("Emulation.setDeviceMetricsOverride", width=width, height=height, deviceScaleFactor=2 if is_phone else 1, mobile=is_phone)

    def media(self, **features):
        """Emulates media features; `media` is the kind of medium itself."""
        named = [{"name": name.replace("_", "-"), "value": value} for name, value in features.items() if name != "media"]
        self("Emulation.setEmulatedMedia", media=features.get("media", ""), features=named)

    def scripts(self, are_on):
        self("Emulation.setScriptExecutionDisabled", value=not are_on)

    def shot(self, file, is_whole=True):
        with open(file, "wb") as it:
            it.write(base64.b64decode(self("Page.captureScreenshot", captureBeyondViewport=is_whole)["data"]))

    def mouse(self, kind, x, y, **more):
        self("Input.dispatchMouseEvent", type=f"mouse{kind}", x=x, y=y, **more)

    def click(self, x, y):
        for kind in ("Pressed", "Released"):
            self.mouse(kind, x, y, button="left", clickCount=1)

    def key(self, name):
        text = {"text": name} if len(name) == 1 else {}
        self("Input.dispatchKeyEvent", type="keyDown", key=name, **text)
        self("Input.dispatchKeyEvent", type="keyUp", key=name)

    def faults(self):
        """What was thrown, and what the console has as an error, since the page was opened."""
        return [it["params"].get("exceptionDetails", it["params"].get("entry")) for it in self.events
                if it.get("method") == "Runtime.exceptionThrown"
                or it.get("method") == "Log.entryAdded" and it["params"]["entry"]["level"] == "error"]

    def requests(self):
        return [it["params"]["request"]["url"] for it in self.events if it.get("method") == "Network.requestWillBeSent"]

    def close(self):
        try:
            self.session = None
            self("Browser.close")
            self.process.wait(10)
        except (Wrong, OSError, subprocess.TimeoutExpired):
            self.process.kill()
            self.process.wait(10)
        os.close(self.to)
        os.close(self.answers)
        shutil.rmtree(self.home, ignore_errors=True)
