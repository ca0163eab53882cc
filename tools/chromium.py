"""Drives Chromium without a window over its DevTools protocol, by two pipes: messages are JSON with a 0 behind each.
Read by checks/page. Needs Debian's package chromium, and nothing else but Python's own library."""
import base64
import json
import os
import select
import shutil
import subprocess
import tempfile
import time

FLAGS = [
    "--headless=new", "--no-sandbox", "--disable-gpu", "--hide-scrollbars", "--no-first-run", "--mute-audio",
    "--disable-background-networking", "--disable-component-update", "--disable-sync",
    "--host-resolver-rules=MAP * ~NOTFOUND",
    "--remote-debugging-pipe", "--window-size=1500,900",
]
KEYS = {  # by name: key, code and number
    "ArrowLeft": ("ArrowLeft", 37), "ArrowRight": ("ArrowRight", 39), "ArrowUp": ("ArrowUp", 38),
    "ArrowDown": ("ArrowDown", 40), "Tab": ("Tab", 9), "Enter": ("Enter", 13), "Home": ("Home", 36), "End": ("End", 35),
    " ": ("Space", 32), "Escape": ("Escape", 27),
}


class Chromium:
    """A browser, and one message after another to it."""

    def __init__(self, *more, program="chromium"):
        self.folder = tempfile.mkdtemp(prefix="chromium-")
        to_browser, self.to = os.pipe()
        self.of, from_browser = os.pipe()
        self.process = subprocess.Popen(
            ["sh", "-c", 'exec "$@" 3<&%d 4>&%d' % (to_browser, from_browser), "sh", program, *FLAGS, *more,
             "--user-data-dir=" + self.folder, "about:blank"],
            pass_fds=(to_browser, from_browser), stdout=subprocess.DEVNULL, stderr=subprocess.DEVNULL)
        os.close(to_browser)
        os.close(from_browser)
        self.count, self.held, self.events, self.answers = 0, b"", [], {}

    def close(self):
        """Ends the browser, and takes its folder away."""
        self.process.terminate()
        self.process.wait()
        os.close(self.to)
        os.close(self.of)
        shutil.rmtree(self.folder, ignore_errors=True)

    def take(self, seconds):
        """Reads what has come within so many seconds at most."""
        if select.select([self.of], [], [], seconds)[0]:
            got = os.read(self.of, 1 << 20)
            if not got:
                raise RuntimeError("Chromium has ended")
            self.held += got
        while b"\0" in self.held:
            line, self.held = self.held.split(b"\0", 1)
            message = json.loads(line)
            if "id" in message:
                self.answers[message["id"]] = message
            else:
                self.events.append(message)

    def call(self, method, session=None, seconds=120, **parameters):
        """What the browser answers to one message."""
        self.count += 1
        number = self.count
        message = {"id": number, "method": method, "params": parameters}
        if session:
            message["sessionId"] = session
        os.write(self.to, json.dumps(message).encode() + b"\0")
        end = time.monotonic() + seconds
        while number not in self.answers:
            if time.monotonic() > end:
                raise RuntimeError(f"no answer to {method} in {seconds} s")
            self.take(0.5)
        answer = self.answers.pop(number)
        if "error" in answer:
            raise RuntimeError(f"{method}: {answer['error']}")
        return answer["result"]


class Tab:
    """A tab of a browser, with what a person does in it."""

    def __init__(self, browser, address, width=1500, height=900):
        self.browser = browser
        self.target = browser.call("Target.createTarget", url="about:blank")["targetId"]
        self.session = browser.call("Target.attachToTarget", targetId=self.target, flatten=True)["sessionId"]
        for domain in ("Page", "Runtime", "Log", "Network"):
            self.call(domain + ".enable")
        self.resize(width, height)
        self.call("Page.navigate", url=address)

    def call(self, method, **parameters):
        """What the browser answers to one message about this tab."""
        return self.browser.call(method, session=self.session, **parameters)

    def resize(self, width, height):
        """Gives the tab this size."""
        self.call("Emulation.setDeviceMetricsOverride", width=width, height=height, deviceScaleFactor=1, mobile=False)

    def value(self, expression):
        """What an expression of JavaScript comes to, once it is there."""
        result = self.call("Runtime.evaluate", expression=expression, awaitPromise=True, returnByValue=True)
        if "exceptionDetails" in result:
            raise RuntimeError(json.dumps(result["exceptionDetails"])[:800])
        return result["result"].get("value")

    def wait(self, expression, seconds=60):
        """Waits until an expression is true."""
        end = time.monotonic() + seconds
        while not self.value(expression):
            if time.monotonic() > end:
                raise RuntimeError(f"not within {seconds} s: {expression}")
            time.sleep(0.01)

    def click(self, x, y, count=1):
        """Clicks at a place."""
        for kind in ("mouseMoved", "mousePressed", "mouseReleased"):
            button = "none" if kind == "mouseMoved" else "left"
            self.call("Input.dispatchMouseEvent", type=kind, x=x, y=y, button=button,
                      buttons=1 if kind == "mousePressed" else 0, clickCount=count)

    def key(self, name, modifiers=0):
        """Presses a key; modifiers are 1 for alt, 2 for ctrl, 8 for shift."""
        code, number = KEYS.get(name, ("Key" + name.upper(), ord(name.upper()[0])))
        key = name
        words = dict(key=key, code=code, windowsVirtualKeyCode=number, modifiers=modifiers)
        text = name if len(name) == 1 and not modifiers & 2 else None
        written = {"type": "keyDown", "text": text} if text else {"type": "rawKeyDown"}
        self.call("Input.dispatchKeyEvent", **written, **words)
        self.call("Input.dispatchKeyEvent", type="keyUp", **words)

    def picture(self, path):
        """Writes what is seen to a file."""
        data = self.call("Page.captureScreenshot", format="png")["data"]
        with open(path, "wb") as out:
            out.write(base64.b64decode(data))

    def faults(self):
        """What the page said of itself: errors and refusals."""
        found = []
        for event in self.browser.events:
            if event.get("sessionId") != self.session:
                continue
            if event["method"] == "Runtime.exceptionThrown":
                found.append(json.dumps(event["params"]["exceptionDetails"])[:600])
            if event["method"] == "Log.entryAdded" and event["params"]["entry"]["level"] in ("error", "warning"):
                found.append(event["params"]["entry"]["text"])
        return found

    def requests(self):
        """The addresses that the page asked for."""
        return [event["params"]["request"]["url"] for event in self.browser.events
                if event.get("sessionId") == self.session and event["method"] == "Network.requestWillBeSent"]
