"""Chromium without a window, driven over its debugging pipe, by Python's standard library alone."""
import base64
import json
import os
import select
import shutil
import subprocess
import tempfile
import time

KEY_CODES = {"ArrowRight": 39, "ArrowLeft": 37, "ArrowDown": 40, "ArrowUp": 38, "Home": 36, "End": 35, "Enter": 13, "Tab": 9, "Escape": 27}


def installed():
    """Returns the path of a Chromium, or None."""
    for name in "/usr/lib/chromium/chromium", "chromium", "chromium-browser", "google-chrome":
        path = shutil.which(name)
        if path:
            return path
    return None


class Browser:
    """One page of a browser. `events` holds what the browser reported since the last page was opened."""

    def __init__(self):
        self.folder = tempfile.mkdtemp(prefix="pst-page-")
        self.number, self.buffer, self.events, self.session = 0, b"", [], None
        commands_read, self.commands = os.pipe()
        self.answers, answers_write = os.pipe()

        def name_pipes():  # the browser reads commands from 3 and writes to 4
            read, write = os.dup(commands_read), os.dup(answers_write)
            os.dup2(read, 3)
            os.dup2(write, 4)

        options = ["--headless=new", "--no-sandbox", "--disable-gpu", "--hide-scrollbars", "--no-first-run", "--disable-sync",
                   "--disable-background-networking", "--disable-component-update", "--remote-debugging-pipe",
                   "--user-data-dir=" + self.folder, "about:blank"]
        self.process = subprocess.Popen([installed()] + options, preexec_fn=name_pipes, close_fds=False,
                                        stdout=subprocess.DEVNULL, stderr=subprocess.DEVNULL)
        os.close(commands_read)
        os.close(answers_write)
        page = next(t for t in self.call("Target.getTargets")["targetInfos"] if t["type"] == "page")
        self.session = self.call("Target.attachToTarget", targetId=page["targetId"], flatten=True)["sessionId"]
        for domain in "Page", "Runtime", "Network", "Log":
            self.call(domain + ".enable")

    def call(self, method, **parameters):
        """Sends a command and returns its result. Other messages become events."""
        self.number += 1
        message = {"id": self.number, "method": method, "params": parameters}
        if self.session:
            message["sessionId"] = self.session
        os.write(self.commands, json.dumps(message).encode() + b"\0")
        end = time.time() + 60
        while time.time() < end:
            if select.select([self.answers], [], [], max(0, end - time.time()))[0]:
                more = os.read(self.answers, 1 << 20)
                if not more:
                    raise EOFError("the browser ended")
                self.buffer += more
            *whole, self.buffer = self.buffer.split(b"\0")
            result = None
            for answer in map(json.loads, whole):
                if answer.get("id") == self.number:
                    result = answer
                else:
                    self.events.append(answer)
            if result:
                if "error" in result:
                    raise RuntimeError("%s: %s" % (method, result["error"]))
                return result["result"]
        raise TimeoutError(method)

    def run(self, code):
        """Returns the value of a JavaScript expression."""
        answer = self.call("Runtime.evaluate", expression=code, returnByValue=True, awaitPromise=True)
        if "exceptionDetails" in answer:
            raise RuntimeError(answer["exceptionDetails"].get("exception", {}).get("description", str(answer)))
        return answer["result"].get("value")

    def show(self, width=1280, height=900, dark=False, media=""):
        """Sets the size of the window, the color scheme and the medium."""
        self.call("Emulation.setDeviceMetricsOverride", width=width, height=height, deviceScaleFactor=1, mobile=False)
        features = [("prefers-color-scheme", "dark" if dark else "light"), ("prefers-reduced-motion", "reduce")]
        self.call("Emulation.setEmulatedMedia", media=media, features=[{"name": n, "value": v} for n, v in features])

    def open(self, path, item=None):
        """Opens a file, at an item."""
        self.call("Page.navigate", url="about:blank")
        self.events.clear()
        self.call("Page.navigate", url="file://%s%s" % (path, "#%d" % item if item else ""))
        end = time.time() + 60
        while time.time() < end:
            if self.run("location.protocol === 'file:' && document.readyState") == "complete":
                return
            time.sleep(0.01)
        raise TimeoutError(path)

    def key(self, key):
        """Presses and releases a key."""
        code = KEY_CODES.get(key, ord(key[0].upper()))
        text = {"text": key} if len(key) == 1 else {"text": "\r"} if key == "Enter" else {}
        self.call("Input.dispatchKeyEvent", type="keyDown", key=key, windowsVirtualKeyCode=code, **text)
        self.call("Input.dispatchKeyEvent", type="keyUp", key=key, windowsVirtualKeyCode=code)

    def type(self, text):
        """Types into the field that has the focus."""
        self.call("Input.insertText", text=text)

    def click(self, selector):
        """Clicks with the mouse on the middle of an element."""
        found = "document.querySelector(%s)" % json.dumps(selector)
        self.run(found + ".scrollIntoView({block: 'center'})")
        x, y = self.run("(r => [r.left + r.width / 2, r.top + r.height / 2])(%s.getBoundingClientRect())" % found)
        self.call("Input.dispatchMouseEvent", type="mouseMoved", x=x, y=y)
        for kind in "mousePressed", "mouseReleased":
            self.call("Input.dispatchMouseEvent", type=kind, x=x, y=y, button="left", clickCount=1)

    def text(self, selector):
        """Returns the visible text of an element, or None if there is none."""
        return self.run("(e => e && e.innerText)(document.querySelector(%s))" % json.dumps(selector))

    def texts(self, selector):
        """Returns the visible text of each element."""
        return self.run("[...document.querySelectorAll(%s)].map(e => e.textContent)" % json.dumps(selector))

    def errors(self):
        """Returns what the page logged or threw since it was opened."""
        kinds = "Runtime.exceptionThrown", "Runtime.consoleAPICalled", "Log.entryAdded"
        return [event for event in self.events if event.get("method") in kinds]

    def requests(self):
        """Returns the addresses that the page asked for since it was opened, without those that its policy refused."""
        of_kind = lambda kind: [event["params"] for event in self.events if event.get("method") == kind]
        refused = {failed["requestId"] for failed in of_kind("Network.loadingFailed") if failed.get("blockedReason") == "csp"}
        sent = [asked["request"]["url"] for asked in of_kind("Network.requestWillBeSent") if asked["requestId"] not in refused]
        return [url for url in sent if not url.startswith("about:")]

    def picture(self, file, full=False, most=6000):
        """Writes a PNG of the window, or of the whole page up to a height."""
        area = {}
        if full:
            size = self.call("Page.getLayoutMetrics")["cssContentSize"]
            clip = {"x": 0, "y": 0, "width": size["width"], "height": min(size["height"], most), "scale": 1}
            area = {"captureBeyondViewport": True, "clip": clip}
        with open(file, "wb") as out:
            out.write(base64.b64decode(self.call("Page.captureScreenshot", format="png", **area)["data"]))

    def close(self):
        """Ends the browser."""
        try:
            self.session = None
            self.call("Browser.close")
            self.process.wait(10)
        except (RuntimeError, TimeoutError, EOFError, OSError, subprocess.TimeoutExpired):
            self.process.kill()
        shutil.rmtree(self.folder, ignore_errors=True)
