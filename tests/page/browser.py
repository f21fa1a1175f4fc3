"""A real Chromium, driven over pipes by its debugging protocol. Standard library only."""
import base64
import json
import os
import shutil
import subprocess
import tempfile
import time

LOCAL = ("file:", "data:", "blob:", "about:")


def program():
    """Chromium's path, or None if it isn't installed."""
    return os.environ.get("CHROMIUM") or shutil.which("chromium") or shutil.which("chromium-browser")


class Browser:
    """Starts Chromium without a window. Its pipes are the descriptors 3 and 4; a message ends with a zero byte."""

    def __init__(self, size=(1600, 1000)):
        self.profile = tempfile.TemporaryDirectory(prefix="viewer-", ignore_cleanup_errors=True)
        to_read, self.write_end = os.pipe()
        self.read_end, to_write = os.pipe()

        def descriptors():
            first, second = os.dup(to_read), os.dup(to_write)
            os.dup2(first, 3)
            os.dup2(second, 4)

        words = [program(), "--headless=new", "--no-sandbox", "--remote-debugging-pipe", "--user-data-dir=" + self.profile.name,
                 "--no-first-run", "--disable-gpu", "--disable-background-networking", "--disable-extensions",
                 "--hide-scrollbars=false", "--window-size=%d,%d" % size, "about:blank"]
        self.process = subprocess.Popen(words, preexec_fn=descriptors, close_fds=False, stdin=subprocess.DEVNULL,
                                        stdout=subprocess.DEVNULL, stderr=subprocess.DEVNULL)
        os.close(to_read)
        os.close(to_write)
        self.held, self.number, self.events = b"", 0, []
        found = self.call("Target.getTargets")["targetInfos"]
        target = next(it["targetId"] for it in found if it["type"] == "page")
        self.session = self.call("Target.attachToTarget", targetId=target, flatten=True)["sessionId"]
        for domain in ("Page", "Runtime", "Log", "Network", "DOM"):
            self.page(domain + ".enable")
        self.resize(*size)

    def resize(self, width, height):
        self.page("Emulation.setDeviceMetricsOverride", width=width, height=height, deviceScaleFactor=1, mobile=False)

    def receive(self):
        while b"\0" not in self.held:
            data = os.read(self.read_end, 1 << 16)
            if not data:
                raise RuntimeError("chromium ended")
            self.held += data
        line, self.held = self.held.split(b"\0", 1)
        return json.loads(line)

    def call(self, method, session=None, **given):
        self.number += 1
        message = {"id": self.number, "method": method, "params": given}
        if session:
            message["sessionId"] = session
        os.write(self.write_end, json.dumps(message).encode() + b"\0")
        while True:
            answer = self.receive()
            if answer.get("id") == self.number:
                if "error" in answer:
                    raise RuntimeError("%s: %s" % (method, answer["error"]))
                return answer["result"]
            self.events.append(answer)

    def page(self, method, **given):
        return self.call(method, session=self.session, **given)

    def run(self, expression):
        """The value of an expression in the page, or of what it promises."""
        answer = self.page("Runtime.evaluate", expression=expression, awaitPromise=True, returnByValue=True)
        if "exceptionDetails" in answer:
            raise RuntimeError("%s: %s" % (expression[:200], json.dumps(answer["exceptionDetails"])[:1500]))
        return answer["result"].get("value")

    def open(self, url):
        # to go to the same page with another fragment loads nothing
        self.page("Page.navigate", url="about:blank")
        self.page("Page.navigate", url=url)
        return self.until("document.body && document.body.dataset.state")

    def until(self, expression, patience=60):
        end = time.time() + patience
        while time.time() < end:
            try:
                value = self.run(expression)
            except RuntimeError:
                value = None
            if value:
                return value
            time.sleep(0.02)
        raise RuntimeError("not in time: " + expression)

    def choose(self, selector, paths):
        """Chooses files as a user does."""
        root = self.page("DOM.getDocument")["root"]["nodeId"]
        node = self.page("DOM.querySelector", nodeId=root, selector=selector)["nodeId"]
        self.page("DOM.setFileInputFiles", nodeId=node, files=[os.path.abspath(path) for path in paths])

    def key(self, key):
        text = key if len(key) == 1 else ""
        self.page("Input.dispatchKeyEvent", type="keyDown", key=key, text=text)
        self.page("Input.dispatchKeyEvent", type="keyUp", key=key)

    def shot(self, path):
        time.sleep(0.3)
        with open(path, "wb") as file:
            file.write(base64.b64decode(self.page("Page.captureScreenshot", format="png")["data"]))

    def complaints(self):
        """What the console, the log and exceptions said, and what the page asked of the network."""
        found = []
        for event in self.events:
            method, given = event.get("method"), event.get("params", {})
            if method == "Runtime.exceptionThrown":
                found.append("exception: %s" % json.dumps(given["exceptionDetails"])[:600])
            elif method == "Runtime.consoleAPICalled" and given["type"] in ("error", "warning", "assert"):
                found.append("console: %s" % json.dumps(given["args"])[:400])
            elif method == "Log.entryAdded" and given["entry"]["level"] in ("error", "warning"):
                found.append("log: %s" % given["entry"]["text"])
            elif method == "Network.requestWillBeSent" and not given["request"]["url"].startswith(LOCAL):
                found.append("network: %s" % given["request"]["url"])
        return found

    def close(self):
        try:
            self.call("Browser.close")
        except (RuntimeError, OSError):
            pass
        self.process.wait(20)
        self.profile.cleanup()
