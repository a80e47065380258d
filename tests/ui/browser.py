"""A headless Chromium that is led over a pipe, by the DevTools protocol: it opens pages, clicks and types as a person does,
and keeps what the pages ask for and what the console says."""
import base64
import json
import os
import select
import subprocess
import time
import urllib.parse

PATIENCE = 120


class Browser:
    def __init__(self, program, room):
        read_here, write_there = os.pipe()
        read_there, write_here = os.pipe()
        words = [program, "--headless", "--no-sandbox", "--disable-gpu", "--no-first-run", "--remote-debugging-pipe"]
        words += ["--user-data-dir=" + os.path.join(room, "profile"), "about:blank"]
        # Chromium reads commands from the descriptor 3 and writes answers to 4.
        line = 'exec "$@" 3<&%d 4>&%d' % (read_there, write_there)
        self.errors = open(os.path.join(room, "chromium.log"), "wb")
        self.process = subprocess.Popen(["bash", "-c", line, "bash"] + words, pass_fds=(read_there, write_there),
                                        stdin=subprocess.DEVNULL, stdout=self.errors, stderr=self.errors)
        os.close(read_there)
        os.close(write_there)
        self.input, self.output, self.rest, self.number = read_here, write_here, b"", 0
        self.pages = {}

    def call(self, method, session=None, **words):
        """Gives a command, and waits for its result."""
        self.number += 1
        message = {"id": self.number, "method": method, "params": words}
        if session:
            message["sessionId"] = session
        os.write(self.output, json.dumps(message).encode() + b"\0")
        while True:
            answer = self.next()
            if answer.get("id") == self.number:
                if "error" in answer:
                    raise OSError("%s: %s" % (method, answer["error"]))
                return answer["result"]

    def next(self):
        """The next message. Events go to their page as they come."""
        ends = time.monotonic() + PATIENCE
        while b"\0" not in self.rest:
            if not select.select([self.input], [], [], max(0, ends - time.monotonic()))[0]:
                raise OSError("Chromium says nothing")
            more = os.read(self.input, 1 << 20)
            if not more:
                raise OSError("Chromium ended")
            self.rest += more
        line, _, self.rest = self.rest.partition(b"\0")
        message = json.loads(line)
        page = self.pages.get(message.get("sessionId"))
        if page and "method" in message:
            page.take(message["method"], message["params"])
        return message

    def open(self, address, width=1280, height=900, scheme="light"):
        """A tab of its own at an address."""
        target = self.call("Target.createTarget", url="about:blank")["targetId"]
        session = self.call("Target.attachToTarget", targetId=target, flatten=True)["sessionId"]
        page = Page(self, session)
        page.origin = "http://" + urllib.parse.urlsplit(address).netloc.rpartition("@")[2]
        self.pages[session] = page
        for domain in ("Page", "Runtime", "Log", "Network"):
            page.call(domain + ".enable")
        page.resize(width, height, scheme)
        page.call("Page.navigate", url=address)
        return page

    def end(self):
        self.process.terminate()
        self.process.wait()
        self.errors.close()
        os.close(self.input)
        os.close(self.output)


class Page:
    def __init__(self, browser, session):
        self.browser, self.session = browser, session
        self.origin, self.requests, self.lines, self.dialogs = None, [], [], 0

    def call(self, method, **words):
        return self.browser.call(method, self.session, **words)

    def take(self, method, words):
        if method == "Network.requestWillBeSent":
            self.requests.append(words["request"])
        elif method == "Runtime.consoleAPICalled":
            self.lines.append("console: %s" % words["args"])
        elif method == "Runtime.exceptionThrown":
            self.lines.append("exception: %s" % words["exceptionDetails"])
        elif method == "Log.entryAdded":
            self.lines.append("%(source)s: %(text)s" % words["entry"])
        elif method == "Page.javascriptDialogOpening":
            self.dialogs += 1

    def resize(self, width, height, scheme):
        self.call("Emulation.setDeviceMetricsOverride", width=width, height=height, deviceScaleFactor=1, mobile=width < 600)
        self.call("Emulation.setScrollbarsHidden", hidden=True)
        self.call("Emulation.setEmulatedMedia", features=[{"name": "prefers-color-scheme", "value": scheme}])

    def get(self, expression):
        """The value of an expression in the page."""
        result = self.call("Runtime.evaluate", expression=expression, returnByValue=True, awaitPromise=True)
        if "exceptionDetails" in result:
            raise OSError("%s: %s" % (expression, result["exceptionDetails"]["exception"].get("description")))
        return result["result"].get("value")

    def wait(self, expression):
        """Waits until an expression holds, and says whether it did."""
        ends = time.monotonic() + PATIENCE
        while time.monotonic() < ends:
            if self.get(expression):
                return True
            time.sleep(0.05)
        return False

    def click(self, element):
        """Clicks at the middle of an element, which an expression gives."""
        place = self.get("(() => { const e = %s; e.scrollIntoView({block: 'center'}); const r = e.getClientRects()[0]; return [r.x + r.width / 2, r.y + r.height / 2]; })()" % element)
        for kind in ("mousePressed", "mouseReleased"):
            self.call("Input.dispatchMouseEvent", type=kind, x=place[0], y=place[1], button="left", clickCount=1)

    def type(self, text):
        self.call("Input.insertText", text=text)

    def picture(self, path, most=2000):
        """Keeps a picture of the page, from its top."""
        size = self.call("Page.getLayoutMetrics")["cssContentSize"]
        clip = {"x": 0, "y": 0, "width": size["width"], "height": min(size["height"], most), "scale": 1}
        image = self.call("Page.captureScreenshot", format="png", captureBeyondViewport=True, clip=clip)["data"]
        with open(path, "wb") as file:
            file.write(base64.b64decode(image))
