"""A page in Chromium, driven over the debugging connection: opened, asked, pictured; what it complains of and what it requests is kept.

The connection speaks the Chrome DevTools Protocol: a command is a JSON text with a number, its answer bears the same number, and between
them come events without one.
"""

import base64
import json
import pathlib
import time

SECONDS = 60  # for an answer; a loaded machine may be slow
DOMAINS = ("Page", "Runtime", "Log", "Network", "DOM")
COMPLAINTS = ("error", "warning", "assert")


class Failed(Exception):
    """The browser did not do what it was told, or the page's code threw."""


class Browser:
    """The debugging connection, with every event that has come in its order."""

    def __init__(self, connection):
        self.connection, self.events, self.count = connection, [], 0

    def heard(self, deadline):
        """The next message, kept where it is an event; None where none came in time."""
        text = self.connection.receive(deadline)
        message = text and json.loads(text)
        if message and "method" in message:
            self.events.append((message["method"], message["params"]))
        return message

    def ask(self, method, parameters, session=None):
        """The answer to a command."""
        self.count += 1
        command = {"id": self.count, "method": method, "params": parameters, **({"sessionId": session} if session else {})}
        self.connection.send(json.dumps(command))
        deadline = time.monotonic() + SECONDS
        while True:
            message = self.heard(deadline)
            if message is None:
                raise Failed("%s has no answer after %d s" % (method, SECONDS))
            if message.get("id") == self.count:
                if "error" in message:
                    raise Failed("%s: %s" % (method, message["error"]["message"]))
                return message["result"]

    def wait_for(self, method, since, wanted=lambda parameters: True, seconds=SECONDS):
        """What the first such event tells among those from a place in the list on."""
        deadline, at = time.monotonic() + seconds, since
        while True:
            for name, parameters in self.events[at:]:
                at += 1
                if name == method and wanted(parameters):
                    return parameters
            if self.heard(deadline) is None:
                raise Failed("%s did not come within %d s" % (method, seconds))


def complaint(name, parameters):
    """What an event says of an error in the page, in a sentence; None where it says nothing of one."""
    if name == "Runtime.exceptionThrown":
        details = parameters["exceptionDetails"]
        return "thrown: %s" % details.get("exception", {}).get("description", details["text"])
    if name == "Runtime.consoleAPICalled" and parameters["type"] in COMPLAINTS:
        return "%s: %s" % (parameters["type"], " ".join(str(part.get("value", part.get("description"))) for part in parameters["args"]))
    if name == "Log.entryAdded" and parameters["entry"]["level"] in COMPLAINTS:
        return "%s: %s" % (parameters["entry"]["level"], parameters["entry"]["text"])
    return None


class Tab:
    """One page of the browser; its commands go by the session that it is attached by."""

    def __init__(self, browser):
        self.browser = browser
        target = browser.ask("Target.createTarget", {"url": "about:blank"})["targetId"]
        self.session = browser.ask("Target.attachToTarget", {"targetId": target, "flatten": True})["sessionId"]
        for domain in DOMAINS:
            self.tell(domain + ".enable")

    def tell(self, method, **parameters):
        return self.browser.ask(method, parameters, self.session)

    def now(self):
        """The place in the list of events behind all that have come."""
        return len(self.browser.events)

    def open(self, address):
        since = self.now()
        told = self.tell("Page.navigate", url=address)
        if told.get("errorText"):
            raise Failed("%s: %s" % (address, told["errorText"]))
        self.browser.wait_for("Page.loadEventFired", since)

    def evaluate(self, expression, by_value=True):
        """What an expression, or the promise that it is, comes to in the page; a thing of the page itself where it is not wanted by its value."""
        told = self.tell("Runtime.evaluate", expression=expression, awaitPromise=True, returnByValue=by_value)
        if "exceptionDetails" in told:
            raise Failed("%s: %s" % (expression[:80], complaint("Runtime.exceptionThrown", told)))
        return told["result"].get("value") if by_value else told["result"]

    def call(self, function, *arguments):
        """What a function of the page's language answers to these arguments."""
        return self.evaluate("(%s)(...%s)" % (function, json.dumps(arguments)))

    def size(self, wide, high, mobile=False):
        """Makes the window so wide and high; a mobile one obeys the page's viewport and has no lasting scroll bars."""
        self.tell("Emulation.setDeviceMetricsOverride", width=wide, height=high, deviceScaleFactor=1, mobile=mobile)

    def picture(self, path, whole=False):
        """Keeps what is seen as a PNG picture; the whole page where that is wanted, below the window too."""
        data = self.tell("Page.captureScreenshot", format="png", captureBeyondViewport=whole)["data"]
        pathlib.Path(path).write_bytes(base64.b64decode(data))

    def complaints(self, since=0):
        return [said for said in (complaint(*event) for event in self.browser.events[since:]) if said]

    def requests(self, since=0):
        """The addresses of all that was asked for."""
        return [told["request"]["url"] for name, told in self.browser.events[since:] if name == "Network.requestWillBeSent"]
