"""Chromium, driven as a person would, by its own protocol (Chrome DevTools Protocol) over a pipe, with no program in between.

    browser = Chromium(scene.scratch + "/profile")    a browser, which is ended with the script
    window = browser.window()                         of a person of their own: no login of another window is known in it
    window.go("http://127.0.0.1:8080/")               as by the address bar; `click`, `type`, `press` and `back` as by hand

What a page says is read from outside, by its tree, its styles and its accessibility tree: no script is put into it.
"""
import base64, fcntl, html, json, os, re, select, subprocess, time
from scene import start

WORDS = ["--headless=new", "--no-sandbox", "--disable-gpu", "--disable-dev-shm-usage", "--no-first-run", "--no-default-browser-check",
         "--disable-background-networking", "--disable-component-update", "--disable-sync", "--disable-extensions", "--hide-scrollbars",
         "--remote-debugging-pipe", "--font-render-hinting=none"]
# the number and the text of a key, and what it does in a field where the browser isn't told by the key alone
KEYS = {"Enter": (13, "\r", []), "Tab": (9, "", []), "Backspace": (8, "", []), "End": (35, "", ["moveToEndOfDocument"]),
        "Control+A": (65, "", ["selectAll"])}


class Failed(Exception):
    """The browser refused a call, or didn't do in time what was waited for."""


class Chromium:
    """A browser with a profile of its own. `options` are added to its command. With `forgets_windows` a page that is left is loaded again
    where somebody goes back to it, from what the browser keeps of it."""

    def __init__(self, profile, options=(), forgets_windows=True):
        # numbers past those that the browser's own ends of the pipes have
        theirs_in, self.out = (fcntl.fcntl(end, fcntl.F_DUPFD, 20) for end in os.pipe())
        self.into, theirs_out = (fcntl.fcntl(end, fcntl.F_DUPFD, 20) for end in os.pipe())
        words = ["chromium", *WORDS, f"--user-data-dir={profile}", *options]
        words += ["--disable-features=BackForwardCache"] if forgets_windows else []
        self.process = start(["bash", "-c", f'exec "$@" 3<&{theirs_in} 4>&{theirs_out}', "chromium", *words],
                             pass_fds=(theirs_in, theirs_out), stdout=subprocess.DEVNULL, stderr=subprocess.DEVNULL)
        os.close(theirs_in)
        os.close(theirs_out)
        self.left, self.number, self.answers, self.windows, self.opened = b"", 0, {}, {}, set()
        self.version = self.ask("Browser.getVersion", wait=60)["product"]
        self.ask("Target.setDiscoverTargets", discover=True)

    def tell(self, method, session=None, **given):
        self.number += 1
        message = {"id": self.number, "method": method, "params": given, **({"sessionId": session} if session else {})}
        data = json.dumps(message).encode() + b"\0"
        while data:
            data = data[os.write(self.out, data):]
        return self.number

    def ask(self, method, session=None, wait=20, **given):
        """What a call answers."""
        number = self.tell(method, session, **given)
        if not self.hears(lambda: number in self.answers, wait):
            raise Failed(f"{method}: no answer")
        answer = self.answers.pop(number)
        if "error" in answer:
            raise Failed(f"{method}: {answer['error']}")
        return answer["result"]

    def hears(self, holds, seconds):
        """Hears what the browser tells until something holds; whether it came to."""
        end = time.monotonic() + seconds
        while not holds():
            left = end - time.monotonic()
            if left <= 0 or not select.select([self.into], [], [], left)[0]:
                return holds()
            data = os.read(self.into, 1 << 20)
            if not data:
                raise Failed("the browser ended")
            *messages, self.left = (self.left + data).split(b"\0")
            for message in messages:
                self.heard(json.loads(message))
        return True

    def heard(self, message):
        if "id" in message:
            self.answers[message["id"]] = message
        elif message.get("sessionId") in self.windows:
            self.windows[message["sessionId"]].heard(message["method"], message["params"])
        elif message["method"] == "Target.targetCreated" and message["params"]["targetInfo"]["type"] == "page":
            self.opened.add(message["params"]["targetInfo"]["targetId"])

    def window(self, beside=None):
        """A window of a person of their own, or of the one whose window is given."""
        return Window(self, beside.person if beside else self.ask("Target.createBrowserContext")["browserContextId"])

    def end(self):
        self.tell("Browser.close")
        self.process.wait(timeout=20)


class Window:
    """A window of a person. `requests` are the methods and addresses that it asked for, but for those that the policy of a page forbade
    (`forbidden`); `prompts` the schemes and realms of the logins that it was asked for; `replies` the heads of what came, by address;
    `dialogs` the words of windows that a script opened, or `beforeunload`, which the person answers by whether they agree (`agrees`);
    `loads` counts documents that stand."""

    def __init__(self, browser, person):
        self.browser, self.person, self.session = browser, person, None
        self.requests, self.forbidden, self.prompts, self.login, self.dialogs, self.replies, self.loads = [], [], [], [], [], {}, 0
        self.asked, self.accepts, self.agrees = {}, None, True
        self.target = browser.ask("Target.createTarget", url="about:blank", browserContextId=person)["targetId"]
        self.session = browser.ask("Target.attachToTarget", targetId=self.target, flatten=True)["sessionId"]
        browser.windows[self.session] = self
        for domain in ("Page", "Network", "DOM", "CSS", "Accessibility"):
            self.ask(domain + ".enable")

    def ask(self, method, **given):
        return self.browser.ask(method, self.session, **given)

    def heard(self, method, given):
        tell = self.browser.tell
        if method == "Page.loadEventFired" or method == "Page.frameNavigated" and given.get("type") == "BackForwardCacheRestore":
            self.loads += 1
        elif method == "Network.requestWillBeSent":
            self.asked[given["requestId"]] = given["request"]["method"], given["request"]["url"]
            self.requests.append(self.asked[given["requestId"]])
        elif method == "Network.loadingFailed" and given.get("blockedReason") == "csp" and given["requestId"] in self.asked:
            self.requests.remove(self.asked[given["requestId"]])
            self.forbidden.append(self.asked[given["requestId"]])
        elif method == "Network.responseReceived":
            self.replies[given["response"]["url"]] = given["response"]
        elif method == "Page.javascriptDialogOpening":
            self.dialogs.append(given["message"] or given["type"])
            tell("Page.handleJavaScriptDialog", self.session, accept=self.agrees)
        elif method == "Fetch.requestPaused":
            named = {**given["request"]["headers"], **({"Accept": self.accepts} if self.accepts else {})}
            tell("Fetch.continueRequest", self.session, requestId=given["requestId"],
                 **({"headers": [{"name": name, "value": value} for name, value in named.items()]} if self.accepts else {}))
        elif method == "Fetch.authRequired":
            self.prompts.append((given["authChallenge"]["scheme"], given["authChallenge"]["realm"]))
            said = {"response": "CancelAuth"}
            if self.login:
                said = dict(zip(("response", "username", "password"), ("ProvideCredentials", *self.login.pop(0))))
            tell("Fetch.continueWithAuth", self.session, requestId=given["requestId"], authChallengeResponse=said)

    # ---- what a person does

    def loaded(self, act, wait=20):
        """Does something, and waits until a document stands that came of it."""
        before = self.loads
        act()
        if not self.browser.hears(lambda: self.loads > before, wait):
            raise Failed(f"nothing was loaded: {self.address()}")
        # what the document asks for behind its load, as the icon
        self.browser.hears(lambda: False, 0.05)

    def go(self, address):
        self.loaded(lambda: self.ask("Page.navigate", url=address))

    def reload(self):
        self.loaded(lambda: self.ask("Page.reload"))

    def back(self):
        history = self.ask("Page.getNavigationHistory")
        entry = history["entries"][history["currentIndex"] - 1]
        self.loaded(lambda: self.ask("Page.navigateToHistoryEntry", entryId=entry["id"]))

    def asked_to_sign_in(self, *answers):
        """The next prompts for a login are answered by these names and passwords; those behind them are left by Cancel."""
        self.login, self.prompts = list(answers), []
        self.ask("Fetch.enable", handleAuthRequests=True)

    def asks_for(self, accepts):
        """The next requests have this Accept field."""
        self.accepts = accepts
        self.ask("Fetch.enable")

    def as_ever(self):
        """The end of both."""
        self.accepts = None
        self.ask("Fetch.disable")

    def click(self, node, quiet=False, seconds=0.5):
        """Clicks into the middle of a node; waits until what it leads to is loaded, or where it should be quiet, whether it is."""
        self.ask("DOM.scrollIntoViewIfNeeded", nodeId=node)
        quad = self.ask("DOM.getContentQuads", nodeId=node)["quads"][0]
        place = {"x": sum(quad[::2]) / 4, "y": sum(quad[1::2]) / 4, "button": "left", "clickCount": 1}

        def act():
            for kind in ("mousePressed", "mouseReleased"):
                self.ask("Input.dispatchMouseEvent", type=kind, **place)
        self.quietly(act, seconds) if quiet else self.loaded(act)

    def quietly(self, act, seconds=0.5):
        act()
        self.browser.hears(lambda: False, seconds)

    def type(self, node, text):
        self.ask("DOM.focus", nodeId=node)
        self.ask("Input.insertText", text=text)

    def press(self, key):
        number, text, commands = KEYS[key]
        for kind in ("keyDown", "keyUp"):
            self.ask("Input.dispatchKeyEvent", type=kind, key=key, code=key, windowsVirtualKeyCode=number, text=text,
                     commands=commands if kind == "keyDown" else [])

    def keys(self, text):
        """Types into what has the focus, key by key."""
        for letter in text:
            if letter == "\n":
                self.press("Enter")
            else:
                for kind in ("keyDown", "keyUp"):
                    self.ask("Input.dispatchKeyEvent", type=kind, key=letter, text=letter)

    def write(self, node, text):
        """Types this into a field in place of what stands there, key by key."""
        self.ask("DOM.focus", nodeId=node)
        self.press("Control+A")
        self.press("Backspace")
        self.keys(text)

    def scripts(self, run):
        """Whether scripts run in the documents that are loaded from now on."""
        self.ask("Emulation.setScriptExecutionDisabled", value=not run)

    def online(self, is_online):
        self.ask("Network.emulateNetworkConditions", offline=not is_online, latency=0, downloadThroughput=-1, uploadThroughput=-1)

    def looks(self, width=1280, height=900, dark=False, phone=False):
        """How large the window is, and whether the person's system asks for dark colours."""
        self.ask("Emulation.setDeviceMetricsOverride", width=width, height=height, deviceScaleFactor=1, mobile=phone)
        self.ask("Emulation.setEmulatedMedia", features=[{"name": "prefers-color-scheme", "value": "dark" if dark else "light"}])

    # ---- what a person sees

    def address(self):
        frame = self.ask("Page.getFrameTree")["frameTree"]["frame"]
        return frame["url"] + frame.get("urlFragment", "")

    def path(self):
        return re.sub(r"^\w+://[^/]*", "", self.address())

    def nodes(self, selector, frame=None):
        """The nodes of a selector, in the document or in that of a frame, which has a selector too. An earlier call's are forgotten."""
        root = self.ask("DOM.getDocument", depth=0)["root"]["nodeId"]
        if frame:
            found = self.ask("DOM.querySelector", nodeId=root, selector=frame)["nodeId"]
            inner = self.ask("DOM.describeNode", nodeId=found, depth=1, pierce=True)["node"]["contentDocument"]["backendNodeId"]
            root = self.ask("DOM.pushNodesByBackendIdsToFrontend", backendNodeIds=[inner])["nodeIds"][0]
        return self.ask("DOM.querySelectorAll", nodeId=root, selector=selector)["nodeIds"]

    def node(self, selector, text=None):
        """The first node of a selector, with this text where one is given."""
        for node in self.nodes(selector):
            if text is None or self.text_of(node) == text:
                return node
        raise Failed(f"{self.path()}: no {selector} {text or ''}")

    def node_at(self, x, y):
        """The node that a click at a place would meet, of the document whose nodes were asked for last."""
        return self.ask("DOM.getNodeForLocation", x=x, y=y)["nodeId"]

    def source_of_frame(self, selector):
        """The source of a frame's document, of whatever site it is."""
        root = self.ask("DOM.getDocument", depth=0)["root"]["nodeId"]
        node = self.ask("DOM.querySelector", nodeId=root, selector=selector)["nodeId"]
        frame = self.ask("DOM.describeNode", nodeId=node, depth=1, pierce=True)["node"]
        if "contentDocument" in frame:
            return self.ask("DOM.getOuterHTML", backendNodeId=frame["contentDocument"]["backendNodeId"])["outerHTML"]
        # a frame of another site is a target of its own
        session = self.browser.ask("Target.attachToTarget", targetId=frame["frameId"], flatten=True)["sessionId"]
        root = self.browser.ask("DOM.getDocument", session, depth=0)["root"]["nodeId"]
        return self.browser.ask("DOM.getOuterHTML", session, nodeId=root)["outerHTML"]

    def html_of(self, node):
        return self.ask("DOM.getOuterHTML", nodeId=node)["outerHTML"]

    def text_of(self, node):
        return " ".join(html.unescape(re.sub(r"<[^>]*>", "", self.html_of(node))).split())

    def texts(self, selector, frame=None):
        return [self.text_of(node) for node in self.nodes(selector, frame)]

    def value(self, selector):
        """What stands in a field that is shown, as the accessibility tree has it."""
        tree = self.ask("Accessibility.getPartialAXTree", nodeId=self.node(selector), fetchRelatives=False)
        return tree["nodes"][0].get("value", {}).get("value", "")

    def until(self, holds, seconds=10):
        """Whether something comes to hold within so many seconds."""
        end = time.monotonic() + seconds
        while not holds():
            if time.monotonic() > end:
                return False
            self.browser.hears(lambda: False, 0.02)
        return True

    def title(self):
        return "".join(self.texts("head > title"))

    def source(self):
        return self.html_of(self.node("html"))

    def attributes(self, selector):
        """Of each node of a selector its attributes."""
        found = [self.ask("DOM.getAttributes", nodeId=node)["attributes"] for node in self.nodes(selector)]
        return [dict(zip(each[::2], each[1::2])) for each in found]

    def style(self, node):
        return {each["name"]: each["value"] for each in self.ask("CSS.getComputedStyleForNode", nodeId=node)["computedStyle"]}

    def roles(self):
        """The accessibility tree: of each node that isn't passed over its role, its name, and its level."""
        found = []
        for node in self.ask("Accessibility.getFullAXTree")["nodes"]:
            if not node.get("ignored"):
                level = [each["value"]["value"] for each in node.get("properties", []) if each["name"] == "level"]
                found.append((node["role"]["value"], node.get("name", {}).get("value", ""), level[0] if level else None))
        return found

    def width(self):
        """How wide the document is: more than the window where it can be moved sideways."""
        return self.ask("Page.getLayoutMetrics")["cssContentSize"]["width"]

    def picture(self, name, whole=False):
        """What the window shows as a file, or all of the document."""
        with open(name, "wb") as out:
            out.write(base64.b64decode(self.ask("Page.captureScreenshot", format="png", captureBeyondViewport=whole, **(
                {"clip": {**self.ask("Page.getLayoutMetrics")["cssContentSize"], "scale": 1}} if whole else {}))["data"]))
