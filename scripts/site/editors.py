"""What the scripts share that edit pages: a program that edits without a browser, a tab of an owner's at the form of a page, and what the
log of the server tells of what was sent."""
import hashlib, re, time, urllib.parse
from scene import Client

BOTH = "public,staff"
LOGGED = re.compile(r"\d+ ([A-Z]{1,16}|-) (/[!-~]*|-) (\d{3}) \d+ \d+\n")


def quoted(path):
    return "/".join(urllib.parse.quote(name, safe="") for name in path.split("/"))


def field(head, name):
    found = re.findall(rb"(?im)^" + name.encode() + rb": ([^\r\n]*)", head)
    return found[0].decode() if len(found) == 1 else found


class Program:
    """An owner's program, which edits without a browser, and sees what stands."""

    def __init__(self, check, port, token):
        self.check, self.port, self.token = check, port, token

    def ask(self, target, method="GET", body=b"", fields=""):
        client = Client(self.port, self.token, timeout=60)
        reply = client.ask(target, method, body, fields)
        client.close()
        return reply

    def edits(self, target, method="PUT", text=""):
        code = self.ask(target, method, text.encode())[0]
        self.check(f"the program's {method} {target}", code in (201, 204), code)

    def puts(self, path, text, groups=BOTH):
        self.edits(f"/source/{quoted(path)}?groups={groups}", text=text)

    def moves(self, path, to):
        self.edits(f"/move/{quoted(path)}?to={urllib.parse.quote(to)}")

    def removes(self, path):
        self.edits("/source/" + quoted(path), "DELETE")

    def source(self, path):
        """A page as it stands: code, groups, tag, text."""
        code, head, body = self.ask("/source/" + quoted(path))
        return code, field(head, "Docs-Groups"), field(head, "ETag"), body

    def stands(self, name, path, text, groups=BOTH):
        """This text stands there for these groups, and the tag is of both."""
        wanted = 200, groups, tag_of(text, groups), text.encode()
        found = self.source(path)
        self.check(f"{name}: what stands at {path}", found == wanted, str(found)[:300])

    def absent(self, name, path, code=404):
        found = self.source(path)[0]
        self.check(f"{name}: nothing at {path}", found == code, found)

    def all(self):
        """All pages that stand, by their paths."""
        paths = re.findall(r'<li><a href="/page/([^"]*)">', self.ask("/contents")[2].decode())
        return {path: self.source(urllib.parse.unquote(path)) for path in paths}


def tag_of(text, groups):
    """The tag of a page: the SHA-256 of its groups, a line end, and its text."""
    return '"' + hashlib.sha256(f"{groups}\n{text}".encode()).hexdigest() + '"'


class Tab:
    """A tab of an owner's, at the form of a page."""

    def __init__(self, look, window, path):
        self.look, self.window, self.path = look, window, path
        window.ask("Page.bringToFront")
        window.go(f"{look.base}/edit/{quoted(path)}")

    def has(self, name, text, groups=BOTH):
        """What stands in the fields."""
        found = self.window.value("#text"), self.window.value("#groups")
        self.look.check(f"{name}: what stands in the form", found == (text, groups), str(found)[:300])

    def writes(self, text, groups=None):
        self.window.ask("Page.bringToFront")
        self.window.write(self.window.node("#text"), text)
        if groups is not None:
            self.window.write(self.window.node("#groups"), groups)

    def adds(self, text):
        """Types at the end of the text."""
        self.window.ask("Page.bringToFront")
        self.window.ask("DOM.focus", nodeId=self.window.node("#text"))
        self.window.press("End")
        self.window.keys(text)

    def said(self):
        return " ".join(self.window.texts("#said"))

    def presses(self, label):
        """Presses a button, and waits until the script says what came of it."""
        self.window.ask("Page.bringToFront")
        self.window.click(self.window.node("main button", label), quiet=True, seconds=0)
        self.window.until(lambda: self.said() != "...", 30)

    def leaves_by(self, label):
        """Presses a button that leads to another page."""
        self.window.ask("Page.bringToFront")
        self.window.click(self.window.node("main button", label))

    def says(self, name, words, button=None):
        """What is said, once this button is pressed."""
        if button:
            self.presses(button)
        self.look.check(f"{name}: it says", self.said() == words, self.said())

    def shows(self, name, text, groups=BOTH):
        """Beside the form stands what the server has."""
        found = self.window.value("#theirs"), " ".join(self.window.texts("#their-groups"))
        self.look.check(f"{name}: it is shown", self.is_shown("#other"), self.window.attributes("#other"))
        self.look.check(f"{name}: what is shown", found == (text, groups), str(found)[:300])

    def is_shown(self, selector):
        return "hidden" not in self.window.attributes(selector)[0]

    def close(self):
        self.window.ask("Page.navigate", url="about:blank")
        self.window.browser.ask("Target.closeTarget", targetId=self.window.target)


def beside(look, window):
    """Another tab of the same person's."""
    other = look.browser.window(beside=window)
    other.looks()
    return other


class Log:
    """What a server with `--log` has answered."""

    def __init__(self, check, server):
        self.check, self.server = check, server

    def mark(self):
        """How long it is, once it grows no more."""
        lengths = [-1, len(self.server.said())]
        while lengths[-2] != lengths[-1]:
            time.sleep(0.2)
            lengths.append(len(self.server.said()))
        return lengths[-1]

    def since(self, mark):
        """Of each request that was answered since then: method, path, code."""
        lines = self.server.said()[mark:self.mark()].splitlines(keepends=True)
        found = [LOGGED.fullmatch(line) for line in lines]
        self.check("the log", all(found), [line for line, match in zip(lines, found) if not match][:3])
        return [match.groups() for match in found if match]
