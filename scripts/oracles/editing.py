"""Editing over HTTP, as whole bytes: an outside expectation for the routes by which owners edit, for conditions and tags, and for the page
that a text is edited on. The model is edited.py.

    python3 scripts/oracles/editing.py                      writes its lines into stdin and stdout of crates/trial_site
    python3 scripts/oracles/editing.py PROGRAM N            asks a built trial_site on N random sites, and says where it answers otherwise
    python3 scripts/oracles/editing.py faults N             makes one fault after the other in the model, and says on how many of N random
                                                            sites it answers otherwise then. Fails where it never does
    python3 scripts/oracles/editing.py listen PROGRAM N     asks `docs_server listen` over TCP on N random sites, and compares its replies
                                                            and its journal
"""

import os
import re
import select
import socket
import subprocess
import sys
import tempfile
from urllib.parse import quote

import journals
from edited import FAULTS, Edited, Request
from listings import encoded, encoded_path
from people import Random, compared, folder_of, line_of, world
from replies import written
from trial_lines import given, write

HTML = ("Accept", "text/html")
MARKDOWN = ("Content-Type", "text/markdown")
BAD_TAGS = ["abc", 'w/"x"', "*, *", "* ,", '"a" "b"', "W/", '"a', '"a b"', '"a";q=1', "'a'", '"a"b']
BAD_PATHS = ["a//b", ".", "../a.md", "a%2Fb", "%ff.md", "a%00b", "a%5Cb", "a%3Fb", "x" * 201, "/".join("a" * 17), "a/./b", "%C2%85"]
MANY = ",".join(f"g{n}" for n in range(33))
BAD_GROUPS = ["A", "a,,b", ",", "a, b", "a" * 33, "ä", MANY, MANY + ",B"]
GROUPS = ["", "staff", "ops,staff", "staff,ops", "staff,ops,staff", "public", "public,ops,a-1", MANY[3:], ",".join(["staff"] * 40)]
TYPES = [["text/markdown"]] * 8 + [["Text/Markdown; charset=utf-8"], ["text/markdown ;x"], ["text/plain"], [], ["text/markdown"] * 2,
                                   ["text/markdownx"], ["text/markdown, text/markdown"], [""]]
ACCEPTS = [[], [], [HTML], [("Accept", "*/*")], [("accept", "text/plain, Text/HTML ;q=0.1")], [("Accept", "text/htmlx")]]


class Sites(Random):
    """A random site, and what is asked of it."""

    NAMES = ["a.md", "b.md", "index.md", "plum fig.md", "ä.md", "a'b.md", "c&d.md"]
    FOLDERS = ["", "", "g/", "g h/"]

    def __init__(self, seed, events=True):
        super().__init__(seed, 7)
        self.settings = {**self.site.settings, "editing": seed % 8 != 7}
        self.site, self.has_events, self.told = Edited(**self.settings), events, []

    # conditions

    def space(self):
        return self.dice.pick(["", " ", "\t", "  "])

    def some_tag(self, path):
        """A tag of this page, or of another one, or of one before, or of none."""
        tags = [self.site.tag(page) for page in self.site.pages.values()] + self.told[-8:] + ['"x"', '""', '"a,b"', '"\xe4\xff"']
        tag = self.site.tag(self.site.pages[path]) if path in self.site.pages and self.dice.chance(60) else self.dice.pick(tags)
        return ("W/" if self.dice.chance(15) else "") + tag

    def condition(self, path):
        kind = self.dice.below(20)
        if kind < 3:
            return "*"
        if kind < 5:
            return self.dice.pick(BAD_TAGS)
        if kind < 6:
            return self.dice.pick(["", ",", ", ,"])
        commas = [self.space() + "," + self.space() + self.dice.pick(["", "", ",", ", ,"]) for _ in range(self.dice.pick([0, 0, 0, 1, 2]))]
        tags = [self.some_tag(path)] + [comma + self.some_tag(path) for comma in commas]
        return self.dice.pick(["", "", ", "]) + "".join(tags) + self.dice.pick(["", "", " ,"])

    def conditions(self, path):
        return [(self.dice.pick([name, name, name.lower(), name.upper()]), self.condition(path))
                for name, chance in (("If-Match", 40), ("If-None-Match", 20)) if self.dice.chance(chance)
                for _ in range(1 if self.dice.chance(88) else 2)]

    # what a request is made of

    def place(self):
        """A path, and how a target writes it."""
        if self.dice.chance(5):
            return None, self.dice.pick(BAD_PATHS)
        stand = sorted(self.site.pages)
        path = self.dice.pick(stand) if stand and self.dice.chance(60) else self.dice.pick(self.paths + ["none.md", "g/none.md", "old.md"])
        rest = encoded_path(path)
        return path, rest[:-len("index.md")] if path.endswith("/index.md") and self.dice.chance(50) else rest

    def body(self, path):
        if self.dice.chance(6):
            return self.dice.pick([b"\xff", b"ok \xc3", b"\xed\xa0\x80"])
        text, kind = self.text(path or "a.md"), self.dice.below(12)
        return (text.replace("\n", "\r\n") if kind == 0 else "\n" + text if kind == 1 else "" if kind == 2 else text).encode()

    def groups(self):
        groups = quote(self.dice.pick(GROUPS + GROUPS + GROUPS + BAD_GROUPS), safe=self.dice.pick(["", ","]))
        odd = [f"?x=1&groups={groups}&groups=ops", f"?gr%6Fups={groups}", "?groups", "?Groups=ops", ""]
        return self.dice.pick([f"?groups={groups}"] * 9 + odd)

    def goal(self):
        to = self.dice.pick(self.paths + self.paths + ["new.md", "g/new.md", "new", "ö ö", "..", "a//b", "", "g/", "a\tb", "x" * 201])
        return self.dice.pick([f"?to={encoded(to)}"] * 7 + [f"?to={quote(to)}", f"?to={encoded(to)}&to=z.md", "?to", ""])

    # requests

    def one(self):
        """A request of a route of editing, or of PUT and DELETE of a page."""
        dice, (path, rest) = self.dice, self.place()
        kind, token = dice.below(100), dice.pick(["o"] * 12 + ["a", "b", None, "x"])
        if kind < 16:
            return Request(token, dice.pick(["GET", "GET", "HEAD"]), f"/source/{rest}", *self.conditions(path), *dice.pick(ACCEPTS))
        if kind < 36:
            groups = self.groups() if dice.chance(50) else ""
            return Request(token, "PUT", f"/source/{rest}{groups}", *self.conditions(path), body=self.body(path))
        if kind < 46:
            return Request(token, "PUT", f"/groups/{rest}{self.groups()}", *self.conditions(path), body=dice.pick([b"", b"\xff"]))
        if kind < 58:
            return Request(token, "PUT", f"/move/{rest}{self.goal()}", *self.conditions(path), body=dice.pick([b"", b"\xff"]))
        if kind < 62:
            return Request(token, "DELETE", f"/{dice.pick(['source', 'page'])}/{rest}", *self.conditions(path))
        if kind < 72:
            return Request(token, "PUT", f"/page/{rest}{self.groups()}", *self.conditions(path), body=self.body(path))
        if kind < 82:
            folder = dice.pick(["", "g/", "g%20h/", encoded_path(folder_of(path or "")), "a//", "%ff/", "../", "a%2Fb/", "/"])
            return Request(token, dice.pick(["GET", "GET", "HEAD"]), "/edit/" + (folder if dice.chance(35) else rest), *dice.pick(ACCEPTS))
        if kind < 92:
            return Request(token, "POST", f"/preview/{rest}", *[("Content-Type", it) for it in dice.pick(TYPES)], body=self.body(path))
        return self.odd(token, path, rest)

    def odd(self, token, path, rest):
        """Some method of some target."""
        method = self.dice.pick(["GET", "HEAD", "PUT", "POST", "DELETE", "PATCH", "OPTIONS"])
        name = self.dice.pick(["source", "groups", "move", "edit", "preview", "Source", "edits"])
        target = self.dice.pick([f"/{name}/{rest}", f"/{name}/{rest}", f"HTTP://other/{name}/{rest}", f"/{name}/", f"/{name}"])
        return Request(token, method, target, *self.dice.pick(ACCEPTS), *self.conditions(path), body=b"x" if method == "PUT" else b"")

    def look(self):
        """A request that shows pages, to people or to programs."""
        token, method, target = self.request()
        peoples = target == "/" or target.startswith(("/contents/", "/sign-in", "/nothing")) or self.dice.chance(50)
        return Request(token, method, target, *([HTML] if peoples else []))

    def call(self):
        kind, path = self.dice.below(100), self.dice.pick(self.paths)
        if kind < 10 and self.has_events:
            groups = ",".join(sorted(self.dice.some(["staff", "ops", "public"])))
            to = self.dice.pick(self.paths + ["old.md"])
            return self.dice.pick([("put", path, groups, self.text(path)), ("move", path, to), ("remove", path)])
        return self.look() if kind < 30 else self.one()

    def calls(self, count=110):
        """Events and requests, each with what is answered."""
        for number in range(count):
            it = ("connect",) if number == 0 and self.has_events else self.call()
            answer = answer_of(self.site, it)
            if isinstance(it, Request):
                self.told += re.findall('ETag: (".*?")', answer.decode())
            yield it, answer


def answer_of(site, it):
    return site.ask(it) if isinstance(it, Request) else site.happen(it)


# ---- lines


def text_of_bytes(data):
    """Bytes, as a call is given them."""
    text = re.sub("[\udc80-\udcff]", lambda it: f"\\x{ord(it[0]) - 0xdc00:02x}", data.decode("utf-8", "surrogateescape"))
    return given(text.replace("\r", "\x00")).replace("\\u{0}", "\\r")


def line_for(it, answer):
    """The line of an event or a request, and what is printed for it."""
    if isinstance(it, Request):
        return "ask 1 " + text_of_bytes(it.bytes()), "sent " + written(answer)
    return f"{it[0]} {line_of(*it[1:])}".rstrip(" "), answer


class Told:
    """A site that is told of in lines."""

    def __init__(self, title, *events, **settings):
        self.site = Edited(**settings)
        self.lines = [world(settings), f"# {title}"]
        for event in (("connect",), *events):
            self.call(event)

    def note(self, text):
        self.lines.append(f"# {text}")

    def call(self, it):
        self.lines.append(line_for(it, answer_of(self.site, it)))

    def ask(self, token, method, target, *fields, body=b""):
        self.call(Request(token, method, target, *fields, body=body))

    def tag(self, path):
        return self.site.tag(self.site.pages[path])

    def chain(self, title, method, route, refusals, **fine):
        """Requests of a route: each has what one refusal is for, and all that the refusals behind it are for; the last one is fine. What a
        refusal is for is another token, path, query or body than in the fine request, or a field."""
        self.note(title)
        fine = {"token": "o", "path": "a.md", "query": "", "body": b"", "fields": {}, **fine}
        for number in range(len(refusals) + 1):
            now = dict(fine)
            for it in reversed(refusals[number:]):
                now |= {**it, "fields": now["fields"] | it.get("fields", {})}
            self.ask(now["token"], method, f"/{route}/{now['path']}{now['query']}", *now["fields"].items(), body=now["body"])


def field(name, value):
    return {"fields": {name: value}}


NOBODY, GUEST, READER = {"token": "x"}, {"token": None}, {"token": "a"}
NO_PATH, NO_PAGE, NO_GROUPS, NO_TEXT = {"path": "a//b"}, {"path": "zz.md"}, {"query": "?groups=A"}, {"body": b"\xff"}
CONDITIONS = [field("If-Match", "abc"), field("If-None-Match", "*, *"), field("If-Match", '"x"'), field("If-None-Match", "*")]
DEMO = [("put", "a.md", "staff", "# Kiwi\n\nkiwi [b](b.md)\n"), ("put", "b.md", "public", "plum\n"), ("put", "g/c.md", "ops", "fig\n"),
        ("move", "g/c.md", "g/d.md")]


def shown():
    """A site with guests and logins, and one where editing is off."""
    told = Told("A site that is edited over HTTP: the order of refusals. Each request of a group has all that those behind it are refused for.",
                *DEMO, guest={"public"}, login=True)
    show_order(told)
    show_conditions(told)
    show_forms(told)
    off = Told("Where editing is off there are no such routes, no condition counts, no refusal says why, and owners are shown no tools.",
               *DEMO, editing=False)
    for asked in ("GET /source/a.md", "PUT /groups/a.md?groups=ops", "PUT /move/a.md?to=z.md", "POST /preview/a.md"):
        off.ask("o", *asked.split(" "), MARKDOWN)
    off.ask("o", "GET", "/edit/a.md", HTML)
    off.ask("o", "PUT", "/page/a.md?groups=A", ("If-Match", "abc"))
    off.ask("o", "PUT", "/page/a.md?groups=ops", ("If-Match", '"x"'), body="Anew\n")
    off.ask("o", "DELETE", "/page/b.md", ("If-None-Match", "*"))
    off.ask("o", "GET", "/page/a.md", HTML)
    off.ask("o", "GET", "/page/b.md", HTML)
    return told.lines + off.lines


def show_order(told):
    told.note("Nobody, no route, no method, no owner; a guest hasn't signed in.")
    told.ask("x", "PATCH", "/source/")
    told.ask(None, "PATCH", "/source/")
    told.ask("o", "PATCH", "/Source/a.md", HTML)
    for route in ("source", "groups", "move", "edit", "preview"):
        told.ask("a", "PATCH", f"/{route}/a//b?groups=A", ("If-Match", "abc"), body=b"\xff")
    told.ask(None, "POST", "/move/a.md?to=z.md")
    told.ask("a", "GET", "/groups/a.md", HTML)
    told.ask("a", "GET", "/source/a.md", HTML)
    told.ask(None, "GET", "/source/zz.md", HTML)
    told.chain("PUT of a source.", "PUT", "source", [NOBODY, GUEST, READER, NO_PATH, NO_GROUPS, *CONDITIONS, NO_TEXT],
               body="# Kiwi\n\nAnew.\n")
    told.chain("PUT of a page.", "PUT", "page", [READER, NO_PATH, NO_GROUPS, *CONDITIONS, NO_TEXT], query="?groups=staff",
               body="Once more.\n")
    told.chain("Its groups.", "PUT", "groups", [READER, {"query": ""}, NO_GROUPS, NO_PAGE, *CONDITIONS], query="?groups=staff,ops,staff",
               body=b"\xff")
    told.ask("o", "PUT", f"/groups/a.md?groups={MANY}")
    told.ask("o", "PUT", f"/source/a.md?groups={MANY},B", body="x")
    told.chain("A move.", "PUT", "move", [READER, {"query": "?x=to"}, {"query": "?to=g/"}, NO_PAGE, *CONDITIONS, {"query": "?to=a.md"}],
               query="?to=%C3%BC%20b%2Fa.md", body=b"\xff")
    told.ask("o", "PUT", "/move/%C3%BC%20b/a.md?to=b.md")
    told.ask("o", "PUT", "/move/%C3%BC%20b/a.md?to=a.md")
    told.chain("GET of a source.", "GET", "source", [GUEST, READER, NO_PATH, {"path": "g/c.md"}, *CONDITIONS])
    told.chain("HEAD of a source.", "HEAD", "source", [NO_PAGE, *CONDITIONS[2:]])
    told.chain("DELETE of a source: an alias is no page.", "DELETE", "source", [READER, NO_PATH, {"path": "g/c.md"}, *CONDITIONS],
               path="g/d.md")
    told.chain("DELETE of a page.", "DELETE", "page", [READER, NO_PAGE, *CONDITIONS], path="b.md")
    told.chain("A preview.", "POST", "preview", [GUEST, READER, NO_PATH, field("Content-Type", "text/plain"), NO_TEXT], path="g/new.md",
               fields=dict([MARKDOWN]), body="[a](../a.md) [new](new.md)\n\n## Don't\n")


def show_conditions(told):
    told.note("Conditions that hold, of each route, in several fields and with more commas than are needed.")
    tag = told.tag("a.md")
    told.ask("o", "PUT", "/source/a.md", ("If-Match", ',"x" ,'), ("IF-MATCH", f"W/{tag}, {tag}"), ("If-None-Match", '"x"'), body="One.\n")
    told.ask("o", "PUT", "/page/a.md", ("If-Match", "*"), ("If-None-Match", ""), body="Two.\n")
    told.ask("o", "PUT", "/groups/a.md?groups=staff", ("If-Match", told.tag("a.md")))
    told.ask("o", "PUT", "/move/a.md?to=e/a.md", ("If-Match", told.tag("a.md")))
    told.ask("o", "GET", "/source/e/a.md", ("If-None-Match", f'"x",W/{told.tag("e/a.md")}'))
    told.ask("o", "HEAD", "/source/e/a.md", ("If-None-Match", "*"))
    told.ask("o", "PUT", "/source/e/a.md", ("If-None-Match", told.tag("e/a.md")), body="x")
    told.ask("o", "PUT", "/source/a.md?groups=", ("If-None-Match", "*"), body="A page of its own.\n")
    told.ask("o", "PUT", "/source/none.md", ("If-Match", tag), body="x")
    told.ask("o", "PUT", "/page/a.md?groups=ops", ("If-Match", ""), body="x")
    told.ask("o", "DELETE", "/page/e/a.md", ("If-Match", told.tag("e/a.md")), ("If-None-Match", told.tag("a.md")))
    told.note("An edit that comes too late is refused; who reads again may write.")
    read = told.tag("a.md")
    told.ask("o", "PUT", "/source/a.md", ("If-Match", read), body="The first.\n")
    told.ask("o", "PUT", "/source/a.md", ("If-Match", read), body="The second.\n")
    told.ask("o", "PUT", "/move/a.md?to=z.md", ("If-Match", read))
    told.ask("o", "DELETE", "/source/a.md", ("If-Match", read))
    told.ask("o", "GET", "/source/a.md", ("If-None-Match", read))
    told.ask("o", "PUT", "/source/a.md", ("If-Match", told.tag("a.md")), body="The first and the second.\n")
    told.note("Nor is a change of groups lost.")
    read = told.tag("a.md")
    told.ask("o", "PUT", "/groups/a.md?groups=staff", ("If-Match", read))
    told.ask("o", "PUT", "/source/a.md?groups=ops", ("If-Match", read), body="The first and the second.\n")
    told.ask("a", "GET", "/page/a.md", HTML)


def show_forms(told):
    told.note("The page that a text is edited on: one that begins with a line's end, and one at a path that has to be escaped.")
    told.ask("o", "PUT", "/source/h.md?groups=staff,ops", body="\n</textarea><script>alert(1)</script> & \"\n")
    told.ask("o", "GET", "/edit/h.md", HTML)
    told.ask("o", "GET", "/edit/g/%22%3E%3Cscript%3E%20%26'.md")
    told.note("One that asks for a path, in a folder.")
    told.ask("o", "GET", "/edit/g%20%22h%22/", HTML)
    told.ask("o", "HEAD", "/edit/")
    told.note("An alias, no path, no owner, and a guest; to people and to programs.")
    told.ask("o", "PUT", "/move/h.md?to=i%20j.md")
    for fields in ([HTML], []):
        told.ask("o", "GET", "/edit/h.md?x", *fields)
        told.ask("o", "GET", "/edit/a//b", *fields)
        told.ask("o", "GET", "/edit/..//", *fields)
        told.ask("a", "GET", "/edit/zz.md", *fields)
        told.ask(None, "GET", "/edit/", *fields)
        told.ask("x", "HEAD", "/edit/", *fields)


def tell_faults(count):
    """For each fault, on how many random sites it shows."""
    found = dict.fromkeys(FAULTS, 0)
    for seed in range(count):
        calls = list((sites := Sites(seed)).calls())
        for fault in FAULTS:
            other = fault(**sites.settings)
            found[fault] += any(answer_of(other, it) != answer for it, answer in calls)
    for fault, seen in found.items():
        print(f"{fault.__name__}: {seen} of {count} sites")
    sys.exit(0 if all(found.values()) else 1)


class Listening:
    """`docs_server listen` over a configuration in a folder, with a journal."""

    def __init__(self, program, settings, place):
        self.program, self.config, self.journal = program, os.path.join(place, "site.toml"), os.path.join(place, "journal")
        with open(self.config, "w", encoding="utf-8") as out:
            out.write(world(settings)[0].split(" ", 3)[3].replace("\\n", "\n"))
        self.begin()

    def begin(self):
        with socket.socket() as probe:
            probe.bind(("127.0.0.1", 0))
            address = probe.getsockname()
        words = [self.program, "listen", self.config, f"127.0.0.1:{address[1]}", "--journal", self.journal]
        self.process = subprocess.Popen(words, stdin=subprocess.PIPE, stdout=subprocess.PIPE)
        assert self.process.stdout.readline().startswith(b"listening "), words
        self.peer = socket.create_connection(address, timeout=20)

    def ask(self, request, length):
        """As many bytes as the reply has to have, and what more comes with them."""
        self.peer.sendall(request.bytes())
        out = b""
        while len(out) < length and select.select([self.peer], [], [], 5)[0]:
            more = self.peer.recv(1 << 20)
            if not more:
                break
            out += more
        return out

    def end(self):
        """The texts of the journal's records."""
        self.peer.close()
        self.process.stdin.close()
        assert self.process.wait(timeout=20) == 0
        self.process.stdout.close()
        with open(self.journal, "rb") as file:
            return [text.decode() for text in journals.read(file.read())[0]]

    def compact(self):
        subprocess.run([self.program, "compact", self.config, "--journal", self.journal], check=True)


def tell_listening(program, count):
    """Asks servers, compares their journals, and the sources that they have after a restart and after a compaction."""
    told = replies = records = 0
    for seed in range(count):
        sites = Sites(seed, events=False)
        with tempfile.TemporaryDirectory() as place:
            server = Listening(program, sites.settings, place)

            def ask(request, answer):
                if (found := server.ask(request, len(answer))) != answer:
                    sys.exit(f"site {seed}: {request.bytes()}\n  wanted {answer}\n  found  {found}")

            for it in sites.calls():
                ask(*it)
                replies += 1
            texts = server.end()
            if texts != sites.site.journal:
                sys.exit(f"site {seed}: the journal\n  wanted {sites.site.journal}\n  found  {texts}")
            records += len(texts)
            for way in (lambda: None, server.compact):
                way()
                server.begin()
                for path in sorted(sites.site.pages):
                    request = Request("o", "GET", "/source/" + encoded_path(path))
                    ask(request, sites.site.ask(request))
                    told += 1
                server.end()
    print(f"{count} sites, {replies} replies, {records} records, {told} sources told again: as expected")


def main():
    words = sys.argv[1:]
    if not words:
        write("editing.py", shown(), "trial_site")
    elif words[0] == "faults":
        tell_faults(int(words[1]))
    elif words[0] == "listen":
        tell_listening(words[1], int(words[2]))
    else:
        for seed in range(int(words[1])):
            other = compared(words[0], [world((sites := Sites(seed)).settings), *(line_for(*it) for it in sites.calls())])
            if other:
                sys.exit("\n  ".join([f"site {seed}:", *other]))
        print(f"{words[1]} sites: as expected")


if __name__ == "__main__":
    main()
