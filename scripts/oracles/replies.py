"""What a hub answers, as whole bytes: an outside expectation for `doc_hub`, `doc_hub_replies` and `doc_shelf`, over pages with links and
headings.

The model keeps a map of pages, and makes each reply anew of the pages that its reader sees: lists by listings.py, pages of paragraphs
and ATX headings with inline links (CommonMark 0.31.2, sections 4.2, 4.8 and 6.3), by the rules of docs/SITE.md and docs/HTTP.md. It
knows no index, no cache and no want of memory.

    python3 scripts/oracles/replies.py

writes its lines into stdin and stdout of crates/trial_site. Each history of events is told twice, call by call and as one run. Then come
edits and a step of each route, of which scripts/site/refusals/trial_site.lines refuses the growths.
"""

import re
import unicodedata
from urllib.parse import parse_qsl, unquote_to_bytes

from listings import Cut, classify, encoded, encoded_path, escaped, is_path
from trial_lines import write
from words import words_of

READERS = {"o": None, "a": {"staff"}, "b": {"ops"}}
REASONS = {200: "OK", 201: "Created", 204: "No Content", 301: "Moved Permanently", 400: "Bad Request", 401: "Unauthorized",
           403: "Forbidden", 404: "Not Found", 405: "Method Not Allowed"}


def anchor_of(text, used):
    kept = "".join(c if unicodedata.category(c)[0] in "LMN" or c in "-_" else "-" if c == " " else "" for c in text.casefold())
    first, number = kept or "section", 0
    while (anchor := f"{first}-{number}" if number else first) in used:
        number += 1
    return anchor


class Page:
    """A page of paragraphs of one line and ATX headings, with an empty line between two."""

    def __init__(self, groups, text):
        self.groups, self.aliases = groups, set()
        self.texts, self.headings, self.links, self.pieces, self.anchors = [], [], [], [], set()
        for block in text.strip("\n").split("\n\n"):
            level, words = re.fullmatch(r"(#{0,6}) ?(.*)", block).groups()
            parts = re.split(r"\[([^]]*)\]\(([^)]*)\)", words)
            plain = "".join(part for place, part in enumerate(parts) if place % 3 < 2)
            tag, opening = f"h{len(level)}" if level else "p", "p"
            if level:
                anchor = anchor_of(plain, [heading[1] for heading in self.headings])
                self.headings.append((len(level), anchor, plain))
                self.anchors.add(anchor)
                opening = f'{tag} id="{escaped(anchor)}"'
            if block:
                self.texts.append(plain)
                self.links += parts[2::3]
                self.pieces.append((f"<{opening}>", parts, f"</{tag}>\n"))

    def body(self, path, cut):
        titles = [text for _, _, text in self.headings if text]
        out = f"<!DOCTYPE html>\n<title>{escaped((titles or [path])[0])}</title>\n"
        for opening, parts, closing in self.pieces:
            out += opening + escaped(parts[0])
            for text, dest, behind in zip(parts[1::3], parts[2::3], parts[3::3]):
                out += f"<a {shown(path, dest, cut)}>{escaped(text)}</a>{escaped(behind)}"
            out += closing
        return out


def shown(path, dest, cut):
    link = classify(path, dest)
    assert link[0] != "external"
    if link[0] != "page" or link[1] not in cut.goals:
        return 'class="missing"'
    return f'href="/page/{encoded_path(cut.goals[link[1]])}{"#" + encoded(link[2]) if link[2] else ""}"'


class Hub:
    def __init__(self):
        self.pages, self.readers, self.connections, self.unread = {}, dict(READERS), 0, {}

    def happen(self, event):
        """What is said of an event, which is a tuple of a name and what it is given."""
        name, *given = event
        return getattr(self, name)(*given)

    def connect(self):
        self.connections += 1
        return f"connection {self.connections}"

    def push(self, number, requests):
        self.unread.setdefault(number, []).extend(requests)
        return "pushed"

    def step(self, number):
        return "sent " + written(self.reply(*self.unread[number].pop(0)).encode())

    def put(self, path, groups, text):
        old = self.pages.get(path)
        for page in self.pages.values():
            page.aliases.discard(path)
        self.pages[path] = Page(set(groups.split(",")), text)
        self.pages[path].aliases = old.aliases if old else set()
        return "replaced" if old else "created"

    def remove(self, path):
        return "true" if self.pages.pop(path, None) else "false"

    def move(self, start, end):
        if start not in self.pages:
            return "refused: no page stands there"
        if end in self.pages:
            return "refused: a page stands there already"
        page = self.pages.pop(start)
        for other in (page, *self.pages.values()):
            other.aliases.discard(end)
        page.aliases.add(start)
        self.pages[end] = page
        return "moved"

    def reader(self, token, groups):
        known = token in self.readers
        self.readers[token] = None if groups == "owner" else set(groups.split(","))
        return "replaced" if known else "added"

    def unreader(self, token):
        return "true" if self.readers.pop(token, 0) != 0 else "false"

    def reply(self, token, method, target, body=""):
        code, html, content, field = self.answer(token, method, target, body)
        content = content if code == 200 else f"{code} {REASONS[code]}\n"
        out = f"HTTP/1.1 {code} {REASONS[code]}\r\n"
        if code != 204:
            out += f"Content-Type: text/{'html' if html else 'plain'}; charset=utf-8\r\nContent-Length: {len(content.encode())}\r\n"
        return out + field + "\r\n" + ("" if code == 204 or method == "HEAD" else content)

    def answer(self, token, method, target, body):
        """Status, whether the content is HTML, the content, and one more field."""
        def plain(code, field=""):
            return code, False, "", field

        if token not in self.readers:
            return plain(401, 'WWW-Authenticate: Bearer realm="docs"\r\n')
        route, _, query = target.partition("?")
        found = re.fullmatch(r"/(contents|search|broken)|/(page|backlinks)/(.+)", route)
        if not found:
            return plain(404)
        name, rest = found[1] or found[2], found[3]
        if method not in ("GET", "HEAD"):
            if name != "page" or method not in ("PUT", "DELETE"):
                return plain(405, f"Allow: GET, HEAD{', PUT, DELETE' if name == 'page' else ''}\r\n")
            if self.readers[token] is not None:
                return plain(403)
        cut, pairs = Cut(self.pages, self.readers[token]), parse_qsl(query, keep_blank_values=True)
        values = {key: value for key, value in reversed(pairs)}
        if name in ("contents", "broken"):
            return 200, name == "contents", cut.contents() if name == "contents" else cut.report(), ""
        if name == "search":
            words = words_of([values.get("q", "")])
            return (200, False, cut.search(values["q"]), "") if 0 < len(words) <= 16 else plain(400)
        path = "/".join(unquote_to_bytes(part).decode() for part in (rest + "index.md" * rest.endswith("/")).split("/"))
        if not is_path(path):
            return plain(400 if method == "PUT" else 404)
        if method == "PUT":
            return plain(204 if self.put(path, values.get("groups", ""), body) == "replaced" else 201)
        if method == "DELETE":
            return plain(204 if self.remove(path) == "true" else 404)
        if path in cut.pages:
            return (200, True, cut.pages[path].body(path, cut), "") if name == "page" else (200, False, cut.backlinks(path), "")
        if path in cut.goals:
            return plain(301, f"Location: /{name}/{encoded_path(cut.goals[path])}\r\n")
        return plain(404)


def written(data):
    """Bytes, as the trial writes them in answers."""
    def one(byte):
        plain = {10: "\\n", 13: "\\r", 9: "\\t", 92: "\\\\"}.get(byte)
        return plain or (chr(byte) if 32 <= byte < 127 and byte not in b"{}" else f"\\x{byte:02x}")

    runs = re.finditer(rb"(.)\1*", data, re.S)
    return "".join(f"{{{len(m[0])}*{one(m[0][0])}}}" if len(m[0]) >= 32 else one(m[0][0]) * len(m[0]) for m in runs)


def bytes_of(token, method, target, body=""):
    length = f"Content-Length: {len(body.encode())}\r\n" if body else ""
    return f"{method} {target} HTTP/1.1\r\nHost: h\r\nAuthorization: Bearer {token}\r\n{length}\r\n{body}"


def line_of(event):
    """An event, as a line or a part of a run has it."""
    name, *given = event
    if name == "push":
        text = f"{given[0]} " + "".join(bytes_of(*request) for request in given[1])
    else:
        text = " | ".join(str(it) for it in given)
    assert " ; " not in text
    text = f"{name} {text}" if text else name
    for plain, code in (("\\", "\\\\"), ("\n", "\\n"), ("\r", "\\r"), ("\t", "\\t")):
        text = text.replace(plain, code)
    return text


def world(capacity):
    rows = "".join(
        f'[[reader]]\\ntoken = "{token}"\\n' + ("owner = true" if groups is None else f'groups = ["{min(groups)}"]') + "\\n"
        for token, groups in READERS.items())
    return f"world keep {capacity} {rows}", "()"


def asked(number, *requests):
    """The events that push requests at once and answer each."""
    return [("push", number, requests), *[("step", number)] * len(requests)]


def all_routes(path, word):
    """A request of each route by each reader."""
    targets = [f"/page/{encoded_path(path)}", "/contents", f"/backlinks/{encoded_path(path)}", f"/search?q={word}", "/broken"]
    return [(token, "GET", target) for target in targets for token in READERS]


def several(name, hub, events):
    """One line of several events, and what it answers."""
    return f"{name} " + " ; ".join(line_of(event) for event in events), " | ".join(hub.happen(event) for event in events)


def told_twice(title, capacity, events):
    """The lines of a history, call by call and as one run."""
    hub = Hub()
    lines = [world(capacity), title] + [(line_of(event), hub.happen(event)) for event in events]
    return lines + [world(capacity), "# The same as one run.", several("run", Hub(), events)]


DEMO = [("connect",), ("put", "a.md", "staff", "Hello\n"), ("put", "b.md", "staff", "[c](c.md) [d](d.md)\n"),
        ("put", "c.md", "ops", "See [b](b.md), [b](b.md).\n")]


def get(*targets):
    """Steps of GET: each target is that of a token."""
    return [event for token, target in targets for event in asked(1, (token, "GET", target))]


def histories():
    same_page = get(("a", "/page/b.md"), ("o", "/page/b.md"), ("a", "/page/b.md"), ("b", "/page/b.md"))
    for capacity in (1, 4096):
        yield from told_twice(
            "# Readers of one page who decide otherwise, and alike; then its text changes.", capacity,
            DEMO + same_page + [("put", "b.md", "staff", "new")] + same_page)
    links = [("connect",), ("put", "t.md", "staff", "x"), ("put", "u.md", "staff", "[t](t.md) [t](t.md)"),
             ("put", "v.md", "ops", "[t](t.md#q)")]
    lists = [(token, target) for target in ("/backlinks/t.md", "/backlinks/v.md", "/broken", "/contents") for token in READERS]
    heads = [(token, "HEAD", target) for token, target in lists]
    yield from told_twice(
        "# Lists of pages with links, by readers who see more and less; then each page is put again.", 4,
        links + get(*lists) + asked(1, *heads) + links[1:] + get(*lists))
    best = [("connect",)] + [("put", f"s{n:03}.md", "staff" if n else "ops", "kiwi" if n else "kiwi kiwi") for n in range(101)]
    found = get(*[(token, "/search?q=KIWI") for token in READERS])
    yield world(4)
    yield "# A search of 101 pages as one run, and again after each was put again."
    yield several("run", Hub(), best + found + best[1:] + found)
    row_b = get(("o", "/page/b.md"))
    put = asked(1, ("o", "PUT", "/page/e/c.md", "x"), ("o", "DELETE", "/page/e/c.md"), ("o", "GET", "/page/e/c.md"))
    yield from told_twice(
        "# A page that moves: links to it show where it stands now, to those who see it; its lists and its own links go with it.", 4,
        DEMO + row_b + [("move", "c.md", "e/c.md")] + row_b
        + get(("a", "/page/b.md"), ("a", "/page/c.md"), ("a", "/page/e/c.md"), ("o", "/page/c.md"), ("o", "/page/e/c.md"))
        + get(("o", "/backlinks/c.md"), ("o", "/backlinks/e/c.md"), ("a", "/backlinks/c.md"), ("o", "/broken"), ("a", "/broken"))
        + [("move", "zz.md", "y.md"), ("move", "a.md", "b.md"), ("move", "a.md", "a.md"), ("move", "c.md", "y.md")]
        + get(("o", "/contents")) + [("move", "e/c.md", "c.md")] + get(("o", "/broken"), ("o", "/page/e/c.md"), ("o", "/page/b.md"))
        + put + [("move", "c.md", "f.md"), ("remove", "f.md")] + get(("o", "/page/c.md"), ("o", "/page/b.md"), ("o", "/contents")))
    row = ("a", "GET", "/page/a.md")
    yield from told_twice(
        "# Readers who change: the next request is answered by who its token is for now.", 4,
        DEMO + asked(1, row) + [("reader", "a", "ops")] + asked(1, row) + [("unreader", "a"), ("unreader", "a")] + asked(1, row)
        + [("reader", "a", "staff")] + asked(1, row))


SITE = [("connect",), ("connect",),
        ("put", "a.md", "staff", "# Kiwi\n\nkiwi [b](b.md) [c](c.md#plum) [d](d.md)"),
        ("put", "b.md", "ops,staff", "plum [a](a.md#kiwi) [old](old.md) [n](n.md#fig)"),
        ("put", "c.md", "ops", "# Plum\n\nkiwi kiwi [b](b.md)\n\n## Fig\n\nfig [a](a.md)"),
        ("put", "old.md", "staff", "fig [a](a.md) [n](n.md)"),
        ("move", "old.md", "g.md")]
NEW = "# Fig\n\nfig kiwi [a](a.md#none) [b](b.md) [b](/b.md)"
EDITS = [
    (("put", "n.md", "ops", NEW), "A put of a new path"),
    (("put", "n.md", "staff", "fig [c](c.md)"), "of an old one"),
    (("put", "old.md", "ops", NEW), "and of an alias"),
    (("o", "PUT", "/page/m/n.md?groups=staff", "kiwi [a](../a.md) [n](n.md)"), "A PUT of a new path"),
    (("o", "PUT", "/page/a.md?groups=ops", "# Plum\n\nkiwi [a](a.md)"), "of an old one"),
    (("move", "n.md", "a/n.md"), "A move"),
    (("o", "PUT", "/page/n.md?groups=ops,staff", "kiwi kiwi [b](b.md)"), "A PUT of an alias"),
    (("move", "m/n.md", "old/n.md"), "A move of a page whose own links lead elsewhere from there"),
    (("move", "old/n.md", "m/n.md"), "and one back, to its alias"),
    (("o", "DELETE", "/page/b.md"), "A DELETE"),
]
STEPS = [("a", method, target) for target in
         ("/page/a.md", "/page/old/n.md", "/page/c.md", "/contents", "/backlinks/a.md", "/backlinks/old/n.md", "/search?q=kiwi,fig",
          "/search", "/broken") for method in ("GET", "HEAD")] + [("o", "PATCH", "/contents"), ("x", "GET", "/broken")]


def edits():
    """Edits, and a step of each route."""
    hub = Hub()
    yield world(64)
    yield "# Edits over pages with links, and a step of each route."
    yield from ((line_of(event), hub.happen(event)) for event in SITE)
    for edit, title in EDITS:
        yield f"# {title}."
        events = [edit] if edit[0] != "o" else asked(2, edit)
        yield from ((line_of(event), hub.happen(event)) for event in events)
    yield "# A step of each route, by a reader who sees less than all."
    for request in STEPS:
        events = asked(2, request)
        if request[1] == "GET" and request[2].startswith("/page/"):
            yield several("run", hub, events)
        yield from ((line_of(event), hub.happen(event)) for event in events)
    yield several("run", hub, asked(1, *all_routes("old/n.md", "kiwi")))


if __name__ == "__main__":
    write("replies.py", [*histories(), *edits()], "trial_site")
