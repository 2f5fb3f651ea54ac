"""Pages for people, as whole bytes: an outside expectation for the crates of the room `people`, for `doc_shelf`'s views, hits and rows, and
for who asks.

The model of replies.py keeps the pages. Here each page for people is made anew of the pages that its reader sees, by the rules of
docs/SITE.md and docs/HTTP.md: what stands in a folder, titles, searches and snippets by plain lists and Python's own strings. It knows
no index, no row and no want of memory. Texts hold no HTML of their own, but quotes.

    python3 scripts/oracles/people.py              writes its lines into stdin and stdout of crates/trial_site
    python3 scripts/oracles/people.py PROGRAM N    asks a built trial_site on N random sites, and says where it answers otherwise
"""

import subprocess
import sys
import unicodedata
from urllib.parse import parse_qsl, quote_plus, unquote_to_bytes

from listings import Cut, EXTERNAL, NOWHERE, classify, encoded, encoded_path, escaped, is_path
from replies import Hub, REASONS, written
from trial_lines import Dice, given, write
from words import words_of

SHEET = 5
BEFORE, AFTER, TOC, TOC_LEVEL, ASIDE, LIST, SOURCES, LINKS = 30, 60, 100, 3, 20, 200, 50, 50
HITS, PREFIX, READ, LEAD, SNIPPET, SHORT = 50, 3, 65536, 60, 200, 80
WHITE = "\t\n\x0b\x0c\r "
MOST = 2**64 - 1
POLICY = (
    "default-src 'none'; style-src 'self'; img-src 'self' https: data:; form-action 'self'; base-uri 'none'; frame-ancestors 'none'; "
    "sandbox allow-same-origin allow-forms allow-popups allow-popups-to-escape-sandbox allow-downloads")
HEAD = ("Content-Security-Policy: " + POLICY + "\r\nX-Content-Type-Options: nosniff\r\nReferrer-Policy: same-origin\r\n"
        "Cache-Control: private, no-cache\r\nVary: Accept, Authorization\r\n")
NOTICES = {
    301: ("Moved", "The page stands at another address now:"),
    401: ("Not signed in", "These pages are for readers who are signed in. Whoever runs this site can let you in."),
    403: ("Not allowed", "Only those who write these pages may do this."),
    404: ("Not found", "There is no page here that you may read."),
}


def short(text):
    return text if len(text) <= SHORT else text[: SHORT - 1] + "…"


def folder_of(place):
    return place[: place.rfind("/") + 1]


def parent(folder):
    return folder_of(folder[:-1])


def name(place):
    return place.rstrip("/").rsplit("/", 1)[-1]


def key(folder, path):
    rest = path[len(folder):]
    return folder + (rest[: rest.index("/") + 1] if "/" in rest else rest)


def page_href(path):
    return "/page/" + encoded_path(path)


def contents_href(folder):
    return "/contents/" + encoded_path(folder) if folder else "/contents"


def edit_href(place):
    return "/edit/" + encoded_path(place)


def block(head, lines, foot):
    return head + "".join(lines) + foot if any(lines) else ""


def item(text, kind=""):
    return f"<li{kind}>{text}</li>\n"


def link(href, label, more=""):
    return f'<a href="{href}"{more}>{label}</a>'


def words_in(text):
    """The words of a text in order, folded, each with where it begins and ends."""
    found, start = [], None
    for at, c in enumerate(text + " "):
        if unicodedata.category(c)[0] in "LMN":
            start = at if start is None else start
        elif start is not None:
            found.append((text[start:at].casefold(), start, at))
            start = None
    return found


def before(one, other):
    return one.encode() < other.encode()


class View(Cut):
    """What a reader sees, and what the pages for people show of it."""

    def __init__(self, settings, pages, groups, is_guest):
        super().__init__(pages, groups)
        self.settings, self.is_guest = settings, is_guest
        self.tools = groups is None and settings["editing"]

    # titles and labels

    def heading(self, path):
        return next((text for _, _, text in self.pages[path].headings if text), None)

    def title(self, path):
        return self.heading(path) or path

    def label(self, path):
        found = self.heading(path)
        return short(found) if found else name(path)

    def folder_label(self, folder):
        if not folder:
            return "Home"
        return self.label(folder + "index.md") if folder + "index.md" in self.pages else name(folder)

    def folder_href(self, folder):
        return page_href(folder + "index.md") if folder + "index.md" in self.pages else contents_href(folder)

    def keys(self, folder):
        return list(dict.fromkeys(key(folder, path) for path in self.pages if path.startswith(folder)))

    def line(self, path, behind=""):
        return item(f'{link(page_href(path), escaped(self.label(path)))} <span class="path">{escaped(path)}</span>{behind}')

    # the frame

    def head(self, title):
        return (f'<!DOCTYPE html>\n<html lang="{self.settings["language"]}">\n<head>\n<meta charset="utf-8">\n'
                '<meta name="viewport" content="width=device-width, initial-scale=1">\n<meta name="color-scheme" content="light dark">\n'
                f'<title>{escaped(title)} · {escaped(self.settings["title"])}</title>\n<link rel="icon" href="data:,">\n'
                f'<link rel="stylesheet" href="/style.css?{SHEET}">\n</head>\n<body>\n')

    def bare(self, title, main):
        return (self.head(title) + '<div class="frame bare">\n<main id=".main">\n' + main + "</main>\n</div>\n</body>\n</html>\n")

    def shell(self, title, at, main, aside=""):
        sign_in = self.is_guest and self.settings["login"]
        return (
            self.head(title) + '<a class="skip" href="#.main">Skip to content</a>\n<header>\n'
            f'<a class="site" href="/">{escaped(self.settings["title"])}</a>\n<a class="menu" href="#.pages">Pages</a>\n'
            '<form role="search" action="/search">\n<input type="search" name="q" aria-label="Search" placeholder="Search">\n'
            '<button>Search</button>\n</form>\n<nav aria-label="Site">\n<a href="/contents">Contents</a>\n'
            '<a href="/broken">Broken links</a>\n' + ('<a href="/sign-in">Sign in</a>\n' if sign_in else "")
            + '</nav>\n</header>\n<div class="frame">\n' + self.over(at) + '<main id=".main">\n' + main + "</main>\n"
            + block('<aside aria-label="About this page">\n', [aside] if aside else [], "</aside>\n") + self.tree(at) + "</div>\n"
            + block("<footer>\n", [f"<p><code>{escaped(at)}</code></p>\n" if at else "", self.links_to_edit(at)], "</footer>\n")
            + "</body>\n</html>\n")

    def links_to_edit(self, at):
        """What owners do with a page or in a folder."""
        if at is None or not self.tools:
            return ""
        edit = link(edit_href(at), "Edit") + "\n" if at in self.pages else ""
        return '<p class="tools">\n' + edit + link(edit_href(folder_of(at)), "New page") + "\n</p>\n"

    def over(self, at):
        if at is None:
            return ""
        folders, rows = [""], []
        while folders[-1] != at and folders[-1] + "index.md" != at and key(folders[-1], at).endswith("/"):
            folders.append(key(folders[-1], at))
        for folder in folders:
            here = ' aria-current="page"' if folder == at or folder + "index.md" == at else ""
            href = contents_href(folder) if folder == at else self.folder_href(folder)
            rows.append(item(link(href, escaped(self.folder_label(folder)), here)))
        crumbs = '<nav class="crumbs" aria-label="Folders">\n<ol>\n' + "".join(rows) + "</ol>\n</nav>\n"
        return '<div class="over">\n' + crumbs + self.links_to_edit(at) + "</div>\n"

    def tree(self, at):
        folder = folder_of(at or "")
        keys, index = self.keys(folder), folder + "index.md"
        shown = keys[:AFTER]
        if at in self.pages and at != index:
            place = keys.index(at)
            shown = keys[max(place - BEFORE, 0): place + AFTER]
        rows = []
        for it in shown:
            if it.endswith("/"):
                rows.append(item(link(self.folder_href(it), escaped(self.folder_label(it))), ' class="dir"'))
            elif it != index:
                rows.append(item(link(page_href(it), escaped(self.label(it)), ' aria-current="page"' if it == at else "")))
        up = parent(folder)
        return (
            '<nav class="tree" id=".pages" aria-label="Pages">\n'
            + (f'<p class="up">{link(self.folder_href(up), escaped(self.folder_label(up)))}</p>\n' if folder else "")
            + '<p class="top">' + link(self.folder_href(folder), escaped(self.folder_label(folder)),
                                       ' aria-current="page"' if at == index else "") + "</p>\n"
            + block("<ul>\n", rows, "</ul>\n")
            + (f'<p class="all">{link(contents_href(folder), "All of this folder")}</p>\n' if len(shown) < len(keys) else "") + "</nav>\n")

    # the pages

    def page(self, path):
        return self.shell(short(self.title(path)), path, self.article(path, self.pages[path]), self.aside(path))

    def article(self, path, page):
        """The main part of a page at a path, whether it stands there or not."""
        titles, heading = [text for _, _, text in page.headings if text], ""
        if not any(level == 1 and text for level, _, text in page.headings):
            kind = ' class="sr"' if titles else ""
            heading = f"<h1{kind}>{escaped((titles or [path])[0])}</h1>\n"
        body = page.body(path, self).split("\n", 2)[2]
        body += "<!--'\"-->\n" if "'" in body else ""
        return "<article>\n" + heading + body + "</article>\n"

    def notice(self, wrap, code, behind=""):
        title, text = NOTICES[code]
        return wrap(title, f"<h1>{title}</h1>\n<p>{text}</p>\n{behind}")

    def alone(self, code, behind=""):
        return self.notice(self.bare, code, behind)

    def moved(self, address):
        return self.alone(301, f"<p>{link(escaped(address), escaped(address))}</p>\n")

    def forbidden(self):
        return self.notice(lambda title, main: self.shell(title, None, main), 403)

    def absent(self, path=None):
        """No page; to an owner the way to a new one at the path that was asked for, if it was one."""
        new = f'<p>{link(edit_href(path), "New page")} at <code>{escaped(path)}</code></p>\n' if path and self.tools else ""
        return self.notice(lambda title, main: self.shell(title, None, main), 404, f'<p>{link("/contents", "Contents")}</p>\n{new}')

    def aside(self, path):
        listed = [heading for heading in self.pages[path].headings if heading[2]]
        listed = [it for it in listed[listed[:1] != [] and listed[0][0] == 1:] if it[0] <= TOC_LEVEL][:TOC]
        out = block("<h2>On this page</h2>\n<ul>\n", [
            item(link("#" + encoded(anchor), escaped(short(text))), f' class="h{level}"') for level, anchor, text in listed], "</ul>\n")
        sources = self.sources(path)
        out += block("<h2>Linked from</h2>\n<ul>\n", [
            item(link(page_href(source), escaped(self.label(source)))) for source, _ in sources[:ASIDE]], "</ul>\n")
        more = f'<p>{link("/backlinks/" + encoded_path(path), "All that link here")}</p>\n'
        return out + (more if len(sources) > ASIDE else "")

    def sources(self, target):
        found = []
        for path, page in self.pages.items():
            links = [classify(path, dest) for dest in page.links]
            count = sum(1 for it in links if it[0] == "page" and self.goals.get(it[1]) == target)
            if count and path != target:
                found.append((path, count))
        return found

    def pager(self, address, start, rest):
        rows = [link(address, "From the start") + "\n"] if start else []
        rows += [f'<a href="{address}?from={encoded(rest)}" rel="next">More</a>\n'] if rest is not None else []
        return block('<nav class="pager" aria-label="Parts of this list">\n', rows, "</nav>\n")

    def listed(self, rows, start, note):
        note = "Nothing follows." if start else note
        return block('<ul class="list">\n', rows, "</ul>\n") or f"<p>{note}</p>\n"

    def folder(self, folder, start):
        keys = [it for it in self.keys(folder) if not before(it, start)]
        rows = []
        for it in keys[:LIST]:
            if it.endswith("/"):
                label = link(contents_href(it), escaped(self.folder_label(it)))
                rows.append(item(f'{label} <span class="path">{escaped(it)}</span>', ' class="dir"'))
            else:
                rows.append(self.line(it))
        title = self.folder_label(folder) if folder else "Contents"
        main = f"<h1>{escaped(title)}</h1>\n" + self.listed(rows, start, "There is no page that you may read.")
        return self.shell(title, folder, main + self.pager(contents_href(folder), start, (keys[LIST:] or [None])[0]))

    def linking(self, path, start):
        sources = [it for it in self.sources(path) if not before(it[0], start)]
        rows = [self.line(source, f" {count} link{'' if count == 1 else 's'}") for source, count in sources[:LIST]]
        label = self.label(path)
        main = f"<h1>Pages that link to {link(page_href(path), escaped(label))}</h1>\n" + self.listed(rows, start, "No other page links here.")
        rest = sources[LIST][0] if len(sources) > LIST else None
        return self.shell("Pages that link to " + label, folder_of(path), main + self.pager("/backlinks/" + encoded_path(path), start, rest))

    def broken_row(self, place, dest, path):
        found = classify(path, dest)
        reason = (self.fault(found) or (None,))[0]
        if reason is None:
            return ""
        if reason == "page":
            new = " " + link(edit_href(found[1]), "New page") if self.tools else ""
            cells = f"<code>{escaped(found[1])}</code>{new}</td><td>no such page"
        elif reason == "anchor":
            text = f"{escaped(found[1])}#{escaped(short(found[2]))}"
            cells = link(page_href(self.goals[found[1]]), f"<code>{text}</code>") + "</td><td>no such heading"
        else:
            cells = "–</td><td>no path of a page"
        return f"<tr><td>{place}</td><td>{cells}</td></tr>\n"

    def broken(self, start):
        groups = []
        for path, page in self.pages.items():
            rows = [self.broken_row(place, dest, path) for place, dest in enumerate(page.links, 1)]
            rows = [row for row in rows if row]
            if rows and not before(path, start):
                groups.append((path, rows))
        out = "<h1>Broken links</h1>\n<p>A page that you may not read counts as none.</p>\n"
        if groups:
            out += ('<table class="broken">\n<thead>\n<tr><th scope="col">Link</th><th scope="col">Leads to</th>'
                    '<th scope="col">What is wrong</th></tr>\n</thead>\n')
            for path, rows in groups[:SOURCES]:
                label = f'{link(page_href(path), escaped(self.label(path)))} <span class="path">{escaped(path)}</span>'
                out += f'<tbody>\n<tr><th colspan="3" scope="rowgroup">{label}</th></tr>\n' + "".join(rows[:LINKS])
                out += f'<tr><td colspan="3">and {len(rows) - LINKS} more</td></tr>\n' if len(rows) > LINKS else ""
                out += "</tbody>\n"
            out += "</table>\n"
        else:
            out += f'<p>{"Nothing follows." if start else "No link is broken on the pages that you may read."}</p>\n'
        return self.shell("Broken links", None, out + self.pager("/broken", start, groups[SOURCES][0] if len(groups) > SOURCES else None))

    # search

    def search_page(self, query):
        form = (f'<h1>Search</h1>\n<form class="ask" role="search" action="/search" aria-label="Search all pages">\n'
                f'<input type="search" name="q" value="{escaped(query)}" aria-label="Words">\n<button>Search</button>\n</form>\n')
        code, below = self.found(query)
        return code, self.shell("Search", None, form + below)

    def found(self, query):
        if not query.strip(" "):
            return 200, ""
        words = [word for word, _, _ in words_in(query)]
        if not words:
            return 400, "<p>A query is words: letters and numbers. This one has none.</p>\n"
        if len(set(words)) > 16:
            return 400, "<p>A query has 16 different words at most. This one has more.</p>\n"
        terms = self.terms(words)
        hits = self.hits(terms)
        if not hits:
            return 200, '<p class="found">No page that you may read has all of these words.</p>\n'
        best = f" The best {HITS} are these." if len(hits) > HITS else ""
        rows = [self.hit(path, terms) for path in hits[:HITS]]
        return 200, f'<p class="found">{len(hits)} page{"" if len(hits) == 1 else "s"} found.{best}</p>\n' + block('<ol class="hits">\n', rows, "</ol>\n")

    def terms(self, words):
        """Each a test of a word."""
        exact = list(dict.fromkeys(words if len(words[-1].encode()) < PREFIX else words[:-1]))
        tests = [word.__eq__ for word in exact]
        return tests if len(words[-1].encode()) < PREFIX else tests + [lambda word, front=words[-1]: word.startswith(front)]

    def hits(self, terms):
        counts = {}
        for path, page in self.pages.items():
            all_words = words_of(page.texts)
            counts[path] = [sum(n for word, n in all_words if term(word)) for term in terms]
        holders = [sum(1 for count in counts.values() if count[at]) for at in range(len(terms))]

        def score(path):
            parts = [min(n * (len(self.pages) // holders[at] if holders[at] else 0), MOST) for at, n in enumerate(counts[path])]
            return min(sum(parts), MOST)

        def named(path):
            names = [word for text in (self.title(path), path) for word, _, _ in words_in(text)]
            return all(any(term(word) for word in names) for term in terms)

        first = [path for path in self.pages if named(path)]
        then = [path for path in self.pages if all(counts[path]) and not named(path)]
        return [path for part in (first, then) for path in sorted(part, key=lambda path: (-score(path), path.encode()))]

    def hit(self, path, terms):
        return (f'<li>{link(page_href(path), escaped(self.label(path)))} <span class="path">{escaped(path)}</span>\n'
                f"<p>{self.snippet(path, terms)}</p></li>\n")

    def snippet(self, path, terms):
        texts, room = [], READ
        for text in self.pages[path].texts:
            room -= len(text.encode())
            if room < 0:
                break
            texts.append(text)
        texts = [text for text in texts if text and text != self.title(path)]
        if not texts:
            return ""
        met = [sum(1 for term in terms if any(term(word) for word, _, _ in words_in(text))) for text in texts]
        text = texts[met.index(max(met))]
        marked = [(start, end) for word, start, end in words_in(text) if any(term(word) for term in terms)]
        at = marked[0][0] if marked else 0
        start = 0 if at <= LEAD else next((s for s in range(at - LEAD, at) if text[s - 1] in WHITE), at)
        end = len(text)
        if start + SNIPPET < len(text):
            end = next((e for e in range(start + SNIPPET, start, -1) if text[e] in WHITE), start + SNIPPET)
        out, place = "…" if start else "", start
        # (a run that the piece cuts is looked at as it is cut)
        for word, first, last in words_in(text[start:end]):
            if any(term(word) for term in terms):
                out += escaped(text[place:start + first]) + "<mark>" + escaped(text[start + first:start + last]) + "</mark>"
                place = start + last
        return out + escaped(text[place:end]) + ("…" if end < len(text) else "")


class Site(Hub):
    """A site with settings for people."""

    def __init__(self, **settings):
        super().__init__()
        self.settings = {"title": "Handbook", "language": "en", "home": "index.md", "guest": None, "login": False, "editing": True}
        self.settings |= settings

    def people(self, token, method, target):
        """The reply to a people's request, as bytes. A token is None where none is sent."""
        code, content, location = self.judged(token, target)
        out = f"HTTP/1.1 {code} {REASONS[code]}\r\nContent-Type: text/html; charset=utf-8\r\nContent-Length: {len(content.encode())}\r\n"
        out += f"Location: {location}\r\n" if location else ""
        out += f"WWW-Authenticate: {self.challenges()[0]}\r\n" if code == 401 else ""
        return (out + HEAD + "\r\n" + (content if method == "GET" else "")).encode()

    def challenges(self):
        """Those of a program, of which people are told the first."""
        realm = "".join("\\" + c if c in '"\\' else c if " " <= c <= "~" else "?" for c in self.settings["title"])
        return [f'Basic realm="{realm}", charset="UTF-8"'] * self.settings["login"] + ['Bearer realm="docs"']

    def view(self, token):
        is_guest = token is None and self.settings["guest"] is not None
        return View(self.settings, self.pages, self.settings["guest"] if is_guest else self.readers.get(token, set()), is_guest)

    def judged(self, token, target):
        """The code, the content, and where another page is."""
        view = self.view(token)

        def moved(address):
            return 301, view.moved(address), address

        if not view.is_guest and token not in self.readers:
            return 401, view.alone(401), None
        route, _, query = target.partition("?")
        values = {name: value for name, value in reversed(parse_qsl(query, keep_blank_values=True))}
        start = values.get("from", "")
        if route == "/sign-in" and self.settings["guest"] is not None and self.settings["login"]:
            return (401, view.alone(401), None) if view.is_guest else moved("/")
        if route == "/":
            home = view.goals.get(self.settings["home"])
            return moved(page_href(home) if home else "/contents")
        if route == "/contents":
            return 200, view.folder("", start), None
        if route == "/broken":
            return 200, view.broken(start), None
        if route == "/search":
            code, content = view.search_page(values.get("q", ""))
            return code, content, None
        for kind in ("/contents/", "/page/", "/backlinks/"):
            rest = route[len(kind):]
            if route.startswith(kind) and rest:
                return self.below(view, kind, rest, start, moved)
        return 404, view.absent(), None

    def below(self, view, kind, rest, start, moved):
        parts = [unquote_to_bytes(part).decode() for part in (rest + "index.md" * (kind != "/contents/" and rest.endswith("/"))).split("/")]
        path = "/".join(parts)
        if kind == "/contents/":
            seen = rest.endswith("/") and any(it.startswith(path) for it in view.pages)
            return (200, view.folder(path, start), None) if seen else (404, view.absent(), None)
        if not is_path(path) or path not in view.goals:
            return 404, view.absent(path if kind == "/page/" and is_path(path) else None), None
        if view.goals[path] != path:
            return moved(kind + encoded_path(view.goals[path]))
        return 200, view.page(path) if kind == "/page/" else view.linking(path, start), None


# ---- lines


def world(settings):
    rows = ["[browse]"]
    rows += [f'{key} = "{settings[key]}"' for key in ("title", "language", "home") if key in settings]
    if settings.get("guest") is not None:
        rows.append("guest = [" + ", ".join(f'"{group}"' for group in sorted(settings["guest"])) + "]")
    rows += ['login = "basic"'] if settings.get("login") else []
    rows += [] if settings.get("editing", True) else ["editing = false"]
    rows += ['[[reader]]', 'token = "o"', "owner = true", "[[reader]]", 'token = "a"', 'groups = ["staff"]', "[[reader]]", 'token = "b"',
             'groups = ["ops"]']
    return "world keep 64 " + "\\n".join(rows) + "\\n", "()"


def line_of(*parts):
    return given(" | ".join(parts))


def asked(site, token, method, target):
    who = f"Authorization: Bearer {token}\r\n" if token is not None else ""
    request = f"{method} {target} HTTP/1.1\r\nHost: h\r\nAccept: text/html\r\n{who}\r\n"
    return "ask 1 " + given(request.replace("\r", "\x00")).replace("\\u{0}", "\\r"), "sent " + written(site.people(token, method, target))


class Random:
    """A random site and its requests."""

    WORDS = ["kiwi", "Kiwis", "plum", "Plums", "fig", "figs", "on", "the", "Straße", "ÄPFEL", "can't", "a&b", "x<y", '"q"', "don't", "9", "…"]
    NAMES = ["a.md", "b.md", "index.md", "kiwi.md", "plum fig.md", "ä.md", "a'b.md", "c&d.md"]
    FOLDERS = ["", "", "g/", "g/h/", "ops/", "ops2/", "kiwi plum/"]

    def __init__(self, seed, pages=30):
        self.dice = Dice(seed)
        dice = self.dice
        settings = {}
        if dice.chance(50):
            settings["title"] = dice.pick(["Blue & Book", "A <B> C", "Handbuch – Ä"])
        if dice.chance(30):
            settings["home"] = dice.pick(["g/index.md", "kiwi.md", "old.md"])
        if dice.chance(50):
            settings["guest"] = dice.some(["staff", "public"])
        settings["login"] = dice.chance(50)
        settings["editing"] = seed % 5 != 4
        self.site = Site(**settings)
        self.lines = [world(settings), ("connect", self.site.connect())]
        self.paths = sorted({dice.pick(self.FOLDERS) + dice.pick(self.NAMES) for _ in range(pages)})
        self.events = pages * 2

    def sentence(self, most):
        return " ".join(self.dice.pick(self.WORDS) for _ in range(self.dice.between(1, most)))

    def story(self):
        """A long text with few words that are asked for, some of them far inside; here and there no space for long."""
        words = ["x" * self.dice.between(1, 12 if self.dice.chance(95) else 250) for _ in range(self.dice.between(10, 80))]
        for _ in range(self.dice.between(1, 3)):
            words[self.dice.below(len(words))] = self.dice.pick(self.WORDS)
        return " ".join(words)

    def target_of_link(self, path):
        to = self.dice.pick(self.paths + ["none.md", "g/none.md"])
        return "/" + encoded_path(to) + self.dice.pick(["", "", "", "#kiwi", "#none%20x", "#kiwi-1"])

    def text(self, path):
        blocks = []
        for _ in range(self.dice.between(1, 5)):
            kind = self.dice.below(10)
            if kind < 3:
                blocks.append("#" * self.dice.between(1, 4) + " " + self.sentence(5 if self.dice.chance(90) else 30))
            elif kind < 7:
                blocks.append(" ".join(f"[{self.dice.pick(['kiwi', 'here', 'x'])}]({self.target_of_link(path)})"
                                       for _ in range(self.dice.between(1, 3))))
            else:
                blocks.append(self.sentence(9) if self.dice.chance(60) else self.story())
        return "\n\n".join(blocks) + "\n"

    def edit(self):
        dice, kind = self.dice, self.dice.below(10)
        path = dice.pick(self.paths)
        if kind < 7:
            groups = ",".join(sorted(dice.some(["staff", "ops", "public"]))) or "none"
            return "put", path, groups, self.text(path)
        if kind < 8:
            return "remove", path
        return "move", path, dice.pick(self.paths + ["old.md"])

    def request(self):
        dice = self.dice
        token, path = dice.pick(["o", "a", "b", "a", None, "x"]), dice.pick(self.paths + ["none.md", "old.md"])
        start = dice.pick(["", "", "?from=" + encoded(dice.pick(self.paths)), "?from=g"])
        query = dice.pick([self.sentence(2), self.sentence(1)[:3], self.sentence(1), "", "!", " ", self.dice.pick(self.NAMES)])
        target = dice.pick([
            page_href(path), page_href(path), page_href(path), "/backlinks/" + encoded_path(path) + start, "/contents" + start, "/broken" + start,
            "/contents/" + encoded_path(folder_of(path)) + start, "/search?q=" + quote_plus(query), "/search?q=" + quote_plus(query), "/",
            "/sign-in", "/page/" + encoded_path(folder_of(path)), "/nothing"])
        return token, "GET" if dice.chance(95) else "HEAD", target

    def all(self):
        for _ in range(self.events):
            event = self.edit()
            self.lines.append((f"{event[0]} " + line_of(*event[1:]), self.site.happen(event)))
            if self.dice.chance(60):
                self.lines.append(asked(self.site, *self.request()))
        for _ in range(self.events):
            self.lines.append(asked(self.site, *self.request()))
        return self.lines


class Large(Random):
    """A site with more than one part of each list shows, of which a reader sees a part."""

    def __init__(self, seed):
        super().__init__(seed)
        self.paths = [f"g/p{n:03}.md" for n in range(290)] + [f"g/h/{n}.md" for n in range(40)] + ["g/index.md", "t.md"]
        self.events = 60

    def all(self):
        for at, path in enumerate(self.paths):
            links = "".join(f" [x](/none{n}.md)" for n in range(52 if at % 97 == 0 else 1)) if at % 3 == 0 else ""
            text = f"# Page {at}\n\nkiwi {at} [t](/t.md){links}\n\n" + "\n\n".join(f"### {n}" for n in range(103 if at % 50 == 0 else 1))
            event = "put", path, "staff" if at % 5 else "ops", text + "\n"
            self.lines.append(("put " + line_of(*event[1:]), self.site.happen(event)))
        for token in ("o", "a", "b"):
            for target in ("/contents/g/", "/contents/g/?from=g/p150.md", "/backlinks/t.md", "/backlinks/t.md?from=g%2Fp150.md", "/page/t.md",
                           "/page/g/p000.md", "/page/g/p029.md", "/page/g/p031.md", "/page/g/p250.md", "/page/g/p289.md", "/page/g/", "/broken",
                           "/broken?from=g/p200.md", "/search?q=kiwi", "/search?q=page", "/search?q=28", "/search?q=kiw"):
                self.lines.append(asked(self.site, token, "GET", target))
        return super().all()


def compared(program, lines):
    """The first of these lines that a built trial answers otherwise."""
    # (the lines in front of the first world are of other calls)
    asked = "\n".join(["# Random sites.", *(call for call, _ in lines)]) + "\n"
    said = subprocess.run([program], input=asked, capture_output=True, text=True, check=True).stdout.split("\n")[1:-1]
    for (call, wanted), got in zip(lines, said, strict=False):
        if got != wanted:
            return call, wanted, got
    return None if len(said) == len(lines) else ("the number of lines", str(len(lines)), str(len(said)))


def main():
    if len(sys.argv) == 3:
        for seed in range(int(sys.argv[2])):
            other = compared(sys.argv[1], (Large(seed) if seed % 50 == 0 else Random(seed, 8 + seed % 40)).all())
            if other:
                print(f"site {seed}:", *other, sep="\n  ")
                sys.exit(1)
        print(f"{sys.argv[2]} sites: as expected")
        return
    write("people.py", ["# A random site, as people see it.", *Random(47, 7).all()], "trial_site")


if __name__ == "__main__":
    main()
