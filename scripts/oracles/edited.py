"""A site that owners edit over HTTP: the model that editing.py asks.

The model of people.py keeps the pages and shows them. Here owners read and write them, by the rules of docs/EDITING.md: each request is
judged by one check behind another, in the order of refusals. Conditions are those of RFC 9110, sections 13.1.1, 13.1.2 and 13.2.2, their
lists read as 5.6.1.2 has it; a tag is hashlib's SHA-256 of the groups and the text. It knows no store, no stamp and no want of memory, and
its sites are too small for a 507. The script of the page that a text is edited on is editing.js.

FAULTS are models with one fault each.
"""

import base64
import hashlib
import os
import re
from urllib.parse import parse_qsl, unquote_to_bytes

from listings import Cut, encoded_path, escaped, is_path
from people import POLICY, Site, short
from replies import REASONS, Page
from words import words_of

REASONS |= {304: "Not Modified", 409: "Conflict", 412: "Precondition Failed", 415: "Unsupported Media Type"}
with open(os.path.join(os.path.dirname(os.path.abspath(__file__)), "editing.js"), encoding="utf-8", newline="\n") as file:
    SCRIPT = file.read()
HASH = "sha256-65j0TbRbhYxiVu38xduGeTf0fk43y5XwlYmjb9oA0w8="
assert HASH == "sha256-" + base64.b64encode(hashlib.sha256(SCRIPT.encode()).digest()).decode()

# the lines of a head behind Content-Type and Content-Length, in their order
ORDER = ("Location", "Allow", "WWW-Authenticate", "ETag", "Docs-Groups", "Content-Security-Policy", "X-Content-Type-Options",
         "Referrer-Policy", "Cache-Control", "Vary")
FOR_GUESTS = {"Cache-Control": "private, no-cache", "Vary": "Accept, Authorization"}
FOR_PLAIN_HTML = {"Content-Security-Policy": POLICY, "X-Content-Type-Options": "nosniff", **FOR_GUESTS}
FOR_PEOPLE = {"Referrer-Policy": "same-origin", **FOR_PLAIN_HTML}
EDIT_POLICY = (f"default-src 'none'; script-src '{HASH}'; style-src 'self'; img-src 'self' https: data:; connect-src 'self'; "
               "form-action 'self'; base-uri 'none'; frame-ancestors 'none'")
PREVIEW_POLICY = ("default-src 'none'; style-src 'self'; img-src 'self' https: data:; form-action 'none'; base-uri 'none'; "
                  "frame-ancestors 'none'; sandbox")
METHODS = {"source": "GET, HEAD, PUT, DELETE", "groups": "PUT", "move": "PUT", "edit": "GET, HEAD", "preview": "POST",
           "page": "GET, HEAD, PUT, DELETE", **dict.fromkeys(("backlinks", "contents", "search", "broken"), "GET, HEAD")}

# ---- requests and replies


class Request:
    """A request. The token is None where there is no Authorization; fields are names and values, of characters up to U+00FF."""

    def __init__(self, token, method, target, *fields, body=b""):
        self.token, self.method, self.sent, self.fields = token, method, target, fields
        local = re.sub("^http://[^/?#]*", "", target, flags=re.I)
        self.target = local if local.startswith("/") else "/" + local
        self.body = body.encode() if isinstance(body, str) else body

    def values(self, name):
        return [value.strip(" \t") for it, value in self.fields if it.lower() == name.lower()]

    def joined(self, name):
        """The values of all fields of a name, or None."""
        return ", ".join(self.values(name)) if self.values(name) else None

    @property
    def is_peoples(self):
        parts = [part for value in self.values("Accept") for part in value.split(",")]
        return self.method in ("GET", "HEAD") and any(part.split(";")[0].strip(" \t").lower() == "text/html" for part in parts)

    def parameter(self, name):
        """The value of the first pair of that name in the query, or None."""
        return next((value for it, value in parse_qsl(self.target.partition("?")[2], keep_blank_values=True) if it == name), None)

    def bytes(self):
        fields = list(self.fields)
        fields += [("Authorization", f"Bearer {self.token}")] if self.token is not None else []
        fields += [("Content-Length", len(self.body))] if self.body else []
        head = f"{self.method} {self.sent} HTTP/1.1\r\nHost: h\r\n" + "".join(f"{name}: {value}\r\n" for name, value in fields) + "\r\n"
        return head.encode("latin-1") + self.body


class Reply(Exception):
    """A reply, of any code. It is raised where a check refuses a request."""

    def __init__(self, code, lines=None, why=None, content=None, html=False):
        super().__init__(code)
        self.code, self.lines, self.html = code, dict(lines or {}), html
        self.content = f"{code} {REASONS[code]}\n" + (f"{why}\n" if why else "") if content is None else content

    def bytes(self, method):
        out = f"HTTP/1.1 {self.code} {REASONS[self.code]}\r\n"
        if self.code not in (204, 304):
            kind = "html" if self.html else "plain"
            out += f"Content-Type: text/{kind}; charset=utf-8\r\nContent-Length: {len(self.content.encode())}\r\n"
        for name in ORDER:
            values = self.lines.get(name, [])
            out += "".join(f"{name}: {value}\r\n" for value in ([values] if isinstance(values, str) else values))
        return (out + "\r\n" + ("" if method == "HEAD" or self.code in (204, 304) else self.content)).encode()


def for_people(code, content, **lines):
    return Reply(code, {**FOR_PEOPLE, **{name.replace("_", "-"): value for name, value in lines.items()}}, content=content, html=True)


# ---- what a request has

TAG = '(W/)?("[\x21\x23-\x7e\x80-\xff]*")'
TAGS = re.compile(f"[ \t,]*(?:{TAG}(?:[ \t]*,[ \t,]*{TAG})*[ \t,]*)?")
BAD = "malformed"


def named_by(value):
    """Which pages a condition names: `*`, a list of tags with whether each is weak, BAD, or None without a condition."""
    if value is None or value == "*":
        return value
    return [(weak != "", tag) for weak, tag in re.findall(TAG, value)] if TAGS.fullmatch(value) else BAD


def decoded(segments):
    """Segments of a target, or None where one isn't UTF-8 or holds a slash."""
    try:
        out = [unquote_to_bytes(segment).decode() for segment in segments]
    except UnicodeDecodeError:
        return None
    return None if any("/" in segment for segment in out) else "/".join(out)


def path_of(rest):
    """The path that REST writes, or None."""
    path = decoded((rest + "index.md" * rest.endswith("/")).split("/"))
    return path if path is not None and is_path(path) else None


def names_of(text):
    """The names of groups in a text, sorted, each once."""
    names = text.split(",") if text else []
    if not all(re.fullmatch("[a-z0-9-]{1,32}", it) for it in names):
        raise Reply(400, why="groups has a name that is none")
    if len(set(names)) > 32:
        raise Reply(400, why="groups has more than 32 names")
    return sorted(set(names))


def text_of(request):
    try:
        return request.body.decode()
    except UnicodeDecodeError:
        raise Reply(400, why="the text is not UTF-8") from None


def page_at(path):
    """The path that a target writes, for PUT."""
    if path is None:
        raise Reply(400, why="this is no path of a page")
    return path


# ---- the site


class Edited(Site):
    """A site that is edited over HTTP."""

    def __init__(self, **settings):
        super().__init__(**settings)
        self.journal = []
        if self.settings["guest"] is not None:
            self.readers[None] = self.settings["guest"]

    # pages

    def put(self, path, groups, text):
        said = "replaced" if path in self.pages else "created"
        self.store(path, names_of(groups), text)
        return said

    def store(self, path, names, text):
        super().put(path, "", text.replace("\r\n", "\n"))
        self.pages[path].groups, self.pages[path].text = set(names), text

    def names(self, page):
        return ",".join(sorted(page.groups))

    def tag(self, page):
        return '"' + hashlib.sha256((self.names(page) + "\n" + page.text).encode()).hexdigest() + '"'

    def told(self, page):
        return {"ETag": self.tag(page), "Docs-Groups": self.names(page)}

    def note(self, *words):
        self.journal.append(" ".join(words) + "\n")

    def note_put(self, path):
        self.note("put", spaceless(path), self.names(self.pages[path]) or "-", in_line(self.pages[path].text))

    # who asks, and for what

    def ask(self, request):
        """The bytes of the reply to a request."""
        is_guest = request.token is None and None in self.readers
        if not self.route_of(request) and request.is_peoples:
            return self.people(request.token, request.method, request.target)
        try:
            reply = self.answered(request)
        except Reply as refused:
            reply = refused
        if is_guest:
            reply.lines = {**FOR_GUESTS, **reply.lines}
        return reply.bytes(request.method)

    def route_of(self, request):
        """The route of editing, and its REST, or None."""
        found = re.fullmatch("/(source|groups|move|preview)/(.+)|/(edit)/(.*)", request.target.partition("?")[0])
        return found and self.settings["editing"] and (found[1] or found[3], found[2] or found[4] or "")

    def answered(self, request):
        if request.token not in self.readers:
            raise self.unauthorized(request)
        name, rest = self.route_of(request) or self.plain_route(request)
        if request.method not in METHODS[name].split(", "):
            raise Reply(405, {"Allow": METHODS[name]})
        if name in ("contents", "search", "broken", "backlinks") or name == "page" and request.method in ("GET", "HEAD"):
            return self.read(request, name, rest)
        self.allow(request, name)
        # (people's requests are answered by people.py, but for those of routes of editing)
        return getattr(self, f"{request.method.lower().replace('head', 'get')}_{name}")(request, rest)

    def plain_route(self, request):
        found = re.fullmatch("/(contents|search|broken)|/(page|backlinks)/(.+)", request.target.partition("?")[0])
        if not found:
            raise Reply(404)
        return found[1] or found[2], found[3]

    def unauthorized(self, request):
        if request.is_peoples:
            return for_people(401, self.view(request.token).alone(401), WWW_Authenticate=self.challenges()[:1])
        return Reply(401, {"WWW-Authenticate": self.challenges()})

    def allow(self, request, name):
        """Refuses who is no owner."""
        if self.readers[request.token] is None:
            return
        if request.token is None:
            raise self.unauthorized(request)
        if request.is_peoples and name == "edit":
            raise for_people(403, self.view(request.token).forbidden())
        raise Reply(403)

    def read(self, request, name, rest):
        """The plain forms."""
        cut = Cut(self.pages, self.readers[request.token])
        if name == "search":
            query = request.parameter("q") or ""
            if not 0 < len(words_of([query])) <= 16:
                raise Reply(400)
            return Reply(200, content=cut.search(query))
        if name == "broken":
            return Reply(200, content=cut.report())
        if name == "contents":
            return Reply(200, FOR_PLAIN_HTML, content=cut.contents(), html=True)
        path = path_of(rest)
        if path not in cut.goals:
            raise Reply(404)
        if path not in cut.pages:
            raise Reply(301, {"Location": f"/{name}/{encoded_path(cut.goals[path])}"})
        if name == "backlinks":
            return Reply(200, content=cut.backlinks(path))
        return Reply(200, FOR_PLAIN_HTML, content=cut.pages[path].body(path, cut), html=True)

    # conditions

    def check(self, request, page):
        """Refuses a request whose conditions don't hold of the page that stands there, or of none."""
        reads, stands = request.method in ("GET", "HEAD"), {} if page is None else {"ETag": self.tag(page)}
        match, none_match = named_by(request.joined("If-Match")), named_by(request.joined("If-None-Match"))
        for name, named in (("If-Match", match), ("If-None-Match", none_match)):
            if named == BAD:
                raise Reply(400, why=f"{name} is neither * nor a list of entity tags")
        if match is not None and (page is None or match != "*" and not self.has_strong(match, page)):
            raise Reply(412, stands, "no page stands there" if page is None else "another version of the page stands there")
        if page is not None and none_match is not None and (none_match == "*" or self.tag(page) in [tag for _, tag in none_match]):
            if reads:
                raise Reply(304, {**stands, "Cache-Control": "private, no-cache"})
            raise Reply(412, stands, "a page stands there" if none_match == "*" else "this version of the page stands there")

    def has_strong(self, tags, page):
        return (False, self.tag(page)) in tags

    def found(self, path, moved=None):
        """The page of a path, where one stands; of an alias the way to it, where there is a route for that."""
        if path not in self.pages:
            goal = next((it for it, page in self.pages.items() if path in page.aliases), None)
            raise Reply(404) if goal is None or moved is None else Reply(301, {"Location": moved + encoded_path(goal)})
        return self.pages[path]

    # the source

    def get_source(self, request, rest):
        page = self.found(path_of(rest), "/source/")
        self.check(request, page)
        return Reply(200, {**self.told(page), "X-Content-Type-Options": "nosniff", "Cache-Control": "private, no-cache"}, content=page.text)

    def put_source(self, request, rest):
        path = page_at(path_of(rest))
        names = self.kept_or_named(path, request.parameter("groups"))
        code = self.made(request, path, names)
        return Reply(code, self.told(self.pages[path]))

    def kept_or_named(self, path, groups):
        if groups is None:
            return sorted(self.pages[path].groups) if path in self.pages else []
        return names_of(groups)

    def made(self, request, path, names):
        """A page is put, and answered by its code."""
        self.check(request, self.pages.get(path))
        text = text_of(request)
        code = 204 if path in self.pages else 201
        self.store(path, names, text)
        self.note_put(path)
        return code

    def delete_source(self, request, rest):
        path = path_of(rest)
        self.check(request, self.found(path))
        del self.pages[path]
        self.note("remove", spaceless(path))
        return Reply(204)

    def put_page(self, request, rest):
        if not self.settings["editing"]:
            return self.put_page_alone(request, rest)
        path = page_at(path_of(rest))
        return Reply(self.made(request, path, names_of(request.parameter("groups") or "")))

    def put_page_alone(self, request, rest):
        """Where editing is off: no condition counts, and no refusal says why."""
        bare = Request(request.token, request.method, request.target, body=request.body)
        try:
            path = page_at(path_of(rest))
            return Reply(self.made(bare, path, names_of(request.parameter("groups") or "")))
        except Reply as refused:
            raise Reply(refused.code) from None

    def delete_page(self, request, rest):
        is_on = self.settings["editing"]
        return self.delete_source(request if is_on else Request(request.token, request.method, request.target), rest)

    def put_groups(self, request, rest):
        groups = request.parameter("groups")
        if groups is None:
            raise Reply(400, why="groups is missing")
        names, path = names_of(groups), path_of(rest)
        page = self.found(path)
        self.check(request, page)
        page.groups = set(names)
        self.note_put(path)
        return Reply(204, self.told(page))

    def put_move(self, request, rest):
        to = request.parameter("to")
        if to is None:
            raise Reply(400, why="to is missing")
        if not is_path(to):
            raise Reply(400, why="to is no path of a page")
        path = path_of(rest)
        self.check(request, self.found(path))
        if to in self.pages:
            raise Reply(409, why="a page stands at to")
        self.move(path, to)
        self.note("move", spaceless(path), spaceless(to))
        return Reply(204)

    # forms and previews

    def get_edit(self, request, rest):
        view = self.view(request.token)
        if rest == "" or rest.endswith("/"):
            folder = decoded(rest.split("/"))
            if folder != "" and (folder is None or not is_path(folder[:-1])):
                raise self.absent(request, view)
            return for_people(200, view.shell("New page", None, new_form(folder)), Content_Security_Policy=EDIT_POLICY)
        path = path_of(rest)
        if path is None:
            raise self.absent(request, view)
        if path not in self.pages and path in view.goals:
            address = "/edit/" + encoded_path(view.goals[path])
            raise for_people(301, view.moved(address), Location=address) if request.is_peoples else Reply(301, {"Location": address})
        page = self.pages.get(path)
        main = edit_form(path, page and page.text, page and self.names(page), page and self.tag(page))
        return for_people(200, view.shell("Edit " + path, page and path, main), Content_Security_Policy=EDIT_POLICY)

    @staticmethod
    def absent(request, view):
        return for_people(404, view.absent()) if request.is_peoples else Reply(404)

    def post_preview(self, request, rest):
        path, kinds = path_of(rest), request.values("Content-Type")
        if path is None:
            raise Reply(404)
        if len(kinds) != 1 or kinds[0].split(";")[0].strip(" \t").lower() != "text/markdown":
            raise Reply(415)
        view, page = self.view(request.token), Page(set(), text_of(request).replace("\r\n", "\n"))
        title = next((text for _, _, text in page.headings if text), path)
        return for_people(200, view.bare(short(title), view.article(path, page)), Content_Security_Policy=PREVIEW_POLICY)


def in_line(text):
    """A text as a line of the journal has it."""
    plain = {10: "\\n", 13: "\\r", 92: "\\\\"}
    return "".join(plain.get(byte) or (chr(byte) if 32 <= byte < 127 else f"\\x{byte:02x}") for byte in text.encode())


def spaceless(path):
    return in_line(path).replace(" ", "\\x20")


# the main parts of the page that edits a path, and of the one that asks for a path in a folder
EDIT_FORM = """\
<h1>{path}</h1>
<noscript><p>Saving takes the script of this page. Without it, <a href="/source/{address}">the source</a> is read and written by programs.</p></noscript>
<form id="edit" autocomplete="off" data-path="{address}" data-tag="{tag}">
<p><label for="text">Text</label></p>
<textarea id="text" rows="24" cols="80">
{text}</textarea>
<p><label>Groups <input id="groups" value="{groups}" size="40"></label> names with commas between; with none, owners alone see the page</p>
<p><button disabled>Save</button> <button id="show" type="button" disabled>Preview</button> <a href="/page/{address}">The page</a></p>
<p id="said" role="status"></p>
</form>
<section id="other" hidden>
<h2>As it stands</h2>
<textarea id="theirs" rows="12" cols="80" aria-label="As it stands" readonly></textarea>
<p>Groups: <output id="their-groups"></output></p>
<p><button id="keep" type="button">Save mine in its place</button> <button id="take" type="button">Take it in place of mine</button></p>
</section>
<iframe id="shown" title="Preview" sandbox="allow-same-origin" width="100%" height="400" hidden></iframe>
<section id="stands"{hidden}>
<form id="move" autocomplete="off"><p><label>New path <input id="to" value="{path}" size="40"></label> <button disabled>Move</button></p></form>
<form id="remove"><p><button disabled>Delete this page</button></p></form>
</section>
<script>{script}</script>
"""
NEW_FORM = """\
<h1>New page</h1>
<noscript><p>This takes the script of this page. Without it, write the path behind /edit/ in the address.</p></noscript>
<form id="new" autocomplete="off"><p><label>Path <input id="path" value="{folder}" size="40" required></label> <button disabled>Begin</button></p></form>
<p>As guide/start.md: up to 16 names with / between, 200 bytes in all.</p>
<script>{script}</script>
"""


def edit_form(path, text, groups, tag):
    """Text, groups and tag are None where no page stands."""
    return EDIT_FORM.format(path=escaped(path), address=encoded_path(path), text=escaped(text or ""), groups=escaped(groups or ""),
                            tag=escaped(tag or ""), hidden=" hidden" if tag is None else "", script=SCRIPT)


def new_form(folder):
    return NEW_FORM.format(folder=escaped(folder), script=SCRIPT)


# ---- faults of the model


class NoConditions(Edited):
    def check(self, request, page):
        pass


class NoIfNoneMatch(Edited):
    def check(self, request, page):
        kept = [field for field in request.fields if field[0].lower() != "if-none-match"]
        super().check(Request(request.token, request.method, request.target, *kept), page)


class WeakMatches(Edited):
    def has_strong(self, tags, page):
        return self.tag(page) in [tag for _, tag in tags]


class LooksFirst(Edited):
    """403 behind the look-up: who is no owner learns whether a page stands there."""

    def allow(self, request, name):
        if self.readers[request.token] is not None and name == "source":
            self.found(path_of(self.route_of(request)[1]), "/source/")
        super().allow(request, name)


class UnsortedGroups(Edited):
    def tag(self, page):
        groups = ",".join(sorted(page.groups, reverse=True))
        return '"' + hashlib.sha256((groups + "\n" + page.text).encode()).hexdigest() + '"'


class TextAlone(Edited):
    """A tag without groups."""

    def tag(self, page):
        return '"' + hashlib.sha256(page.text.encode()).hexdigest() + '"'


class OldTag(Edited):
    """A PUT tells the tag of what it replaces."""

    def put_source(self, request, rest):
        path = path_of(rest)
        before = self.told(self.pages[path]) if path in self.pages else None
        reply = super().put_source(request, rest)
        return Reply(reply.code, before or reply.lines)


class NoneKept(Edited):
    """Without `groups` a PUT of a source means none."""

    def kept_or_named(self, path, groups):
        return names_of(groups or "")


class KeptAtPage(Edited):
    """Without `groups` a PUT of a page keeps those that stand."""

    def put_page(self, request, rest):
        path = page_at(path_of(rest))
        return Reply(self.made(request, path, self.kept_or_named(path, request.parameter("groups"))))


class MovesOver(Edited):
    """A move takes the place of a page."""

    def move(self, start, end):
        if end != start:
            self.pages.pop(end, None)
        return super().move(start, end)

    def put_move(self, request, rest):
        path, to = path_of(rest), request.parameter("to")
        if path in self.pages and to in self.pages and path != to:
            del self.pages[to]
        return super().put_move(request, rest)


class ConditionsLast(Edited):
    """Conditions are judged behind the text."""

    def made(self, request, path, names):
        text_of(request)
        return super().made(request, path, names)


FAULTS = (NoConditions, NoIfNoneMatch, WeakMatches, LooksFirst, UnsortedGroups, TextAlone, OldTag, NoneKept, KeptAtPage, MovesOver,
          ConditionsLast)
