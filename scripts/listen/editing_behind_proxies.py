"""Edits pages through nginx, set up by site/nginx.conf.template, through haproxy by site/haproxy.cfg.template, and without a proxy:

- sources, groups, moves, previews and the form, each with the lines of its head as docs_server sends them, and HTML with one policy;
- conditions that hold and that don't, on each route; tags that nginx weakens where it compresses;
- bodies of 1 MiB, of one byte more, and in chunks; paths and whys that come through as they were sent;
- the lines of docs/RUNNING.md that edit by curl, as they stand there, and how long curl waits for a reply 100;
- in front of two servers what is edited comes from the one that takes edits;
- chromium saves by the form through an nginx that compresses, and is shown a conflict.

    python3 scripts/listen/editing_behind_proxies.py PROGRAM

Builds nothing. Needs python3, openssl, and nginx, haproxy, curl and chromium, which it has installed where they lack. Half a minute.
"""
import base64, collections, hashlib, os, re, socket, sys, time
for folder in ("lib", "site"):
    sys.path.insert(1, f"{os.path.dirname(os.path.abspath(__file__))}/../{folder}")
from chromium import Chromium
from editors import Program, Tab, quoted, tag_of
from proxies import Direct, Haproxy, Nginx, fields, keys, run
from scene import HOST, Scene, got, put

scene = Scene(seconds=300, needs=["nginx=nginx-light", "haproxy", "curl", "chromium", "openssl"], at_top=True)
SITE = """[browse]
title = "Handbook"
guest = ["public"]
login = "basic"

[[reader]]
token = "tok-owner"
owner = true

[[reader]]
token = "tok-ann"
groups = ["staff"]

[[page]]
path = "index.md"
groups = ["public"]
text = "# Welcome\\n"

[[page]]
path = "guide/start.md"
groups = ["staff"]
text = "# Start\\n\\nThe first page of the guide, which is long enough to be worth compressing: words, words, words.\\n"
"""
MOST = 1_048_576
KEPT = ["private, no-cache"]
FIRST, SECOND = "# First\n\n" + "Words of a page. " * 30 + "\n", "# Second\n\n" + "Other words. " * 30 + "\n"
PERSON = ("--header", "Accept: text/html")


class Asked:
    """A request by curl, and its reply."""

    def __init__(self, through, method, target, *conditions, body=None, who="owner", words=()):
        self.name = f"{through.name}, {method} {target} {' '.join(conditions)}".strip()
        words = [*words, *(("--head",) if method == "HEAD" else ("--request", method))]
        for condition in conditions:
            words += ["--header", condition]
        if body is not None:
            put(f"{scene.scratch}/body", body)
            words += ["--data-binary", "@body"]
        self.code, self.lines, self.body = through.curl(who, target, *words)

    def field(self, name):
        found = fields(self.lines, name)
        return found[0] if len(found) == 1 else found

    def is_answered(self, code, why=None, tag=None, groups=None):
        """The code, the content of a refusal, and whether there are a tag and groups: those that are given, and else none."""
        found = self.code, self.field("ETag"), self.field("Docs-Groups")
        scene.check(self.name, found == (code, tag or [], [] if groups is None else groups), (found, self.body[:200]))
        if why is not None:
            lines = self.body.decode(errors="replace").split("\n")
            scene.check(f"{self.name}: why", lines[1:] == ([why, ""] if why else [""]), self.body[:300])
        return self


# ---- the cases, through each

def check_sources(through, path):
    """A page that is made, read, and replaced, with conditions that hold and that don't."""
    target, first, second = f"/source/{quoted(path)}", tag_of(FIRST, "staff"), tag_of(SECOND, "staff")
    made = Asked(through, "PUT", target + "?groups=staff", "If-None-Match: *", body=FIRST)
    made.is_answered(201, why="", tag=first, groups="staff")
    Asked(through, "PUT", target, "If-None-Match: *", body="x").is_answered(412, "a page stands there", first)
    for method, body in (("GET", FIRST.encode()), ("HEAD", b"")):
        read = Asked(through, method, target).is_answered(200, tag=first, groups="staff")
        found = read.body, read.field("Content-Type"), read.field("X-Content-Type-Options"), fields(read.lines, "Cache-Control")
        scene.check(f"{read.name}: as it is", found == (body, "text/plain; charset=utf-8", "nosniff", KEPT), found)
        scene.check(f"{read.name}: its length", read.field("Content-Length") == str(len(FIRST)), read.lines)
    for value in (first, f"W/{first}", f'"x", W/{first}', "*"):
        read = Asked(through, "GET", target, f"If-None-Match: {value}").is_answered(304, tag=first)
        scene.check(f"{read.name}: nothing else", (read.body, fields(read.lines, "Cache-Control")) == (b"", KEPT), read.lines)
    Asked(through, "GET", target, 'If-None-Match: "x"').is_answered(200, tag=first, groups="staff")
    Asked(through, "GET", target, 'If-Match: "x"').is_answered(412, "another version of the page stands there", first)
    Asked(through, "PUT", target, f"If-Match: {first}", body=SECOND).is_answered(204, tag=second, groups="staff")
    for value in (first, f"W/{second}", '""'):
        Asked(through, "PUT", target, f"If-Match: {value}", body="x").is_answered(412, "another version of the page stands there", second)
    Asked(through, "PUT", target, f"If-None-Match: {second}", body="x").is_answered(412, "this version of the page stands there", second)
    Asked(through, "PUT", target, f'If-Match: "x,y", {second}', body=SECOND).is_answered(204, tag=second, groups="staff")
    Asked(through, "PUT", target + "no", "If-Match: *", body="x").is_answered(412, "no page stands there")
    Asked(through, "PUT", target, "If-Match: x", body="x").is_answered(400, "If-Match is neither * nor a list of entity tags")
    Asked(through, "PUT", target, "If-None-Match: *, *", body="x").is_answered(400, "If-None-Match is neither * nor a list of entity tags")
    Asked(through, "PUT", target, body=b"\xff").is_answered(400, "the text is not UTF-8")
    Asked(through, "PUT", "/source/a//b", body="x").is_answered(400, "this is no path of a page")
    Asked(through, "PUT", target + "?groups=A", body="x").is_answered(400, "groups has a name that is none")
    Asked(through, "GET", target).is_answered(200, tag=second, groups="staff")
    for method in ("GET", "PUT", "DELETE"):
        Asked(through, method, target, who="ann").is_answered(403, why="")
    Asked(through, "POST", target, body="x").is_answered(405, why="")
    by_page = Asked(through, "PUT", f"/page/{quoted(path)}?groups=staff", f"If-Match: {first}", body="x")
    by_page.is_answered(412, "another version of the page stands there", second)
    Asked(through, "PUT", f"/page/{quoted(path)}?groups=staff", f"If-Match: {second}", body=FIRST).is_answered(204)
    Asked(through, "GET", target).is_answered(200, tag=first, groups="staff")


def check_groups_and_moves(through, path):
    """The groups alone, and the path, of the page that the case before has left."""
    tag, other = tag_of(FIRST, "staff"), tag_of(FIRST, "ops,staff")
    groups, goal = f"/groups/{quoted(path)}", f"{path.rpartition('/')[0]}/new place/ä & b.md"
    Asked(through, "PUT", groups + "?groups=ops", 'If-Match: "x"').is_answered(412, "another version of the page stands there", tag)
    Asked(through, "PUT", groups + "?groups=staff,ops", f"If-Match: {tag}").is_answered(204, tag=other, groups="ops,staff")
    Asked(through, "PUT", groups).is_answered(400, "groups is missing")
    move = f"/move/{quoted(path)}?to="
    Asked(through, "PUT", move + quoted(goal), f"If-Match: {tag}").is_answered(412, "another version of the page stands there", other)
    Asked(through, "PUT", move + "guide/start.md", f"If-Match: {other}").is_answered(409, "a page stands at to")
    Asked(through, "PUT", move + "..").is_answered(400, "to is no path of a page")
    Asked(through, "POST", move + quoted(goal)).is_answered(405, why="")
    Asked(through, "PUT", move + quoted(goal), f"If-Match: {other}").is_answered(204)
    moved = Asked(through, "GET", f"/source/{quoted(path)}").is_answered(301)
    scene.check(f"{moved.name}: where", moved.field("Location") == f"/source/{quoted(goal)}", moved.lines)
    Asked(through, "PUT", f"/source/{quoted(path)}", f"If-Match: {other}", body="x").is_answered(412, "no page stands there")
    source = f"/source/{quoted(goal)}"
    Asked(through, "GET", source).is_answered(200, tag=other, groups="ops,staff")
    Asked(through, "DELETE", source, f"If-Match: {tag}").is_answered(412, "another version of the page stands there", other)
    Asked(through, "DELETE", source, f"If-Match: {other}").is_answered(204)
    Asked(through, "DELETE", source, f"If-Match: {other}").is_answered(404, why="")


def check_pages(through):
    """The form and a preview: one policy each, which is docs_server's own."""
    for target in ("/edit/guide/start.md", "/edit/", "/edit/guide/never.md"):
        form = Asked(through, "GET", target, words=PERSON).is_answered(200)
        script = re.search(rb"<script>(.*?)</script>", form.body, re.S)
        digest = base64.b64encode(hashlib.sha256(script[1] if script else b"").digest()).decode()
        policies = fields(form.lines, "Content-Security-Policy")
        scene.check(f"{form.name}: policies", len(policies) == 1 and f"script-src 'sha256-{digest}';" in policies[0], policies)
        scene.check(f"{form.name}: kept by nobody", fields(form.lines, "Cache-Control") == KEPT, form.lines)
    refused = Asked(through, "GET", "/edit/guide/start.md", who="ann", words=PERSON).is_answered(403)
    scene.check(f"{refused.name}: policies", len(fields(refused.lines, "Content-Security-Policy")) == 1, refused.lines)
    shown = Asked(through, "POST", "/preview/guide/start.md", "Content-Type: text/markdown; charset=utf-8", body=SECOND).is_answered(200)
    policies = fields(shown.lines, "Content-Security-Policy")
    scene.check(f"{shown.name}: policies", len(policies) == 1 and policies[0].endswith("; sandbox"), policies)
    scene.check(f"{shown.name}: kept by nobody", fields(shown.lines, "Cache-Control") == KEPT, shown.lines)
    scene.check(f"{shown.name}: what is shown", b'<h1 id="second">Second</h1>' in shown.body and b"<script" not in shown.body, shown.body)
    Asked(through, "POST", "/preview/guide/start.md", "Content-Type: text/plain", body=SECOND).is_answered(415, why="")


def check_bodies(through, path):
    """As many bytes as there may be, one more, and some in chunks."""
    target = f"/source/{quoted(path)}"
    large = "a" * MOST
    Asked(through, "PUT", target, body=large).is_answered(201, tag=tag_of(large, ""), groups="")
    refused = Asked(through, "PUT", target, body=large + "a")
    scene.check(refused.name + " of a byte more", refused.code == 413, refused.code)
    Asked(through, "GET", target).is_answered(200, tag=tag_of(large, ""), groups="")
    put(f"{scene.scratch}/chunks", SECOND * 100)
    chunked = Asked(through, "PUT", target, "Transfer-Encoding: chunked", words=("--upload-file", "chunks"))
    chunked.is_answered(204, tag=tag_of(SECOND * 100, ""), groups="")
    Asked(through, "DELETE", target).is_answered(204)


def check_examples(through):
    """The lines of docs/RUNNING.md that edit by curl, one after the other, as they stand there."""
    with open("docs/RUNNING.md") as text:
        lines = [line.strip() for line in text if re.match(r" +curl .*\$site/", line)]
    folder = f"{scene.scratch}/examples-{through.port}"
    put(f"{folder}/.curlrc", f'silent\nshow-error\ncacert = {scene.scratch}/cert\nwrite-out = "\\n%{{http_code}} %{{time_total}}"\n')
    put(f"{folder}/new.md", "# New\n\n[The start](start.md)\n")
    told = []
    for line in lines:
        if '"TAG"' in line:
            tag = Asked(through, "GET", re.search(r"\$site(/source/[^ ?\"]*)", line)[1]).field("ETag")
            line = line.replace('"TAG"', str(tag))
        given = {**os.environ, "CURL_HOME": folder, "HOME": folder, "site": through.base, "auth": through.authorization("owner")}
        done = run(scene, "bash", "-c", f"cd {folder} && {line}", env=given)
        code, _, seconds = done.stdout.decode().rpartition("\n")[2].partition(" ")
        told.append(code or done.stderr.decode())
        print(f"{through.name}: {code} in {seconds} s: {line}", flush=True)
        if len(told) == 1:
            head = got(f"{folder}/head").decode().split("\r\n")
            start = fields(head, "ETag"), fields(head, "Docs-Groups"), got(f"{folder}/start.md")
            wanted = [tag_of(start[2].decode(), "staff")], ["staff"]
            scene.check(f"{through.name}: a head with the tag and the groups", start[:2] == wanted, head)
            put(f"{folder}/start.md", start[2] + b"\nMore.\n")
    scene.check(f"{through.name}: the examples of docs/RUNNING.md", told == ["200", "204", "201", "204", "204", "204"], told)
    start = Asked(through, "GET", "/source/guide/start.md")
    scene.check(f"{through.name}: the start has more", start.body == got(f"{folder}/start.md"), start.body)
    Asked(through, "GET", "/source/guide/first.md").is_answered(404, why="")


def waited(through):
    """How long curl takes to put a file, as it does by itself, and without its field Expect."""
    ways = {"-T": ("-T", "sized"), "-T with -H Expect:": ("-T", "sized", "-H", "Expect:"),
            "--data-binary": ("-X", "PUT", "--data-binary", "@sized")}
    for size in (1, 20_000, MOST):
        put(f"{scene.scratch}/sized", "a" * size)
        told = []
        for name, words in ways.items():
            begin = time.monotonic()
            code, _, _ = through.curl("owner", "/source/sized.md", *words)
            told.append(f"{name} {time.monotonic() - begin:.2f} s")
            scene.check(f"{through.name}: {size} bytes by {name}", code in (201, 204), code)
        print(f"{through.name}: curl puts {size:,} bytes by {', '.join(told)}", flush=True)


def check_expect(port):
    """A request that waits for a reply 100 is answered once its body is there."""
    with socket.create_connection((HOST, port), timeout=20) as peer:
        peer.sendall(b"PUT /source/expect.md HTTP/1.1\r\nHost: docs\r\nAuthorization: Bearer tok-owner\r\nContent-Length: 5\r\n"
                     b"Expect: 100-continue\r\n\r\n")
        peer.settimeout(1.5)
        try:
            first = peer.recv(4096)
        except TimeoutError:
            first = b""
        peer.settimeout(20)
        peer.sendall(b"text\n")
        reply = peer.recv(4096)
    print(f"docs_server, to Expect: 100-continue: {first!r} within 1.5 s; to the body: {reply[:20]!r}", flush=True)
    scene.check("a request that waits for 100", reply.startswith(b"HTTP/1.1 201 "), reply)


def check_compressed(through):
    """Where nginx compresses, the tag of what it compressed is a weak one: good for reading, not for editing."""
    text = "# Weak\n\n" + "Words that are worth compressing. " * 30 + "\n"
    tag, target, packed = tag_of(text, "staff"), "/source/weak.md", ("--compressed",)
    Asked(through, "PUT", target + "?groups=staff", body=text).is_answered(201, tag=tag, groups="staff")
    Asked(through, "GET", target).is_answered(200, tag=tag, groups="staff")
    read = Asked(through, "GET", target, words=packed).is_answered(200, tag=f"W/{tag}", groups="staff")
    scene.check(f"{read.name}: it is compressed", read.field("Content-Encoding") == "gzip" and read.body == text.encode(), read.lines)
    Asked(through, "GET", target, f"If-None-Match: W/{tag}", words=packed).is_answered(304, tag=tag)
    refused = Asked(through, "PUT", target, f"If-Match: W/{tag}", body="x", words=packed)
    scene.check(f"{refused.name}: refused", refused.code == 412, refused.code)
    Asked(through, "PUT", target, f"If-Match: {tag}", body=FIRST, words=packed).is_answered(204, tag=tag_of(FIRST, "staff"), groups="staff")


class Seen:
    """What a tab of the form takes for its look at a site."""

    def __init__(self, base):
        self.base, self.check = base, scene.check


def check_browser(through, port):
    """The form, in a browser that reads it through an nginx which compresses: its tags are weak, and it saves all the same."""
    browser = Chromium(f"{scene.scratch}/profile", options=["--ignore-certificate-errors"])
    window, program = browser.window(), Program(scene.check, port, "tok-owner")
    window.looks()
    window.asked_to_sign_in(("owner", "secret-owner"))
    program.puts("form/ü.md", FIRST, "staff")
    tab = Tab(Seen(through.base), window, "form/ü.md")
    window.as_ever()
    tab.has("through nginx", FIRST, "staff")
    tab.writes(SECOND)
    tab.says("through nginx", "Saved.", "Save")
    program.stands("through nginx", "form/ü.md", SECOND, "staff")
    program.puts("form/ü.md", FIRST, "staff")
    tab.adds("More.\n")
    tab.says("a conflict through nginx", "Not done: the page is another one now. What you typed is kept.", "Save")
    tab.shows("a conflict through nginx", FIRST, "staff")
    reply = window.replies[f"{through.base}/source/{quoted('form/ü.md')}"]
    tag = {name.lower(): value for name, value in reply["headers"].items()}.get("etag")
    scene.check("its source came compressed, with a weak tag", tag == "W/" + tag_of(FIRST, "staff"), reply["headers"])
    tab.says("in its place through nginx", "Saved.", "Save mine in its place")
    program.stands("in its place through nginx", "form/ü.md", SECOND + "More.\n", "staff")
    tab.presses("Preview")
    scene.check("a preview through nginx", window.until(lambda: window.texts("article h1", frame="#shown") == ["Second"]))
    window.write(window.node("#to"), "form/späte & b.md")
    tab.leaves_by("Move")
    scene.check("a move through nginx", window.path() == "/edit/" + quoted("form/späte & b.md"), window.path())
    browser.end()


def check_replicas(through):
    """Pages are read of both servers, and what is edited of the one that takes edits."""
    Asked(through, "PUT", "/source/new.md?groups=staff", body=FIRST).is_answered(201, tag=tag_of(FIRST, "staff"), groups="staff")
    codes = {target: collections.Counter(Asked(through, method, target, body=body, words=words).code for _ in range(10))
             for target, method, body, words in (("/page/new.md", "GET", None, ()), ("/source/new.md", "GET", None, ()),
                                                 ("/edit/new.md", "GET", None, PERSON))}
    scene.check("haproxy: pages are read of both", codes["/page/new.md"] == {200: 5, 404: 5}, codes["/page/new.md"])
    scene.check("haproxy: sources come from one", codes["/source/new.md"] == {200: 10}, codes["/source/new.md"])
    forms = [tag_of(FIRST, "staff").strip('"') in Asked(through, "GET", "/edit/new.md", words=PERSON).body.decode() for _ in range(10)]
    scene.check("haproxy: forms come from one", all(forms), forms)


def main():
    keys(scene)
    put(f"{scene.scratch}/site.toml", SITE)
    servers = [scene.listen(f"{scene.scratch}/site.toml") for _ in range(2)]
    port = servers[0].port
    ways = [Direct(scene, port), Nginx(scene, port), Haproxy(scene, port, servers[1].port),
            Nginx(scene, port, "gzip on; gzip_types text/plain;")]
    for way, name in zip(ways, ("no proxy", "nginx", "haproxy", "nginx with gzip")):
        way.name = name
    for way in ways[1:]:
        scene.check(f"{way.name} listens", way.begins())
    try:
        for way in ways[:3]:
            path = f"through {way.name}/ü & b.md"
            check_sources(way, path)
            check_groups_and_moves(way, path)
            check_pages(way)
            check_bodies(way, f"{way.name}.md")
            check_examples(way)
            waited(way)
        check_replicas(ways[2])
        check_compressed(ways[3])
        check_browser(ways[3], port)
        check_expect(port)
    finally:
        for way in ways[1:]:
            way.ends()
    for number, server in enumerate(servers):
        scene.ends(server, f"server {number}")


scene.run(main)
