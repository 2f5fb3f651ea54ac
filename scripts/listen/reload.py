"""Readers, pages and media read anew while `listen` runs: a line `reload` on its standard input, and what comes of it. Beside each change stands a server
that is started anew on the same files: the replies of all readers are alike. What is refused leaves all as it was, and is told.

    python3 scripts/listen/reload.py PROGRAM

Builds nothing. Needs python3. Some seconds.
"""
import hashlib, json, os, random, sys, threading, time
sys.path.insert(1, os.path.dirname(__file__) + "/../lib")
from scene import Client, Scene, put, request, until

scene = Scene(seconds=300)
GROUPS = ("red", "green", "blue")
TOKENS = [f"tok-{name}-9d3f61" for name in ("ann", "ben", "cleo", "dan", "eve")]
PAGES = "".join(f'[[page]]\npath = "{group}.md"\ngroups = ["{group}"]\ntext = "# {group}\\n\\n[all](all.md), [red](red.md)."\n' for group in GROUPS)
PAGES += '[[page]]\npath = "all.md"\ntext = "To [red](red.md), [green](green.md) and [none](none.md)."\n'
TARGETS = [f"/page/{name}.md" for name in (*GROUPS, "all", "none")]
TARGETS += ["/search?q=red", "/pages", "/links?path=red.md", "/backlinks?path=red.md", "/broken", "/"]


def done(readers, put=0, removed=0, record=0, media=False):
    """What is printed of a reload that is made."""
    return f"reload: {readers} readers, {put} pages put, {removed} removed{', other media' * media} (record {record})\n"


def row(token, groups=(), owner=False, name="", hashed=False):
    """A reader of a configuration."""
    key = f'token_sha256 = "{hashlib.sha256(token.encode()).hexdigest()}"' if hashed else f'token = "{token}"'
    lines = [f'name = "{name}"'] * bool(name) + [key] + ["owner = true"] * owner
    return "\n".join(["[[reader]]", *lines, f"groups = {json.dumps(list(groups))}"]) + "\n"


class Reloaded:
    """A server of a configuration, which is written anew and asked to be read."""

    def __init__(self, text, **given):
        put("site.toml", text)
        self.server = scene.listen("site.toml", **given)
        self.told = len(self.server.said())

    def say(self, line):
        self.server.process.stdin.write(line if isinstance(line, bytes) else line.encode())
        self.server.process.stdin.flush()

    def heard(self, lines=1):
        """What it has printed since, once so many lines of it stand."""
        until(lambda: self.server.said()[self.told:].count("\n") >= lines, 10)
        said = self.server.said()[self.told:]
        self.told += len(said)
        return said

    def reload(self, text=None, lines=1):
        """Reads the configuration anew, where a text is given this one: what it printed."""
        if text is not None:
            put("site.toml", text)
        self.say("reload\n")
        return self.heard(lines)

    def code(self, token, target="/page/all.md"):
        return answers(self.server.port, token, [target])[0][0]

    def ends(self, name):
        scene.check(f"{name}: the end", self.server.end() == 0)


def answers(port, token, targets=tuple(TARGETS)):
    """The replies to these, over one connection."""
    client = Client(port, token)
    found = [client.ask(it) for it in targets]
    client.close()
    return found


def readers():
    """Readers come, go, and see other pages; connections that stand and requests that are half sent are theirs from then on."""
    site = Reloaded(row(TOKENS[0], ["red"]) + row(TOKENS[1], ["green"]) + PAGES)
    ann, ben = Client(site.server.port, TOKENS[0]), Client(site.server.port, TOKENS[1])
    scene.check("before", [ann.ask("/page/red.md")[0], ann.ask("/page/green.md")[0], ben.ask("/page/green.md")[0]] == [200, 404, 200])
    whole = request(TOKENS[1], "/page/green.md")
    ben.socket.sendall(whole[:20])
    said = site.reload(row(TOKENS[0], ["green"]) + row(TOKENS[2], owner=True, hashed=True) + PAGES)
    scene.check("what is told", said == done(2), said)
    ben.socket.sendall(whole[20:])
    scene.check("one who went, on a request that was half sent", ben.reply()[0] == 401)
    scene.check("one whose groups are others", [ann.ask("/page/red.md")[0], ann.ask("/page/green.md")[0]] == [404, 200])
    scene.check("one who came, by a digest", [site.code(TOKENS[2], it) for it in TARGETS[:3]] == [200, 200, 200])
    scene.check("the digest is no token", site.code(hashlib.sha256(TOKENS[2].encode()).hexdigest()) == 401)
    scene.check("nobody", site.reload(PAGES) == done(0) and ann.ask("/page/all.md")[0] == 401)
    site.ends("readers")


def pages():
    """Pages of rows, of files and of folders come, go and change; who reads on a standing connection has them from then on."""
    ann = row(TOKENS[0], ["red"])
    put("text.md", "One")
    put("docs/one.md", "# One\n\n[two](two.md)")
    put("docs/part/README.md", "Read me")
    files = '[[page]]\npath = "text.md"\nfile = "text.md"\ngroups = ["red", "blue"]\n'
    files += '[[folder]]\npath = "docs"\nprefix = "docs"\nreadme = true\ngroups = ["red"]\n'
    site = Reloaded(ann + files + PAGES)
    client = Client(site.server.port, TOKENS[0])

    def read(path):
        code, _, body = client.ask(f"/page/{path}")
        return body if code == 200 else code

    def now(name, change, told, path, wanted):
        change()
        said = site.reload()
        scene.check(f"{name}: told", said == told, said)
        found = read(path)
        scene.check(name, found == wanted if isinstance(wanted, int) else isinstance(found, bytes) and wanted in found, found)

    scene.check("a README is its folder's index", b"Read me" in read("docs/part/index.md"))
    now("nothing", lambda: None, "reload: nothing has changed\n", "text.md", b"One")
    now("a file's text", lambda: put("text.md", "Two"), done(1, 1), "text.md", b"Two")
    now("a page more in a folder", lambda: put("docs/two.md", "# Two"), done(1, 1), "docs/two.md", b"Two")
    now("a link to it", lambda: None, "reload: nothing has changed\n", "docs/one.md", b'href="/page/docs/two.md"')
    now("one less", lambda: os.remove("docs/two.md"), done(1, 0, 1), "docs/two.md", 404)
    now("no link to it", lambda: None, "reload: nothing has changed\n", "docs/one.md", b"two")
    now("a README's text", lambda: put("docs/part/README.md", "Read that"), done(1, 1), "docs/part/index.md", b"Read that")
    now("a page of other groups", lambda: put("site.toml", ann + files + PAGES.replace('groups = ["red"]', 'groups = ["blue"]')), done(1, 1), "red.md", 404)
    now("and of its own again", lambda: put("site.toml", ann + files + PAGES), done(1, 1), "red.md", b"red")
    now("readers and pages at once", lambda: put("site.toml", row(TOKENS[0], ["blue"]) + files + PAGES.replace("# blue", "# Blue")),
        done(1, 1), "blue.md", b"Blue")
    now("all but one", lambda: put("site.toml", ann + '[[page]]\npath = "all.md"\ngroups = ["red"]\ntext = "All"\n'), done(1, 1, 6), "all.md", b"All")
    site.ends("pages")


def media():
    """Pictures come, change and go in one event, with who may see them; who reads on a standing connection has them from then on."""
    ann, ben = row(TOKENS[0], ["red"]), row(TOKENS[1], ["blue"])
    put("drawn/one.md", "![a](a.png)")
    folder = '[[folder]]\npath = "drawn"\nprefix = "drawn"\ngroups = ["red"]\nmedia = true\n'
    site = Reloaded(ann + ben + row(TOKENS[2], owner=True) + folder)
    clients = [Client(site.server.port, it) for it in TOKENS[:3]]

    def now(name, change, told, wanted, text=None):
        change()
        said = site.reload(text)
        scene.check(f"{name}: told", said == told, said)
        found = [it[2] if it[0] == 200 else it[0] for it in (client.ask("/page/drawn/a.png") for client in clients)]
        scene.check(name, found == wanted, found)

    now("a picture", lambda: put("drawn/a.png", b"one"), done(3, media=True), [b"one", 404, b"one"])
    shown = clients[0].ask("/page/drawn/one.md")[2]
    scene.check("a page shows it", b'<img src="a.png" alt="a" />' in shown, shown)
    now("another one of its name", lambda: put("drawn/a.png", b"two"), done(3, media=True), [b"two", 404, b"two"])
    now("the same", lambda: None, "reload: nothing has changed\n", [b"two", 404, b"two"])
    text = ann + ben + row(TOKENS[2], owner=True) + folder.replace("red", "blue")
    now("other groups", lambda: None, done(3, 1, media=True), [404, b"two", b"two"], text)
    now("no media", lambda: None, done(3, media=True), [404, 404, 404], text.replace("media = true\n", ""))
    now("media again", lambda: None, done(3, media=True), [404, b"two", b"two"], text)
    now("it goes, a page comes", lambda: (os.remove("drawn/a.png"), put("drawn/two.md", "Two")), done(3, 1, media=True), [404, 404, 404])
    now("no media to be", lambda: None, done(3, media=True), [404, 404, 404], text.replace("media = true\n", ""))
    code = clients[2].ask("/page/drawn/a.png", "PUT", b"A page")[0]
    scene.check("a page has its path", code == 201, code)
    put("drawn/a.png", b"three")
    put("drawn/two.md", "Other")
    told = site.reload(text)
    scene.check("a picture for its path: told", told == "reload refused: a medium has the path of a page that stands\n", told)
    found = [clients[2].ask(f"/page/drawn/{it}")[2] for it in ("a.png", "two.md")]
    scene.check("all is as before", b"A page" in found[0] and b"Two" in found[1], found)
    code = clients[2].ask("/page/drawn/a.png", "DELETE")[0]
    scene.check("the page goes", code in (200, 204), code)
    now("and a picture comes", lambda: None, done(3, 1, media=True), [404, b"three", b"three"])
    site.ends("media")


def refused():
    """What is refused leaves all as it was, and is told as `lint` tells it."""
    good = 'cache = 7\n' + row(TOKENS[0], ["red"]) + row(TOKENS[1], ["green"]) + PAGES
    site = Reloaded(good)
    line = good.split("\n").index('groups = ["green"]')
    page = good.split("\n").index('path = "blue.md"')
    put("twice/red.md", "Red")
    for name, text, said in (
        ("a bad key", good.replace('groups = ["green"]', 'groups = "green"', 1),
         f"reload refused: site.toml:{line - 1}: reader 2: `groups` must be an array of strings\nreload refused: config\n"),
        ("a bad name", good + row(TOKENS[2], name="Cleo"),
         f"reload refused: site.toml:{good.count(chr(10)) + 1}: reader 3: `name` must be 1 to 32 of a-z, 0-9, `-`, `_`, `.` and `@`\n"
         "reload refused: config: reader 3: `name` is bad\n"),
        ("a bad key, by name", good + row(TOKENS[2], name="cleo").replace("groups = []", "groups = 5"),
         f"reload refused: site.toml:{good.count(chr(10)) + 1}: reader 3 (cleo): `groups` must be an array of strings\nreload refused: config\n"),
        ("no document", good + "x =\n", None),
        ("one token twice", good.replace(TOKENS[1], TOKENS[0]), None),
        ("another setting", good.replace("cache = 7", "cache = 8"), "reload refused: needs a restart: `cache`\n"),
        ("a bad page", good.replace('path = "blue.md"', 'path = "/blue.md"'),
         f"reload refused: site.toml:{page}: page 3: `path` is no path of a page\nreload refused: config\n"),
        ("a page's file that isn't there", good + '[[page]]\npath = "more.md"\nfile = "more.md"\n', "reload refused: cannot read more.md\n"),
        ("a folder that isn't there", good + '[[folder]]\npath = "more"\n', None),
        ("a path twice", good + '[[folder]]\npath = "twice"\n', "reload refused: config: red.md twice\n"),
        ("a setting less", good.replace("cache = 7\n", ""), "reload refused: needs a restart: `cache`\n"),
        ("a setting more", "keep_alive = true\n" + good, "reload refused: needs a restart: `keep_alive`\n"),
        ("a table more", good + "[listen]\nidle_seconds = 9\n", "reload refused: needs a restart: `listen`\n"),
        ("other readers too", row(TOKENS[3]) + good.replace("cache = 7\n", ""), "reload refused: needs a restart: `cache`\n"),
    ):
        lines = said.count("\n") if said else 1 if "folder" in name else 2
        told = site.reload(text, lines)
        scene.check(f"{name}: told", told == said if said else told.startswith("reload refused: ") and told.count("\n") == lines, told)
        scene.check(f"{name}: all is as before", [site.code(it, "/page/green.md") for it in TOKENS[:4]] == [404, 200, 401, 401])
    os.remove("site.toml")
    told = site.reload()
    scene.check("no file: told", told == "reload refused: cannot read site.toml\n", told)
    scene.check("what is as it was", site.reload(good) == "reload: nothing has changed\n")
    scene.check("a comment", site.reload("# a comment\n" + good) == "reload: nothing has changed\n")
    scene.check("behind all that", site.reload(good + row(TOKENS[2])) == done(3) and site.code(TOKENS[2]) == 404)
    site.ends("refused")


def lines():
    """What is no such line is told, and does nothing; the end of standard input ends the server, whatever stands before it."""
    site = Reloaded(row(TOKENS[0]) + PAGES)
    for name, data, said in (
        ("another word", b"restart\n", "unknown line\n"), ("a word more", b"reload now\n", "unknown line\n"),
        ("a space", b" reload\n", "unknown line\n"), ("capitals", b"RELOAD\n", "unknown line\n"),
        ("no text", b"\xff\xfe\x00\n", "unknown line\n"), ("three lines", b"a\nb\nc\n", "unknown line\n" * 3),
        ("one among them", b"a\nreload\nb\n", "unknown line\nunknown line\nreload: nothing has changed\n"),
        ("twice", b"reload\nreload\n", "reload: nothing has changed\n"), ("no line feed", b"reload", "reload: nothing has changed\n"),
        ("half of it", b"relo", "unknown line\n"), ("a long line", b"x" * 4_000 + b"\n", "unknown line\n"),
    ):
        site.say(data)
        told = site.heard(said.count("\n"))
        scene.check(name, told == said, told)
    site.say(b"\n\n")
    time.sleep(0.2)
    scene.check("empty lines", site.heard(0) == "")
    site.say(b"y" * 60_000)
    scene.check("many bytes", site.reload().startswith("unknown line\n") and site.code(TOKENS[0]) == 404)
    site.say(b"reload\n")
    site.ends("lines")


def alike(tries=60):
    """Behind each change the replies of all readers are those of a server that is started anew."""
    chance = random.Random(59)
    site = Reloaded(PAGES)
    for count in range(tries):
        tokens = chance.sample(TOKENS, chance.randint(0, len(TOKENS)))
        rows = [row(it, chance.sample(GROUPS, chance.randint(0, 3)), chance.random() < 0.2, hashed=chance.random() < 0.5) for it in tokens]
        said = site.reload("".join(rows) + PAGES)
        if not scene.check(f"change {count}: told", said in (done(len(rows)), "reload: nothing has changed\n"), said):
            continue
        anew = scene.listen("site.toml")
        for it in TOKENS:
            scene.check(f"change {count}: {it}", answers(site.server.port, it) == answers(anew.port, it))
        anew.kill()
    site.ends("alike")


def with_edits():
    """Edits stand behind a reload, and behind the start that follows."""
    site = Reloaded(row(TOKENS[0], owner=True) + PAGES, journal="journal")
    site.told = len(site.server.said())
    ann = Client(site.server.port, TOKENS[0])
    scene.check("an edit", ann.ask("/page/new.md", "PUT", b"New", "")[0] in (200, 201))
    said = site.reload(row(TOKENS[0], owner=True) + row(TOKENS[1]) + PAGES)
    scene.check("told", said == done(2, record=1), said)
    ben = Client(site.server.port, TOKENS[1])
    scene.check("an edit of one who isn't an owner", ben.ask("/page/new.md", "PUT", b"Ben's")[0] == 403)
    scene.check("one more", ann.ask("/page/red.md", "DELETE")[0] in (200, 204))
    before = [answers(site.server.port, it) for it in TOKENS[:3]]
    site.ends("with edits")
    again = scene.listen("site.toml", journal="journal")
    scene.check("behind a start", [answers(again.port, it) for it in TOKENS[:3]] == before)
    scene.check("the end of that", again.end() == 0)


def log():
    """The log as JSON names readers as the last load has them."""
    site = Reloaded(row(TOKENS[0], name="ann") + row(TOKENS[1]) + PAGES, options=["--log=json"])
    seen = []

    def ask(token):
        site.code(token)
        until(lambda: site.server.said().count('"conn"') > len(seen), 5)
        seen.append(json.loads([it for it in site.server.said().split("\n") if '"conn"' in it][-1])["reader"])

    for it in TOKENS[:3]:
        ask(it)
    put("site.toml", row(TOKENS[2], name="cleo", hashed=True) + row(TOKENS[1], name="ben") + row(TOKENS[0]) + PAGES)
    site.say("reload\n")
    until(lambda: done(3) in site.server.said(), 5)
    for it in TOKENS[:4]:
        ask(it)
    scene.check("names", seen == ["ann", "reader-2", "-", "reader-3", "ben", "cleo", "-"], seen)
    scene.check("no token", not any(it in site.server.said() for it in TOKENS))
    site.ends("log")


def busy(times=200):
    """Nobody is held up by reloads, and whoever is in both tables is answered all the while."""
    texts = [row(TOKENS[0], ["red"]) + "".join(row(f"tok-{number}-{i}-77aa") for i in range(2_000)) + PAGES for number in (1, 2)]
    site = Reloaded(texts[0])
    slowest, wrong, stop = [0.0], [0], threading.Event()

    def read():
        client = Client(site.server.port, TOKENS[0])
        while not stop.is_set():
            begun = time.monotonic()
            wrong[0] += client.ask("/page/red.md")[0] != 200
            slowest[0] = max(slowest[0], time.monotonic() - begun)

    reader = threading.Thread(target=read)
    reader.start()
    made = sum(site.reload(texts[i % 2 - 1]) == done(2001) for i in range(times))
    stop.set()
    reader.join()
    scene.check("all are done", made == times, made)
    scene.check("a reader beside them is always answered", wrong[0] == 0, wrong[0])
    print(f"slowest reply beside {times} reloads of 2,001 readers: {slowest[0] * 1_000:.0f} ms")
    site.ends("busy")


def main():
    for it in (readers, pages, media, refused, lines, alike, with_edits, log, busy):
        it()


scene.run(main)
