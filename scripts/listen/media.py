"""Media of folders over sockets: each worked row of how they are served, to whom, and how links to them are shown; which images are told to
show nothing; what owners may do at their paths; that a restart over other files serves those; and bounds.

    python3 scripts/listen/media.py PROGRAM

Builds nothing. Needs python3. Ten seconds.
"""
import os, subprocess, sys
sys.path.insert(1, os.path.dirname(__file__) + "/../lib")
from scene import Client, Refused, Scene, put

scene = Scene(seconds=60)
PICTURE = b"\x89PNG\r\n\x1a\n"
DRAWING = b'<svg xmlns="http://www.w3.org/2000/svg"/>'
NOSNIFF = b"X-Content-Type-Options: nosniff"
BOXED = b"Content-Security-Policy: default-src 'none'; style-src 'unsafe-inline'; sandbox"
SAVED = b"Content-Disposition: attachment"
# of each extension its type, and the lines of its head beside nosniff, before it and behind it
KINDS = {
    "png": (b"image/png", [], []), "gif": (b"image/gif", [], []), "webp": (b"image/webp", [], []), "avif": (b"image/avif", [], []),
    "jpg": (b"image/jpeg", [], []), "jpeg": (b"image/jpeg", [], []), "ico": (b"image/vnd.microsoft.icon", [], []),
    "svg": (b"image/svg+xml", [BOXED], []), "pdf": (b"application/pdf", [], []), "txt": (b"text/plain; charset=utf-8", [], []),
    "csv": (b"text/csv; charset=utf-8", [], [SAVED]), "json": (b"application/json", [], [SAVED]), "zip": (b"application/zip", [], [SAVED]),
    "gz": (b"application/gzip", [], [SAVED]),
    "docx": (b"application/vnd.openxmlformats-officedocument.wordprocessingml.document", [], [SAVED]),
    "xlsx": (b"application/vnd.openxmlformats-officedocument.spreadsheetml.sheet", [], [SAVED]),
    "pptx": (b"application/vnd.openxmlformats-officedocument.presentationml.presentation", [], [SAVED])}
READERS = """[[reader]]
token = "owner"
owner = true
[[reader]]
token = "ann"
groups = ["staff"]
[[reader]]
token = "bob"
groups = ["ops"]
"""
FOLDER = '[[folder]]\npath = "docs"\nprefix = "guide"\ngroups = ["staff"]\nmedia = true\n'


def head(kind, length, *more):
    """The head of a medium of this type and length."""
    return b"\r\n".join((b"HTTP/1.1 200 OK", b"Content-Type: " + kind, b"Content-Length: %d" % length, *more))


def files():
    text = "# Start\n\n![p](pic.png) [s](doc/spec.PDF) [s](doc/spec.PDF#page=2) [z](z.zip)\n"
    for name, content in (("start.md", text), ("pic.png", PICTURE), ("doc/spec.PDF", b"%PDF"), ("a.svg", DRAWING), ("t.csv", "a,b\n"),
                          ("n.xyz", "x"), (".git/x.png", PICTURE)):
        put("docs/" + name, content)


def served(server):
    """What who may see a medium is answered."""
    ann = Client(server.port, "ann")
    wanted = head(b"image/png", 8, NOSNIFF)
    scene.check("a picture", ann.ask("/page/guide/pic.png") == (200, wanted, PICTURE))
    scene.check("its head", ann.ask("/page/guide/pic.png", "HEAD") == (200, wanted, b""))
    scene.check("a people's request", ann.ask("/page/guide/pic.png", fields="Accept: text/html\r\n") == (200, wanted, PICTURE))
    scene.check("a drawing", ann.ask("/page/guide/a.svg") == (200, head(b"image/svg+xml", 41, BOXED, NOSNIFF), DRAWING))
    page = ann.ask("/page/guide/start.md")[2]
    links = (b'<p><img src="pic.png" alt="p" /> <a href="/page/guide/doc/spec.PDF">s</a> <a href="/page/guide/doc/spec.PDF#page=2">s</a> '
             b'<a class="missing">z</a></p>\n')
    scene.check("links", page.endswith(links), page)
    scene.check("broken links", ann.ask("/broken")[2] == b"guide/start.md\t3\tpage\tguide/z.zip\n", ann.ask("/broken")[2])
    scene.check("contents", b"pic.png" not in ann.ask("/contents")[2])
    scene.check("backlinks of a medium", ann.ask("/backlinks/guide/pic.png")[0] == 404)
    scene.check("POST", ann.ask("/page/guide/pic.png", "POST")[0] == 405)
    table = ann.ask("/page/guide/t.csv", fields="Connection: close\r\n")
    wanted = head(b"text/csv; charset=utf-8", 4, NOSNIFF, SAVED, b"Connection: close")
    scene.check("a table, and the end", table == (200, wanted, b"a,b\n"), table)
    ann.close()


def hidden(server):
    """To whom they are hidden media are as none, whatever is asked."""
    bob = Client(server.port, "bob")
    for method, fields in (("GET", ""), ("HEAD", ""), ("GET", "Accept: text/html\r\n")):
        told = [bob.ask("/page/" + path, method, fields=fields) for path in ("guide/pic.png", "guide/none.png", "guide/n.xyz", ".git/x.png")]
        scene.check(f"{method} {fields}: hidden is absent", told[0][0] == 404 and all(each == told[0] for each in told), told)
    told = [bob.ask("/page/" + path, "PUT", b"x") for path in ("guide/pic.png", "guide/none.png")]
    scene.check("PUT by others", told[0][0] == 403 and told[0] == told[1], told)
    bob.close()


def owned(server):
    """What an owner may do at paths of media."""
    owner, refused = Client(server.port, "owner"), (405, b"HTTP/1.1 405 Method Not Allowed\r\nContent-Type: text/plain; charset=utf-8\r\n"
                                                    b"Content-Length: 23\r\nAllow: GET, HEAD", b"405 Method Not Allowed\n")
    for name, path, method, body in (("PUT on a medium", "guide/pic.png", "PUT", b"\xff"), ("DELETE of a medium", "guide/pic.png", "DELETE", b""),
                                     ("PUT of a medium's name", "guide/new.SVG", "PUT", b"x")):
        scene.check(name, owner.ask("/page/" + path, method, body) == refused, owner.ask("/page/" + path, method, body))
    scene.check("DELETE of none", owner.ask("/page/guide/new.png", "DELETE")[0] == 404)
    owner.close()


def kinds():
    """Each kind has its type and its lines."""
    for name in KINDS:
        put(f"kinds/a.{name.upper()}", name)
    put("site.toml", READERS + '[[folder]]\npath = "kinds"\nmedia = true\n')
    server = scene.listen("site.toml")
    owner = Client(server.port, "owner")
    for name, (kind, before, behind) in KINDS.items():
        told = owner.ask(f"/page/a.{name.upper()}")
        scene.check(name, told == (200, head(kind, len(name), *before, NOSNIFF, *behind), name.encode()), told)
    owner.close()
    scene.ends(server, "kinds")


def guests():
    """To guests a medium has the lines that keep shared caches from it."""
    put("site.toml", '[browse]\nguest = ["staff"]\nlogin = "basic"\n' + READERS + FOLDER)
    server = scene.listen("site.toml")
    guest = Client(server.port)
    guest.socket.sendall(b"GET /page/guide/pic.png HTTP/1.1\r\nHost: docs\r\n\r\n")
    wanted = head(b"image/png", 8, NOSNIFF, b"Cache-Control: private, no-cache", b"Vary: Accept, Authorization")
    told = guest.reply()
    scene.check("to a guest", told == (200, wanted, PICTURE), told)
    guest.close()
    scene.ends(server, "guests")


def bounds():
    """A picture of 8 MiB is served, and one byte more stops the start; the folder's own bound too; and no source gives a path twice."""
    put("site.toml", READERS + '[[folder]]\npath = "large"\nmedia = ["png"]\n')
    put("large/a.png", b"x" * 8_388_608)
    server = scene.listen("site.toml")
    owner = Client(server.port, "owner")
    code, _, body = owner.ask("/page/a.png")
    scene.check("8 MiB", code == 200 and len(body) == 8_388_608)
    owner.close()
    scene.ends(server, "large")
    put("large/a.png", b"x" * 8_388_609)
    stops("a byte more", "docs_server: cannot read large/a.png: more than 8388608 bytes\n")
    put("one/a.png", b"1")
    put("two/a.png", b"2")
    put("site.toml", READERS + '[[folder]]\npath = "one"\nmedia = true\n[[folder]]\npath = "two"\nmedia = true\n')
    stops("two of one path", "docs_server: config: a.png twice\n")


def images():
    """Images that show nothing are told behind the links of their page, where they are asked for and the site has media."""
    put("told/start.md", "![a](x.png) ![b ![c](y.png)](z.png)\n\n| ![d](%ff) | [![e](start.md)](u) |\n| - | - |\n")
    put("told/x.png", PICTURE)
    link = b"guide/start.md\t1\tpage\tguide/u\n"
    rows = b"".join(b"guide/start.md\t%d\timage\t%s\n" % row for row in ((2, b"guide/z.png"), (3, b"-"), (4, b"guide/start.md")))
    folder = '[[folder]]\npath = "told"\nprefix = "guide"\ngroups = ["staff"]\n'
    for name, told, keys, media in (("images", link + rows, "check_images = true\n", "media = true\n"), ("no image", link, "", "media = true\n"),
                                    ("no media", link, "check_images = true\n", "")):
        put("site.toml", f"[browse]\n[markdown]\ntables = true\n{keys}{READERS}{folder}{media}")
        server = scene.listen("site.toml")
        ann, bob = Client(server.port, "ann"), Client(server.port, "bob")
        scene.check(f"{name} told", ann.ask("/broken")[2] == told, ann.ask("/broken"))
        scene.check(f"{name} told to none", bob.ask("/broken")[2] == b"", bob.ask("/broken"))
        shown = ann.ask("/broken", fields="Accept: text/html\r\n")[2]
        scene.check(f"{name} shown", shown.count(b"no such picture") == told.count(b"image") and shown.count(b"no such page") == 1, shown)
        ann.close()
        bob.close()
        scene.ends(server, name)


def stops(name, said):
    try:
        server = scene.listen("site.toml")
        server.kill()
        scene.check(name, False, "it listens")
    except Refused as refused:
        scene.check(name, refused.said == said, refused.said)


def journal():
    """A journal of an earlier start that puts a page where a medium stands now is refused by its record's number."""
    put("site.toml", READERS)
    server = scene.listen("site.toml", journal="journal")
    owner = Client(server.port, "owner")
    scene.check("a page of that name", owner.ask("/page/guide/pic.png", "PUT", b"x")[0] == 201)
    owner.close()
    server.end()
    put("site.toml", READERS + FOLDER)
    done = subprocess.run([scene.program, "listen", "site.toml", "127.0.0.1:0", "--journal", "journal"], stdin=subprocess.DEVNULL,
                          stderr=subprocess.PIPE, stdout=subprocess.DEVNULL, timeout=20)
    scene.check("its record is refused", done.returncode != 0 and b"journal record 1" in done.stderr and b"refused" in done.stderr, done.stderr)


def cases():
    files()
    put("site.toml", READERS + FOLDER)
    server = scene.listen("site.toml")
    for each in (served, hidden, owned):
        each(server)
    scene.ends(server, "media")
    kinds()
    guests()
    images()
    bounds()
    journal()


scene.run(cases)
