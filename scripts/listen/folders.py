"""A site whose pages are files of a folder (`[[folder]]`, which `listen`, `compact` and `folders` alone read): which files are pages and
who sees them, that an edit in the journal wins over the file at the next start and a file without an edit is read anew, that a removal
stays where its file is gone, which folders are passed over, names in normalization form C, READMEs as indexes, and which files, paths and
bounds are refused, by name and with their reason, or passed over.

    python3 scripts/listen/folders.py PROGRAM

Builds nothing. Needs python3. Some seconds.
"""
import os, shutil, subprocess, sys, urllib.parse
sys.path.insert(1, os.path.dirname(__file__) + "/../lib")
from scene import Client, Refused, Scene, page_of, put

scene = Scene(seconds=120)
READERS = ('[[reader]]\ntoken = "owner"\nowner = true\n[[reader]]\ntoken = "ann"\ngroups = ["staff"]\n'
           '[[reader]]\ntoken = "bob"\ngroups = ["ops"]\n')
FOLDER = '[[folder]]\npath = "{}"\nprefix = "handbook"\ngroups = ["staff"]\n'


def config(text):
    put("site.toml", READERS + text)


def refused(name, *parts, journal=None):
    """It ends with status 2 and a line in which each of these stands; above it are the faults of a document that is refused."""
    try:
        server = scene.listen("site.toml", journal=journal)
    except Refused as found:
        *above, line = found.said.splitlines() or [""]
        is_of_document = line.startswith("docs_server: config") and not line.endswith(" twice")
        said = line.startswith("docs_server: ") and found.said.endswith("\n") and all(part in line + "\n" for part in parts)
        told = bool(above) == is_of_document and all(it.startswith("site.toml:") for it in above)
        return scene.check(name, found.status == 2 and said and told, found)
    server.kill()
    return scene.check(name, False, "it isn't refused")


def shown(server, wanted, hidden=()):
    """Each page to the owner and Ann, and none to Bob; all others to nobody."""
    for token in ("owner", "ann", "bob"):
        client = Client(server.port, token)
        for path, line in wanted.items():
            found = client.ask("/page/" + urllib.parse.quote(path))
            expected = (404, b"404 Not Found\n") if token == "bob" else (200, page_of(path, line) if line else found[2])
            scene.check(f"{path} to {token}", found[::2] == expected, found)
        for path in hidden:
            scene.check(f"no {path} to {token}", client.ask("/page/" + urllib.parse.quote(path))[0] == 404)
        client.close()


# ---- which files are pages

PAGES = {"handbook/a.md": "First.", "handbook/b/c.md": "Second.", "handbook/b/d/e/f.md": "Third.",
         "handbook/two words \u00f6.md": "Fourth.", "handbook/none.md": "", "handbook/b-c.md": "Sixth."}
NO_PAGES = (".hidden.md", ".git/x.md", "notes.txt", "a.MD", "md")


def files():
    """The pages in the folder `docs`, and what is none."""
    for path, line in PAGES.items():
        put(path.replace("handbook", "docs", 1), line and line + "\n")
    for name in NO_PAGES:
        put("docs/" + name, "No page.\n")
    os.symlink("a.md", "docs/link.md")
    os.symlink("b", "docs/folder")
    os.mkdir("docs/g.md")


def pages():
    config(FOLDER.format("docs"))
    server = scene.listen("site.toml", journal="journal")
    shown(server, PAGES, ["a.md"] + ["handbook/" + name for name in (*NO_PAGES, "link.md", "folder/c.md", "g.md")])
    client = Client(server.port, "owner")
    contents = client.ask("/contents")[2].decode()
    places = [contents.find(f">{path}</a>") for path in sorted(PAGES, key=str.encode)]
    scene.check("the contents have each, in the order of the paths", -1 not in places and places == sorted(places), contents)
    scene.check("an edit", client.ask("/page/handbook/a.md?groups=staff", "PUT", b"Edited.")[0] == 204)
    scene.check("a removal", client.ask("/page/handbook/b/c.md", "DELETE")[0] == 204)
    scene.ends(server, "pages")


def next_start():
    """Edits win over the files, and a file without one is read anew."""
    put("docs/a.md", "A file that has changed.\n")
    put("docs/b-c.md", "Another one.\n")
    put("docs/new.md", "New.\n")
    wanted = {**PAGES, "handbook/a.md": "Edited.", "handbook/b-c.md": "Another one.", "handbook/new.md": "New."}
    del wanted["handbook/b/c.md"]
    server = scene.listen("site.toml", journal="journal")
    shown(server, wanted, ["handbook/b/c.md"])
    scene.ends(server, "the next start")
    os.remove("docs/b/c.md")
    server = scene.listen("site.toml", journal="journal")
    shown(server, wanted, ["handbook/b/c.md"])
    scene.ends(server, "a removed page that isn't in the folder any more")


def bare():
    """A folder without a prefix and without groups, beside a page."""
    config('[[page]]\npath = "x.md"\ntext = "X"\n[[folder]]\npath = "docs"\n')
    server = scene.listen("site.toml")
    client = Client(server.port, "owner")
    scene.check("no prefix", client.ask("/page/new.md")[2] == page_of("new.md", "New.") and client.ask("/page/x.md")[0] == 200)
    scene.check("no groups", Client(server.port, "ann").ask("/page/new.md")[0] == 404)
    scene.ends(server, "no prefix")


# ---- folders that are passed over, and paths that two sources give

def excepted():
    """A folder in a folder, with groups of its own; its neighbours by name stay."""
    put("docs/b/c.md", "Second.\n")
    config(FOLDER.format("docs") + 'except = ["b/d", ".git"]\n[[folder]]\npath = "docs/b/d"\nprefix = "handbook/b/d"\ngroups = ["ops"]\n')
    server = scene.listen("site.toml")
    for token, path, status in (("ann", "b/c.md", 200), ("ann", "b-c.md", 200), ("ann", "b/d/e/f.md", 404), ("bob", "b/d/e/f.md", 200),
                                ("bob", "b/c.md", 404)):
        found = Client(server.port, token).ask("/page/handbook/" + path)[0]
        scene.check(f"{path} to {token}", found == status, found)
    scene.ends(server, "an excepted folder")
    for name, value in (("a string", '"b"'), ("a slash at the end", '["b/"]'), ("a way up", '["b/../b"]'), ("an empty name", '[""]'),
                        ("a number", "[1]")):
        config(FOLDER.format("docs") + f"except = {value}\n")
        refused(f"except: {name}", "config: folder 1: `except` is bad\n")
    for name in ("absent", "a.md", "folder", "folder/d", "b/c.md"):
        config(FOLDER.format("docs") + f'except = ["b", "{name}"]\n')
        refused(f"except: {name}", f"cannot read docs/{name}\n")


def twice():
    """The first path in the order of the rows is told; rows alone may share one."""
    for name in ("one/a.md", "one/b.md", "two/c.md", "two/a.md"):
        put(name, "X\n")
    row, folder = '[[page]]\npath = "{}"\ntext = "X"\n', '[[folder]]\npath = "{}"\n'
    rows = row.format("x.md") + row.format("b.md") + row.format("a.md")
    for name, text, path in (("a row and a folder", rows + folder.format("one"), "b.md"),
                             ("a row behind its folder", folder.format("two") + row.format("c.md"), "c.md"),
                             ("two folders", folder.format("two") + folder.format("one"), "a.md"),
                             ("a folder twice", folder.format("one") * 2, "a.md")):
        config(text)
        refused(name, f"config: {path} twice\n")
    config(rows + row.format("a.md") + folder.format("one") + 'prefix = "one"\n')
    scene.ends(scene.listen("site.toml"), "rows alone")


# ---- what is refused, and where it isn't read

LONG = "more than 1048576 bytes"
CHARACTER = "a path has no \\, %, ? or #"
# files of a folder, each with the name that is told and the reason
BAD = (("long.md", b"a" * 1_048_577, "long.md", LONG), ("latin.md", b"\xff\n", "latin.md", "not UTF-8"),
       ("a%b.md", b"x\n", "a%b.md", CHARACTER), ("FAQ?.md", b"x\n", "FAQ?.md", CHARACTER), ("a#b.md", b"x\n", "a#b.md", CHARACTER),
       ("a\\b.md", b"x\n", "a\\b.md", CHARACTER), ("?\n.md", b"\xff", "?%0A.md", CHARACTER),
       ("a\tb.md", b"x\n", "a%09b.md", "a path has no control character"),
       ("\x7f.md", b"x\n", "%7F.md", "a path has no control character"),
       ("a\u0085b\u00fc.md", b"x\n", "a%C2%85b\u00fc.md", "a path has no control character"),
       ("p/" * 15 + "a.md", b"x\n", "p/" * 15 + "a.md", "a path has at most 16 parts"),
       ("n" * 189 + ".md", b"x\n", "n" * 189 + ".md", "a path has at most 200 bytes"))
# the longest of each
GOOD = (("long.md", b"a" * 1_048_576), ("p/" * 14 + "a.md", b"x\n"), ("n" * 188 + ".md", b"x\n"), ("\u00a0.md", b"x\n"))


def told(name, lines, status=None):
    """What `folders` prints, and its status: 1 where a file is bad."""
    done = subprocess.run([scene.program, "folders", "site.toml"], capture_output=True, timeout=60)
    wanted = (int(len(lines) > 1) if status is None else status, "".join(line + "\n" for line in lines).encode(), b"")
    scene.check(f"folders: {name}", (done.returncode, done.stdout, done.stderr) == wanted, done)


def passes(name, lines):
    """It starts, and these files are passed over. Answers the server."""
    server = scene.listen("site.toml")
    said = server.said()
    scene.check(name, said == "".join(f"docs_server: passed over {line}\n" for line in lines), said)
    return server


def bad_files():
    shutil.rmtree("all", ignore_errors=True)
    for file, content, name, reason in BAD:
        shutil.rmtree("bad", ignore_errors=True)
        put("bad/c.md", "Good.\n")
        for folder in ("bad", "all"):
            put(f"{folder}/{file}", content)
        config(FOLDER.format("bad"))
        refused(name, f"docs_server: cannot read bad/{name}: {reason}\n")
        told(name, [f"bad/{name}: {reason}", "1 pages, 0 media, 1 bad"])
    for file, content in GOOD:
        shutil.rmtree("bad", ignore_errors=True)
        put("bad/" + file, content)
        config(FOLDER.format("bad"))
        told(file, ["1 pages, 0 media, 0 bad"])
    lines = [f"all/{name}: {reason}" for file, _, name, reason in sorted(BAD, key=lambda row: row[0].encode())]
    put("all/c.md", "Good.\n")
    config(FOLDER.format("all"))
    refused("the first in the order of names", f"docs_server: cannot read {lines[0]}\n")
    told("all bad files", lines + [f"1 pages, 0 media, {len(lines)} bad"])
    config(FOLDER.format("all") + 'on_bad = "skip"\n')
    server = passes("bad files are passed over", lines)
    shown(server, {"handbook/c.md": "Good."}, ["handbook/latin.md", "handbook/long.md"])
    scene.check("it ends", server.end() == 0)
    told("all bad files, passed over", lines + [f"1 pages, 0 media, {len(lines)} bad"])


def bad_folders():
    """The first folder that doesn't pass over a bad file stops the start."""
    put("latin/x.md", b"\xff")
    config(FOLDER.format("all") + 'on_bad = "skip"\n' + '[[folder]]\npath = "latin"\n')
    refused("a folder behind one that passes over", "docs_server: cannot read latin/x.md: not UTF-8\n")
    if os.geteuid():
        os.chmod("latin/x.md", 0)
        refused("a file that may not be read", "docs_server: cannot read latin/x.md: permission denied\n")
    config(FOLDER.format("absent"))
    refused("no such folder", "cannot read absent")
    config(FOLDER.format("docs/a.md"))
    refused("a folder that is a file", "cannot read docs/a.md")


def most_pages():
    """10,000 pages, and one more; a path that comes again in the rows is one page."""
    for number in range(10_000):
        put(f"many/{number:05}.md", "x\n")
    config('[[folder]]\npath = "many"\n')
    told("10,000 pages", ["10000 pages, 0 media, 0 bad"])
    config('[[page]]\npath = "a.md"\ntext = "A"\n' * 2 + '[[folder]]\npath = "many"\n')
    refused("10,001 pages", "docs_server: cannot read many/09999.md: more than 10000 pages\n")
    told("10,001 pages", ["many/09999.md: more than 10000 pages", "9999 pages, 0 media, 1 bad"])
    shutil.rmtree("many")


def normal_names():
    """Names in normalization form C, and two files that would have one path."""
    apart, whole = "u\u0308.md", "\u00fc.md"
    put("names/" + apart, "Apart.\n")
    config('[[folder]]\npath = "names"\ngroups = ["staff"]\nnames = "nfc"\n')
    server = scene.listen("site.toml")
    shown(server, {whole: "Apart."}, [apart])
    scene.ends(server, "a name that is normalised")
    put("names/" + whole, "Whole.\n")
    line = f"names/{whole}: its path is that of names/{apart}"
    refused("two names of one path", f"docs_server: cannot read {line}\n")
    told("two names of one path", [line, "1 pages, 0 media, 1 bad"])
    put("names/" + apart, b"\xff")
    told("the first of two is bad", [f"names/{apart}: not UTF-8", "1 pages, 0 media, 1 bad"])
    put("names/" + apart, "Apart.\n")
    config('[[folder]]\npath = "names"\ngroups = ["staff"]\n')
    server = scene.listen("site.toml")
    shown(server, {whole: "Whole.", apart: "Apart."})
    scene.ends(server, "names as the system gives them")


def readmes():
    """A README becomes the index of its folder where there is none, and stays an alias; `compact` writes nothing of it."""
    for name, text in (("README.md", "[g](guide/) [a](guide/README.md)\n"), ("guide/README.md", "Guide.\n"), ("x/README.md", "Readme.\n"),
                       ("x/index.md", "Index.\n"), ("y/readme.md", "Other case.\n")):
        put("readme/" + name, text)
    config('[[folder]]\npath = "readme"\nreadme = true\n')
    server = scene.listen("site.toml", journal="readme.journal")
    client = Client(server.port, "owner")
    both = b'<a href="/page/guide/index.md">'
    scene.check("links lead to the index", client.ask("/page/index.md")[2].count(both) == 2)
    scene.check("a folder's address", b"Guide." in client.ask("/page/guide/")[2])
    code, head, _ = client.ask("/page/guide/README.md")
    scene.check("the README leads there", code == 301 and b"/page/guide/index.md" in head, head)
    for path, status in (("x/README.md", 200), ("x/index.md", 200), ("y/readme.md", 200), ("y/index.md", 404)):
        scene.check(path, client.ask("/page/" + path)[0] == status)
    client.close()
    scene.ends(server, "readmes")
    config('[[folder]]\npath = "readme"\n')
    server = scene.listen("site.toml")
    scene.check("without the key", Client(server.port, "owner").ask("/page/guide/README.md")[0] == 200)
    scene.ends(server, "without the key")


def media():
    """Media and their bounds, by `folders` alone."""
    for name, count in (("a.png", 60), ("b.png", 60), ("c.png", 40), ("n.xyz", 1), (".x/d.png", 1), ("e/F.JPG", 1), ("e/.png", 1)):
        put("media/" + name, b"x" * count)
    folder = '[[folder]]\npath = "media"\n'
    config(folder)
    told("no media", ["0 pages, 0 media, 0 bad"])
    config(folder + "media = true\n")
    told("all media", ["0 pages, 4 media, 0 bad"])
    config(folder + 'media = ["jpg", "gif", "jpg"]\n')
    told("some media", ["0 pages, 1 media, 0 bad"])
    config(folder + "media = true\n[listen]\nmedia_bytes = 100\n")
    # those that come first stand: 60 bytes, and 40 behind the 60 that are too many; then one is
    lines = [f"media/{name}: media of more than 100 bytes together" for name in ("b.png", "e/F.JPG")]
    told("too many bytes together", [*lines, "0 pages, 2 media, 2 bad"])
    refused("too many bytes together", f"docs_server: cannot read {lines[0]}\n")
    put("media/a%b.png", b"x")
    put("media/long.pdf", b"x" * 8_388_609)
    config(folder + 'media = ["pdf", "png"]\n')
    told("bad media", [f"media/a%b.png: {CHARACTER}", "media/long.pdf: more than 8388608 bytes", "0 pages, 3 media, 2 bad"])
    put("media/long.pdf", b"x" * 8_388_608)
    told("the longest", [f"media/a%b.png: {CHARACTER}", "0 pages, 4 media, 1 bad"])
    os.remove("media/a%b.png")
    config('[[page]]\npath = "c.png"\ntext = "C"\n' + folder + "media = true\n")
    refused("a row's path", "config: c.png twice\n")


def bad_tables():
    for name, text in (("an unknown key", '[[folder]]\npath = "docs"\nfile = "x"\n'),
                       ("no path", "[[folder]]\n"),
                       ("a bad prefix", '[[folder]]\npath = "docs"\nprefix = "a//b"\n'),
                       ("a bad group", '[[folder]]\npath = "docs"\ngroups = ["A"]\n'),
                       ("no array of extensions", '[[folder]]\npath = "docs"\nmedia = false\nnames = 1\n'),
                       ("no extension", '[[folder]]\npath = "docs"\nmedia = ["png", "PNG"]\n'),
                       ("no extensions", '[[folder]]\npath = "docs"\nmedia = []\n'),
                       ("no bytes", "[listen]\nmedia_bytes = 0\n"), ("too many bytes", "[listen]\nmedia_bytes = 1073741825\n"),
                       ("bad names", '[[folder]]\npath = "docs"\nnames = "NFC"\nreadme = 1\n'),
                       ("a bad readme", '[[folder]]\npath = "docs"\nreadme = "x"\non_bad = 1\n'),
                       ("a bad on_bad", '[[folder]]\npath = "docs"\non_bad = "go"\n'),
                       ("no connections", "[listen]\nconnections = 0\n"),
                       ("no seconds", "[listen]\nidle_seconds = 0\n"),
                       ("an unknown bound", "[listen]\nseconds = 1\n")):
        config(text)
        refused(name, "config")
        checked = subprocess.run([scene.program, "check", "site.toml", "owner"], capture_output=True, timeout=20)
        scene.check(f"{name}: check doesn't read it", (checked.returncode, checked.stdout, checked.stderr) == (0, b"", b""), checked)


def main():
    files()
    pages()
    next_start()
    bare()
    excepted()
    twice()
    bad_files()
    bad_folders()
    most_pages()
    normal_names()
    readmes()
    media()
    bad_tables()


scene.run(main)
