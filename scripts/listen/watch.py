"""`listen --watch SECONDS`: a change of any file of the configuration is served without a word, nothing is told where nothing has changed, and
why one isn't served is told once. Beside it: a follower that looks, and how long others wait while 9,990 files are looked at.

    python3 scripts/listen/watch.py PROGRAM

Builds nothing. Needs python3. About a minute and a half.
"""
import os, subprocess, sys, time
sys.path.insert(1, os.path.dirname(__file__) + "/../lib")
from scene import Client, Scene, put, until

scene = Scene(seconds=400)
READERS = '[[reader]]\ntoken = "tok-ann"\nowner = true\n\n'
ROWS = '[[page]]\npath = "row.md"\nfile = "row.txt"\n\n[[folder]]\npath = "docs"\nprefix = "docs"\n'
SECONDS = 3.5  # in which a change is seen, where there is a look in each


def begin(options=("--watch", "1"), **given):
    put("row.txt", "Row 0\n")
    put("docs/a.md", "Text 0\n")
    put("docs/deep/b.md", "Deep 0\n")
    put("site.toml", READERS + ROWS)
    return scene.listen("site.toml", options=options, **given)


def page(server, path, token="tok-ann"):
    client = Client(server.port, token)
    code, _, body = client.ask(f"/page/{path}")
    client.close()
    return body.decode() if code == 200 else code


def comes(server, name, path, text, token="tok-ann", seconds=SECONDS):
    """A case: a page comes to have a text, or its reply a code."""
    found = [None]

    def holds():
        found[0] = page(server, path, token)
        return text in found[0] if isinstance(text, str) and isinstance(found[0], str) else found[0] == text
    return scene.check(name, until(holds, seconds, pause=0.1), found[0])


def told_since(server, told):
    return server.said()[told:].splitlines()


def changes():
    """Files that change, come and go."""
    server = begin()
    time.sleep(3)
    scene.check("nothing is told where nothing has changed", server.said() == "", server.said())
    put("docs/a.md", "Text 1\n")
    comes(server, "a page of a folder", "docs/a.md", "Text 1")
    scene.check("it is told", server.said() == "reload: 1 readers, 1 pages put, 0 removed (record 0)\n", server.said())
    told = len(server.said())
    put("docs/deep/new/c.md", "New\n")
    comes(server, "a new page in a new folder", "docs/deep/new/c.md", "New")
    os.remove("docs/deep/b.md")
    comes(server, "a page that goes", "docs/deep/b.md", 404)
    os.rename("docs/a.md", "docs/z.md")
    comes(server, "a page of another name", "docs/z.md", "Text 1")
    comes(server, "and the old name", "docs/a.md", 404)
    put("row.txt", "Row 1\n")
    comes(server, "the file of a row", "row.md", "Row 1")
    put("new.txt", "Other\n")
    os.replace("new.txt", "row.txt")
    comes(server, "another file under its name", "row.md", "Other")
    put("site.toml", READERS + '[[reader]]\ntoken = "tok-ben"\ngroups = ["ops"]\n\n' + ROWS)
    comes(server, "a new reader", "row.md", 404, token="tok-ben")
    stat = os.stat("docs/z.md")
    put("docs/z.md", "Text 2\n")
    os.utime("docs/z.md", ns=(stat.st_atime_ns, stat.st_mtime_ns))
    comes(server, "a page whose time is set back", "docs/z.md", "Text 2")
    lines = told_since(server, told)
    scene.check("each is told once", len(lines) == 7 and all(line.startswith("reload: ") for line in lines), lines)
    told = len(server.said())
    time.sleep(SECONDS)
    scene.check("and then nothing", server.said()[told:] == "", server.said()[told:])
    server.process.stdin.write(b"reload\n")
    server.process.stdin.flush()
    scene.check("who asks is answered", until(lambda: server.said()[told:] == "reload: nothing has changed\n", 5), server.said()[told:])
    scene.check("the end", server.end() == 0)


def links():
    """A folder that is named by a link, which is switched."""
    for release in ("one", "two"):
        put(f"releases/{release}/p.md", f"Release {release}\n")
    os.symlink("releases/one", "current")
    put("link.toml", READERS + '[[folder]]\npath = "current"\nprefix = "docs"\n')
    server = scene.listen("link.toml", options=("--watch", "1"))
    comes(server, "the first release", "docs/p.md", "Release one")
    time.sleep(3)
    for release in ("two", "one"):
        os.symlink(f"releases/{release}", "next")
        os.replace("next", "current")
        comes(server, f"release {release}", "docs/p.md", f"Release {release}")
    put("releases/one/p.md", "Release one, mended\n")
    comes(server, "a page behind the link", "docs/p.md", "mended")
    scene.check("the end", server.end() == 0 and server.said().count("\n") == 3, server.said())


def refusals():
    """What isn't served is told once, and all stays; what mends it is served."""
    server = begin()
    time.sleep(2)
    stands = [page(server, "docs/a.md"), page(server, "row.md")]

    def refused(name, lines, change):
        told = len(server.said())
        change()
        scene.check(f"{name}: told", until(lambda: told_since(server, told) == lines, SECONDS), told_since(server, told))
        time.sleep(SECONDS)
        scene.check(f"{name}: once", told_since(server, told) == lines, told_since(server, told))
        scene.check(f"{name}: all stays", [page(server, "docs/a.md"), page(server, "row.md")] == stands)

    def mended(name, change, path, text):
        change()
        comes(server, f"{name} is mended", path, text)
        stands[:] = page(server, "docs/a.md"), page(server, "row.md")

    bad = READERS.replace("owner = true", "owner = 1")
    refused("a fault", ["reload refused: site.toml:1: reader 1: `owner` must be a boolean", "reload refused: config"],
            lambda: put("site.toml", bad + ROWS))
    told = len(server.said())
    server.process.stdin.write(b"reload\n")
    server.process.stdin.flush()
    scene.check("who asks is told again", until(lambda: server.said()[told:].count("\n") == 2, 5), server.said()[told:])
    refused("another fault", ["reload refused: site.toml:1: reader 1: `token` must be a string",
                              "reload refused: site.toml:1: reader 1: `owner` must be a boolean", "reload refused: config"],
            lambda: put("site.toml", bad.replace('"tok-ann"', "5") + ROWS))
    put("docs/a.md", "Text 1\n")
    mended("the configuration", lambda: put("site.toml", READERS + ROWS), "docs/a.md", "Text 1")
    refused("a key that needs a restart", ["reload refused: needs a restart: `keep_alive`"],
            lambda: put("site.toml", "keep_alive = false\n" + READERS + ROWS))
    put("docs/a.md", "Text 2\n")
    mended("that key", lambda: put("site.toml", READERS + ROWS), "docs/a.md", "Text 2")
    refused("a bad file", ["reload refused: cannot read docs/bad.md: not UTF-8"], lambda: put("docs/bad.md", b"\xff\n"))
    mended("it", lambda: put("docs/bad.md", "Good\n"), "docs/bad.md", "Good")
    refused("a file of a row that is gone", ["reload refused: cannot read row.txt"], lambda: os.remove("row.txt"))
    mended("that", lambda: put("row.txt", "Row 2\n"), "row.md", "Row 2")
    refused("a path twice", ["reload refused: config: docs/a.md twice"],
            lambda: put("site.toml", READERS + ROWS + '\n[[page]]\npath = "docs/a.md"\ntext = "x"\n'))
    mended("the path", lambda: put("site.toml", READERS + ROWS + '\n[[page]]\npath = "docs/x.md"\ntext = "x"\n'), "docs/x.md", "x")
    scene.check("the end", server.end() == 0)


def options():
    """Nobody looks where nothing asks for that; what is no number of seconds is refused."""
    server = begin(options=())
    put("docs/a.md", "Text 1\n")
    time.sleep(3)
    scene.check("without --watch all stays", "Text 0" in page(server, "docs/a.md"))
    scene.check("the end", server.end() == 0 and server.said() == "", server.said())
    server = begin(options=("--watch", "3600"))
    put("docs/a.md", "Text 1\n")
    time.sleep(3)
    scene.check("within an hour", "Text 0" in page(server, "docs/a.md"))
    begun = time.monotonic()
    scene.check("the end between looks", server.end() == 0 and time.monotonic() - begun < 2)
    for words in (["--watch"], ["--watch", "0"], ["--watch", "3601"], ["--watch", "1s"], ["--watch", "-1"]):
        ran = subprocess.run([scene.program, "listen", "site.toml", "127.0.0.1:0", *words], capture_output=True, text=True, timeout=20)
        scene.check(f"{words}", (ran.returncode, ran.stdout, ran.stderr) == (2, "", "docs_server: --watch needs seconds: 1 to 3600\ndocs_server: usage\n"), ran)


def follower():
    """A follower looks too, and follows on; its files are those of its own configuration."""
    writer = begin(options=("--watch", "1"), journal="journal")
    follower = scene.listen("site.toml", options=("--follow", "journal", "--watch", "1"))
    time.sleep(3)
    scene.check("nothing is told", follower.said() == "", follower.said())
    client = Client(writer.port, "tok-ann")
    scene.check("an edit", client.ask("/page/edited.md", "PUT", b"Edited\n")[0] == 201)
    comes(follower, "the edit is followed", "edited.md", "Edited")
    put("docs/a.md", "Text 1\n")
    comes(writer, "a change, at the writer", "docs/a.md", "Text 1")
    comes(follower, "and at the follower", "docs/a.md", "Text 1")
    comes(follower, "the edit stands", "edited.md", "Edited")
    scene.check("another edit", client.ask("/page/edited.md", "PUT", b"Edited again\n")[0] == 204)
    comes(follower, "is followed", "edited.md", "Edited again")
    told = len(follower.said())
    time.sleep(SECONDS)
    scene.check("and nothing is told", follower.said()[told:] == "" and follower.said().count("\n") == 1, follower.said())
    client.close()
    scene.check("the end of the writer", writer.end() == 0)
    told, before = len(follower.said()), sum(follower.used())
    os.rename("journal", "elsewhere")
    put("docs/a.md", "Text 2\n")
    time.sleep(2 * SECONDS)
    scene.check("without its journal: told once", follower.said()[told:] == "reload refused: cannot read journal\n", follower.said()[told:])
    scene.check("and not tried all the time", sum(follower.used()) - before < 2_000_000, sum(follower.used()) - before)
    scene.check("all stays", "Text 1" in page(follower, "docs/a.md"))
    os.rename("elsewhere", "journal")
    comes(follower, "once it is back", "docs/a.md", "Text 2")
    comes(follower, "with the edits", "edited.md", "Edited again")
    scene.check("the end", follower.end() == 0)


def many():
    """How long others wait while many files are looked at."""
    for number in range(9_990):
        put(f"docs/p{number % 100}/q{number}.md", f"# Page {number}\n\nText.\n")
    server = begin()
    until(lambda: False, 6)
    client, waits, codes = Client(server.port, "tok-ann"), [], set()
    end = time.monotonic() + 10
    while time.monotonic() < end:
        begun = time.monotonic()
        codes.add(client.ask("/page/docs/a.md")[0])
        waits.append(time.monotonic() - begun)
    client.close()
    before = sum(server.used())
    time.sleep(5)
    spent = (sum(server.used()) - before) / 5_000_000
    print(f"{len(waits)} replies beside looks at 9,992 files, the longest {max(waits) * 1_000:.1f} ms; {spent * 100:.1f} % of a core while nobody asks")
    scene.check("replies", codes == {200}, codes)
    scene.check("no reply waits for more than 50 ms", max(waits) < 0.05, max(waits))
    scene.check("nothing is told", server.said() == "", server.said())
    scene.check("the end", server.end() == 0)


def main():
    changes()
    links()
    refusals()
    options()
    follower()
    many()


scene.run(main)
