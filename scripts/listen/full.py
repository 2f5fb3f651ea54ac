"""Runs `listen --journal` on a disk of 64 MB that another file fills, an ext4 on a loop device where the machine lets one be made by mount,
else a tmpfs; it says which. While clients put, read and delete, each reply is 2xx, 404 where no page stands, or to a PUT 507 with
`no edit is left`, and none is lost. While it is full readers are served, by a restart too, and every page can be deleted, each 204.
Once the other file goes, a PUT is 2xx within 10 seconds, without a restart. Both are told on standard error.

Then kills by SIGKILL at random moments, while clients edit (scripts/lib/writers.py) and the other file comes and goes: behind each start
a client's pages are as they were after its answered edits and a front of the others, of which PUTs may have been refused. What was torn
is never of an answered edit. Before each start the zeros of the journal are cut to little more than its reserve.

    python3 scripts/listen/full.py PROGRAM [KILLS [PAGES [SEED]]]

Builds nothing. Needs python3, and the right to mount (root, or unshare with names of users of its own). 60 kills and 2,000 pages, which
these are if left out, take two minutes. PAGES may be 9,900 at most: clients put some, and 10,000 may stand.
"""
import os, random, re, subprocess, sys, threading, time, urllib.parse
sys.path.insert(1, os.path.dirname(__file__) + "/../lib")
from scene import HOST, OWNER, Client, Refused, Scene, got, page_of, put, until
from disk import Hog, as_root_of_its_own, mount, unmount
from journals import is_opened, read, written
from writers import FULL, Writer, kept_marks

scene = Scene(seconds=900, seconds_each=6, numbers=(60, 2_000, 1))
JOURNAL = "small/journal"
IS_FULL, HAS_ROOM = "docs_server: journal is full: puts are refused\n", "docs_server: journal has room again\n"
RESERVE = 18_628_736
WRITERS = 4
# so many kills are made over one journal, and then over a new one: each edit is kept in it
KILLS_EACH = 12


def path_of(number):
    """The path of a page of the configuration: of 200 bytes, of which most take four in a line of a journal."""
    return f"{number:05}" + "\u00f6" * 96 + ".md"


def target_of(path):
    return urllib.parse.quote(path)


def started(name):
    try:
        return scene.listen("site.toml", journal=JOURNAL)
    except Refused as refused:
        scene.check(f"{name}: the start", False, refused)
        sys.exit(1)


def told(server):
    """What the server has told of its journal's room, of which each line is another than the one before: whether it is full now."""
    lines = re.findall(f"(?m){re.escape(IS_FULL)}|{re.escape(HAS_ROOM)}", server.said())
    wanted = [(IS_FULL, HAS_ROOM)[number % 2] for number in range(len(lines))]
    scene.check("that it is full, and has room again, is told in turn", lines == wanted, lines)
    return len(lines) % 2 == 1


def ends(server, name):
    """An orderly end, with no other lines than those of a journal, of what was torn and of room."""
    told(server)
    status = server.end()
    said = re.sub(r"(?m)^docs_server: (new journal|record \d+ was torn;|journal is full:|journal has room) ?.*\n", "", server.said())
    scene.check(f"{name}: the end", status == 0 and not said, f"{status} {said}")


def put_new(client, path="new.md"):
    return client.ask(f"/page/{path}", "PUT", b"New.")


# ---- a disk that gets full

class Readers:
    """Clients that read, and count their replies."""

    def __init__(self, port):
        self.port, self.goes, self.codes = port, threading.Event(), {}
        self.thread = threading.Thread(target=self.read)
        self.thread.start()

    def read(self):
        client = Client(self.port, "tok")
        while not self.goes.wait(0.002):
            for target in ("/page/" + target_of(path_of(0)), "/search?q=page", "/backlinks/a.md", "/page/a.md"):
                code = client.ask(target)[0]
                self.codes[code] = self.codes.get(code, 0) + 1
        client.close()

    def end(self):
        self.goes.set()
        self.thread.join()
        return self.codes


def filled(hog, writers):
    """The disk is filled while clients edit and read: the server that runs on it then."""
    server = started("a disk with room")
    journal = got(JOURNAL)
    zeros = len(journal) - len(read(journal)[1])
    scene.check("a new journal has its reserve, and 4 MiB more", zeros == RESERVE + (4 << 20), zeros)
    readers = Readers(server.port)
    threads = [threading.Thread(target=writer.run, args=(server.port,)) for writer in writers]
    for thread in threads:
        thread.start()
    time.sleep(0.3)
    hog.fill()
    scene.check("that the journal is full is told", until(lambda: IS_FULL in server.said(), 60))
    time.sleep(1)
    for writer in writers:
        writer.stops = True
    for thread in threads:
        thread.join()
    codes = readers.end()
    scene.check("the server goes on", server.process.poll() is None, server.said())
    scene.check("all that is read is there", set(codes) == {200}, codes)
    for writer in writers:
        scene.check(f"client {writer.number}: each reply came, and is the right one", writer.fault is None and not writer.unanswered,
                    writer.fault)
    answered, refused = (sum(of) for of in zip(*((writer.answered, writer.refused) for writer in writers)))
    scene.check("PUTs were refused, and others made", 0 < refused < answered, f"{refused} of {answered}")
    print(f"while it got full: {answered} edits were answered, {refused} of them 507, and {sum(codes.values())} reads", flush=True)
    return server


def full(server, writers, name):
    """What a server on a full disk answers. No page of a PUT that is refused changes, nor does its connection end."""
    scene.check(f"{name}: it is told", until(lambda: told(server), 5), server.said())
    client, page = Client(server.port, "tok"), target_of(path_of(1))
    for target in ("/page/new.md", f"/page/{page}", "/source/new.md", f"/source/{page}", f"/groups/{page}?groups=ops", f"/move/{page}?to=b.md"):
        code, _, body = client.ask(target, "PUT", b"" if target.startswith(("/groups", "/move")) else b"New.")
        scene.check(f"{name}: a PUT of {target[:20]}", (code, body) == (507, FULL), (code, body))
    for path, text in (("a.md", "Hello"), (path_of(1), "A page.")):
        code, _, body = client.ask("/page/" + target_of(path))
        scene.check(f"{name}: a page", (code, body) == (200, page_of(path, text)), (code, body))
    scene.check(f"{name}: no other one", client.ask("/page/new.md")[0] == 404)
    scene.check(f"{name}: the contents", client.ask("/contents")[0] == 200)
    client.close()
    asked(server, writers, name)


def stopped(name, words, lines):
    """A command on the full disk ends with status 2 and one of these lines. It leaves no file that has a journal's name, and changes none."""
    before = {file: got("small/" + file) for file in os.listdir("small") if file.startswith("journal")}
    done = subprocess.run([scene.program, *words], stdin=subprocess.DEVNULL, capture_output=True, text=True, timeout=60)
    scene.check(name, done.returncode == 2 and done.stderr.replace(IS_FULL, "") in {f"docs_server: {line}\n" for line in lines}, done)
    found = {file: got("small/" + file) for file in os.listdir("small") if file.startswith("journal") and not file.endswith(".new")}
    scene.check(f"{name}: the journal is as it was", found == before, sorted(found))


def asked(server, writers, name):
    """Each client's pages are those of one of its states."""
    client = Client(server.port, "tok")
    for writer in writers:
        scene.check(f"{name}: replies to client {writer.number}", writer.fault is None, writer.fault)
        made, wrong = writer.find(client)
        scene.check(f"{name}: edits of client {writer.number}", made is not None, wrong)
    client.close()


def removed(server, writers):
    """Every page is deleted while the disk is full, by an edit of its own: 204 each."""
    client, codes = Client(server.port, "tok"), {}
    paths = [path_of(number) for number in range(scene.numbers[1])] + [path for writer in writers for path in writer.pages]
    for path in paths:
        code = client.ask("/page/" + target_of(path), "DELETE")[0]
        codes[code] = codes.get(code, 0) + 1
    scene.check("every page is deleted", codes == {204: len(paths)}, codes)
    for path in paths[:: len(paths) // 50]:
        scene.check("it is gone", client.ask("/page/" + target_of(path))[0] == 404)
    scene.check("a PUT is still refused", put_new(client)[0] == 507)
    client.close()
    for writer in writers:
        writer.pages = {}
    print(f"while it was full {len(paths)} pages were deleted", flush=True)


def freed(hog, server):
    """The other file goes: a PUT is done within 10 seconds, by the same server."""
    client = Client(server.port, "tok")
    scene.check("before: a PUT is refused", put_new(client)[0] == 507)
    hog.go()
    then = time.monotonic()
    scene.check("a PUT is done", until(lambda: put_new(client)[0] in (201, 204), 60, 0.1))
    took = time.monotonic() - then
    scene.check("within 10 seconds", took < 10.5, took)
    scene.check("it is told", not told(server), server.said())
    client.close()
    print(f"a PUT was done {took:.1f} seconds behind the other file's end", flush=True)


def got_full(hog, seed):
    writers = [Writer(number, seed, puts_are_refused=True) for number in range(WRITERS)]
    server = filled(hog, writers)
    full(server, writers, "full")
    ends(server, "full")
    stopped("full: a compaction", ["compact", "site.toml", "--journal", JOURNAL], ("no room for the journal", "cannot use journal"))
    stopped("full: no journal yet", ["listen", "site.toml", f"{HOST}:0", "--journal", JOURNAL + ".first"],
            ("no room for the journal", "cannot use journal", "cannot open journal"))
    server = started("full, a restart")
    full(server, writers, "full, a restart")
    server.kill()
    server = started("full, a restart behind a kill")
    full(server, writers, "full, a restart behind a kill")
    removed(server, writers)
    ends(server, "every page is deleted")
    server = started("every page is deleted, a restart")
    asked(server, writers, "every page is deleted, a restart")
    freed(hog, server)
    ends(server, "room again")
    whole("room again")
    without_reserve(hog)


def without_reserve(hog):
    """A journal that has lost its zeros isn't served on a full disk, since no page could be deleted. Then there is room."""
    # up to the end of a block: no disk gives it more zeros
    lacks = -len(written([b"put pad.md - \n"])) % 4096
    os.remove(JOURNAL)
    put(JOURNAL, written([b"put pad.md - " + b"x" * lacks + b"\n"]))
    hog.fill()
    stopped("no reserve", ["listen", "site.toml", f"{HOST}:0", "--journal", JOURNAL], ("no room for the journal",))
    hog.go()
    server = started("no reserve, once there is room")
    client = Client(server.port, "tok", timeout=60)
    scene.check("no reserve: a PUT is done once there is room", until(lambda: put_new(client)[0] in (201, 204), 60, 0.1))
    client.close()
    ends(server, "no reserve")


def whole(name):
    """The journal is read apart from the program: it ends in zeros."""
    journal = got(JOURNAL)
    texts, front = read(journal)
    scene.check(f"{name}: the journal ends in zeros", is_opened(journal, front))
    return len(texts), len(front), len(journal) - len(front)


# ---- kills

class Kills:
    """Servers that are killed under edits, on a disk that gets full and has room again."""

    def __init__(self, hog, seed):
        self.hog, self.chance = hog, random.Random(seed)
        self.answered = self.refused = self.sent = self.fulls = self.early = self.torn = 0

    def cut(self):
        """The zeros behind the journal become so few that its reserve is soon touched."""
        if os.path.exists(JOURNAL):
            journal = got(JOURNAL)
            wanted = len(read(journal)[1]) + RESERVE + self.chance.randrange(300_000)
            os.truncate(JOURNAL, min(wanted, len(journal)))

    def killed(self, name, writers):
        """One start and one kill. The other file comes or goes before it and meanwhile."""
        self.cut()
        (self.hog.fill if os.path.exists(JOURNAL) and self.chance.random() < 0.5 else self.hog.go)()
        server = started(name)
        asked(server, writers, name)
        threads = [threading.Thread(target=writer.run, args=(server.port,)) for writer in writers]
        for thread in threads:
            thread.start()
        time.sleep(self.chance.random() * 0.2)
        if self.chance.random() < 0.5:
            (self.hog.go if self.hog.thread else self.hog.fill)()
        time.sleep(self.chance.random() * 0.4)
        scene.check(f"{name}: it goes on", server.process.poll() is None, server.said())
        self.fulls += told(server)
        server.kill()
        for thread in threads:
            thread.join()

    def over_one_journal(self, first, count, seed):
        """So many kills over a new journal."""
        for name in (JOURNAL, JOURNAL + ".torn"):
            if os.path.exists(name):
                os.remove(name)
        writers = [Writer(number, seed, puts_are_refused=True) for number in range(WRITERS)]
        self.hog.go()
        for number in range(first, first + count):
            self.killed(f"kill {number}", writers)
        server = started("behind the kills")
        asked(server, writers, "behind the kills")
        ends(server, "behind the kills")
        whole("behind the kills")
        torn = got(JOURNAL + ".torn") if os.path.exists(JOURNAL + ".torn") else b""
        found, _ = kept_marks(torn, writers)
        scene.check("what was torn is of no answered edit", not found, found[:3])
        self.torn += len(torn)
        for writer in writers:
            self.answered, self.refused, self.sent = self.answered + writer.answered, self.refused + writer.refused, self.sent + writer.sent


def kills(hog, count, seed):
    run = Kills(hog, seed)
    for first in range(0, count, KILLS_EACH):
        run.over_one_journal(first + 1, min(KILLS_EACH, count - first), seed + first)
    scene.check("PUTs were refused, and others made", 0 < run.refused < run.answered, f"{run.refused} of {run.answered}")
    print(f"seed {seed}: {count} kills, {run.fulls} of them of a server on a full disk; {run.answered} of {run.sent} edits were answered, "
          f"{run.refused} of them 507; {run.torn:,} bytes torn")


def main():
    count, pages, seed = scene.numbers
    disk = mount("small", 64) or as_root_of_its_own()
    print(f"the disk: {disk}", flush=True)
    rows = "".join(f'[[page]]\npath = "{path_of(number)}"\ntext = "A page."\n' for number in range(pages))
    put("site.toml", OWNER + '[browse]\n[[page]]\npath = "a.md"\ntext = "Hello"\n' + rows)
    hog = Hog("small/other")
    try:
        got_full(hog, seed)
        os.remove(JOURNAL)
        put("site.toml", OWNER + '[browse]\n[[page]]\npath = "a.md"\ntext = "Hello"\n')
        kills(hog, count, seed)
    finally:
        hog.go()
        unmount()


scene.run(main)
