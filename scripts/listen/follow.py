"""Servers that follow another server's journal (`listen --follow`), beside the one that writes it, and beside a journal that this script
writes as a server does: what they answer, and when, what they say, and how they end. They take no edits, and answer all else as the
writer does behind the same records, at once and byte for byte, whatever becomes of the writer and its file: kills, records that are half
written, a last record that is taken back, damage, compactions, and a follower that takes the writer's place.

    python3 scripts/listen/follow.py PROGRAM [KILLS]

Builds nothing. Needs python3. 100 kills of the writer, which is what KILLS is if left out, and all the rest take some minutes.
"""
import os, random, re, shutil, subprocess, sys, threading, time, tomllib
sys.path.insert(1, os.path.dirname(__file__) + "/../lib")
from scene import HOST, OWNER, TOP, Client, Refused, Scene, free_port, got, page_of, put, request, until
from journals import CLOSED, OPEN, Damaged, read, written, written_first
from writers import Writer

scene = Scene(seconds=900, seconds_each=4, numbers=(100,))
chance = random.Random(7)
HELLO = '[[page]]\npath = "hello.md"\ntext = "Hello"\n'
SITE = OWNER + HELLO
# a journal has a reserve behind its closed gate: here one that takes the longest record
ZEROS = 9_000_000
HANDBOOK = "site/config.toml"
WORDS = "incident rollback alert deployment certificate customer phone budget review the".split()
READERS = ("tok-owner", "tok-ann", "tok-bob", "tok-x")
PERSON = "Accept: text/html\r\n"


def follow(journal="journal", config="site.toml", options=(), **given):
    return scene.listen(config, options=["--follow", journal, *options], **given)


def silent(server, name, said=""):
    """It ends in order, and has said this alone."""
    status = server.end()
    scene.check(f"{name}: the end", (status, server.said()) == (0, said), (status, server.said()))


def says(server, wanted, seconds=5):
    """Whether it comes to have said just this."""
    return until(lambda: server.said() == wanted, seconds)


def words(server, line):
    """Writes a line on its standard input."""
    server.process.stdin.write(line)
    server.process.stdin.flush()


def one(port, target, token="tok", method="GET", body=b"", fields=""):
    """A reply over a connection of its own."""
    client = Client(port, token)
    try:
        return client.ask(target, method, body, fields)
    finally:
        client.close()


class Reader(threading.Thread):
    """Asks a server for one thing without a pause, until it is stopped, and keeps what it was answered, each answer once where it comes again."""

    def __init__(self, port, target, token="tok", fields=""):
        super().__init__()
        self.asked, self.found, self.count, self.stops, self.fault = (port, target, token, fields), [], 0, False, None
        self.start()

    def run(self):
        port, target, token, fields = self.asked
        try:
            client = Client(port, token)
            while not self.stops:
                reply = client.ask(target, fields=fields)
                self.count += 1
                if not self.found or self.found[-1] != reply:
                    self.found.append(reply)
        except OSError as fault:
            self.fault = fault

    def stop(self):
        self.stops = True
        self.join()
        return self.found


class Journal:
    """A journal that this script writes as a server does: a record behind the closed gate, with a closed gate behind it; then the gate in
    front of it is opened."""

    def __init__(self, texts=(), name="journal"):
        self.name, self.texts = name, list(texts)
        put(name, written(self.texts))
        os.truncate(name, os.path.getsize(name) + ZEROS)
        self.file = os.open(name, os.O_RDWR)

    def gate(self):
        """Where the closed gate stands."""
        return len(written(self.texts)) - 1

    def behind(self, text):
        """What stands behind the closed gate once a record of this text does."""
        return written([*self.texts, text])[self.gate() + 1:]

    def set(self, at, data):
        os.pwrite(self.file, data, at)

    def add(self, text):
        """A record more."""
        self.set(self.gate() + 1, self.behind(text))
        self.set(self.gate(), OPEN)
        self.texts.append(text)

    def take_back(self):
        """The last record is gone but for its gate, which is closed, as a loss of power may leave it: where it stood, and its length."""
        end = self.gate() + 1
        self.texts.pop()
        return self.gate(), end - self.gate()

    def close(self):
        os.close(self.file)


def puts(number, *paths):
    """The text of a record that puts pages, each with a heading of this number."""
    return "".join(f"put {path} - # v{number}\n" for path in paths).encode()


def headings(reply):
    """The numbers of the headings that the contents show."""
    return tuple(int(it) for it in re.findall(rb">v(\d+)<", reply[2]))


# ---- the same replies

def handbook():
    """The paths of the handbook's pages, and of others that come and go."""
    shutil.copytree(f"{TOP}/site", "site", dirs_exist_ok=True)
    with open(HANDBOOK, "rb") as file:
        return [page["path"] for page in tomllib.load(file)["page"]] + [f"new/{number}.md" for number in range(20)]


def some_text(paths):
    blocks = [f"# {chance.choice(WORDS).title()}"]
    for _ in range(chance.randint(1, 8)):
        line = [chance.choice(WORDS) for _ in range(chance.randint(1, 30))]
        line.insert(0, f"[{chance.choice(WORDS)}](/{chance.choice(paths)}#{chance.choice(WORDS)})")
        blocks.append(" ".join(line))
    return "\n\n".join(blocks).encode() + b"\n"


def edit(owner, paths, name):
    """An edit of any kind by an owner of the handbook."""
    path, other = chance.choice(paths), chance.choice(paths)
    groups = chance.choice(("staff", "ops", "staff,ops", "public", ""))
    target, method, body = chance.choice([
        (f"/page/{path}?groups={groups}", "PUT", some_text(paths)), (f"/page/{path}?groups={groups}", "PUT", some_text(paths)),
        (f"/source/{path}?groups={groups}", "PUT", some_text(paths)), (f"/page/{path}", "DELETE", b""),
        (f"/groups/{path}?groups={groups}", "PUT", b""), (f"/move/{path}?to={other}", "PUT", b"")])
    code = owner.ask(target, method, body)[0]
    scene.check(f"{name}: {method} {target}", code in (200, 201, 204, 404, 409), code)


def some_request(paths):
    """A request that both kinds of server answer alike: its target, its method, its body and other fields."""
    path, word = chance.choice(paths), chance.choice(WORDS)
    folder = path.rpartition("/")[0]
    person = chance.choice(("", PERSON))
    return chance.choice([
        *[(f"/page/{path}", "GET", b"", person)] * 6, (f"/page/{path}", "HEAD", b"", person), ("/page/never.md", "GET", b"", person),
        ("/page/../a.md", "GET", b"", ""), ("/page/ops/", "GET", b"", ""), ("/nothing", "GET", b"", person), ("/nothing", "PUT", b"x", ""),
        ("/contents", "GET", b"", person), ("/contents", "HEAD", b"", ""), (f"/contents/{folder}/", "GET", b"", PERSON),
        (f"/backlinks/{path}", "GET", b"", person), (f"/backlinks/{path}", "GET", b"", person), ("/broken", "GET", b"", person),
        (f"/search?q={word}", "GET", b"", person), ("/search?q=", "GET", b"", person), ("/search?q=" + "+".join(WORDS[:3]), "GET", b"", ""),
        ("/", "GET", b"", PERSON), ("/sign-in", "GET", b"", PERSON), ("/style.css", "GET", b"", ""), ("/contents", "DELETE", b"", ""),
        (f"/source/{path}", "GET", b"", ""), (f"/source/{path}", "HEAD", b"", ""), (f"/edit/{path}", "GET", b"", PERSON),
        (f"/preview/{path}", "POST", some_text(paths), "Content-Type: text/markdown\r\n"), ("/edit/", "GET", b"", PERSON)])


def alike(count):
    """So many replies of the writer and two followers, to all readers and to guests: behind each edit at once the same."""
    paths, codes = handbook(), {}
    writer = scene.listen(HANDBOOK, journal="journal")
    followers = [follow(config=HANDBOOK), follow(config=HANDBOOK)]
    servers = [writer, *followers]
    # who isn't known has a connection of their own for each request: it doesn't stay
    clients = {token: [Client(it.port, token) for it in servers] for token in READERS[:3]}
    for number in range(-(-count // 3)):
        if chance.random() < 0.15:
            edit(clients["tok-owner"][0], paths, f"edit {number}")
        asked, token = some_request(paths), chance.choice((*READERS, None))
        peers = clients[token] if token in clients else [Client(it.port, token or "") for it in servers]
        replies = [it.ask(*asked) if token else guest(it, asked) for it in peers]
        codes[replies[0][0]] = codes.get(replies[0][0], 0) + 3
        scene.check(f"{number}: {token} {asked[1]} {asked[0]}", replies[1] == replies[0] and replies[2] == replies[0], replies)
        if token not in clients:
            for it in peers:
                it.close()
    print("replies alike: " + ", ".join(f"{number} of {code}" for code, number in sorted(codes.items())), flush=True)
    scene.check("replies of all kinds", {200, 301, 400, 401, 403, 404, 405} <= set(codes), codes)
    tag = re.search(rb"\r\nETag: ([^\r]*)", clients["tok-owner"][1].ask("/source/index.md")[1])
    if scene.check("a tag", tag is not None):
        known = f"If-None-Match: {tag[1].decode()}\r\n"
        replies = [it.ask("/source/index.md", fields=known) for it in clients["tok-owner"]]
        scene.check("a page that is known", replies[0][0] == 304 and replies[1:] == replies[:1] * 2, replies)
    for it in followers:
        silent(it, "a follower of the handbook")
    scene.ends(writer, "its writer")


def guest(client, asked):
    """A reply to who has no token."""
    target, method, body, fields = asked
    data = request("", target, method, body, fields).replace(b"Authorization: Bearer \r\n", b"")
    client.socket.sendall(data)
    return client.reply(method)


def refused():
    """What edits is 405, to whoever has an entry, and before 403; `Allow` names what is left."""
    handbook()
    put("journal", written([]))
    server = follow(config=HANDBOOK)
    before = one(server.port, "/contents", "tok-owner")
    for token, method, target, code, allow in (
        *[(token, method, "/page/" + path, 405, "GET, HEAD") for token in READERS[:3] for method in ("PUT", "DELETE", "PATCH", "POST")
          for path in ("index.md", "none.md", "%2e%2e/x", "a.png")],
        *[("tok-owner", method, "/source/index.md", 405, "GET, HEAD") for method in ("PUT", "DELETE", "POST")],
        *[("tok-owner", "PUT", target, 405, "") for target in ("/groups/index.md?groups=ops", "/move/index.md?to=b.md")],
        ("tok-x", "PUT", "/page/index.md", 401, None), ("tok-x", "DELETE", "/page/index.md", 401, None), ("tok-owner", "PUT", "/none", 404, None),
    ):
        found, head, _ = one(server.port, target, token, method, b"# New\n" if method == "PUT" else b"")
        told = re.search(rb"\r\nAllow: ?([^\r]*)", head + b"\r\n")
        scene.check(f"{token} {method} {target}", found == code and (told and told[1].decode().strip()) == allow, (found, head))
    found, head, _ = guest(Client(server.port), ("/page/index.md", "PUT", b"# New\n", ""))
    scene.check("a guest's PUT", found == 405 and b"\r\nAllow: GET, HEAD" in head, (found, head))
    found = one(server.port, "/page/index.md", "tok-owner", "PUT", b"# New\n", 'If-Match: "x"\r\n')[0]
    scene.check("a PUT with a condition", found == 405, found)
    scene.check("nothing has changed", one(server.port, "/contents", "tok-owner") == before and got("journal") == written([]))
    silent(server, "no edits")


# ---- at once, and never back

def at_once(count):
    """Whoever has the writer's reply and then asks a follower sees that edit, whatever its length."""
    put("site.toml", SITE)
    writer = scene.listen("site.toml", journal="journal")
    follower = follow()
    owner, reader, stale, times = Client(writer.port, "tok"), Client(follower.port, "tok"), 0, []
    for number in range(count):
        text = f"Number {number} " + "x" * chance.choice((1, 1, 1, 100, 5_000, 60_000, 70_000, 300_000))
        path = f"p{number % 7}.md"
        code = owner.ask(f"/page/{path}", "PUT", text.encode())[0]
        begun = time.monotonic()
        found = reader.ask(f"/page/{path}")
        times.append(time.monotonic() - begun)
        stale += found[2] != page_of(path, text)
        scene.check(f"put {number}", code in (201, 204), code)
    scene.check(f"0 of {count} are stale", stale == 0, stale)
    # several edits at once, each answered: the next one who asks sees all of them
    for number in range(count // 50):
        for it in range(8):
            owner.send(f"/page/m{it}.md", "PUT", (f"Many {number} " + "y" * 150_000).encode())
        scene.check(f"many {number}", all(owner.reply()[0] in (201, 204) for _ in range(8)))
        seen = [reader.ask(f"/page/m{it}.md")[2] == page_of(f"m{it}.md", f"Many {number} " + "y" * 150_000) for it in range(8)]
        scene.check(f"many {number}: all are seen", all(seen), seen)
    times.sort()
    print(f"a GET behind the writer's reply to a PUT: median {times[len(times) // 2] * 1e3:.1f} ms, most {times[-1] * 1e3:.1f} ms", flush=True)
    # without its closed gate
    size, spent = len(read(got("journal"))[1]) - 1, sum(follower.used())
    time.sleep(1)
    spent = sum(follower.used()) - spent
    print(f"a follower whom nobody asks: {spent / 1000:.0f} ms of a second", flush=True)
    scene.check("it rests", spent <= 60_000, spent)
    late = follow(options=["--status", f"{HOST}:{(door := free_port())}"])
    reader = Client(late.port, "tok")
    scene.check("one that comes later", reader.ask("/contents") == owner.ask("/contents"))
    counted = Client(door).ask("/metrics")[2].decode()
    found = {name: int(value) for name, value in re.findall(r"(?m)^(docs_pages|docs_journal_bytes) (\d+)$", counted)}
    pages = 1 + 7 + 8
    scene.check("what monitors see", found == {"docs_pages": pages, "docs_journal_bytes": size}, (found, size))
    for it in (late, follower):
        silent(it, "at once")
    scene.ends(writer, "at once: the writer")


def never_back(count):
    """A reader of the follower, while the writer counts, never sees a number that is less than one before; at the end it sees the last."""
    put("site.toml", SITE)
    put("journal", written([]))
    writer = scene.listen("site.toml", journal="journal")
    follower = follow()
    reader = Reader(follower.port, "/page/n.md")
    owner = Client(writer.port, "tok")
    for number in range(count):
        owner.ask("/page/n.md", "PUT", f"Number {number}".encode())
    seen = one(follower.port, "/page/n.md")[2]
    found = [int(it[2].split(b"Number ")[1].split(b"<")[0]) for it in reader.stop() if it[0] == 200]
    scene.check("never back", found == sorted(found) and len(found) > 10, found[:20])
    scene.check("the last one", seen == page_of("n.md", f"Number {count - 1}"), seen)
    print(f"a reader beside {count} edits: {reader.count} replies, {len(found)} numbers", flush=True)
    silent(follower, "never back")
    scene.ends(writer, "never back: the writer")


# ---- what becomes of the writer

def kills(count):
    """The writer is killed while it is sent edits, and started again: the follower goes on, and answers as the writer does."""
    put("site.toml", SITE)
    put("journal", written([]))
    writers = [Writer(number, 3) for number in range(3)]
    targets = [f"/page/{path}" for it in writers for path in it.paths] + ["/contents", "/search?q=edit", "/page/hello.md"]
    follower = follow()
    reader = Client(follower.port, "tok")
    for number in range(count):
        server = scene.listen("site.toml", journal="journal")
        client = Client(server.port, "tok")
        mine, its = [client.ask(it) for it in targets], [reader.ask(it) for it in targets]
        differ = [it for it, one, other in zip(targets, mine, its) if one != other]
        scene.check(f"kill {number}: alike", not differ, differ[:3])
        for it in writers:
            made, wrong = it.find(client)
            scene.check(f"kill {number}: edits of {it.number}", made is not None and it.fault is None, wrong or it.fault)
        client.close()
        threads = [threading.Thread(target=it.run, args=(server.port,)) for it in writers]
        for it in threads:
            it.start()
        time.sleep(chance.random() * 0.15)
        server.kill()
        for it in threads:
            it.join()
    server = scene.listen("site.toml", journal="journal")
    client = Client(server.port, "tok")
    scene.check("behind all kills", [client.ask(it) for it in targets] == [reader.ask(it) for it in targets])
    print(f"{count} kills of the writer: {sum(it.answered for it in writers)} edits were answered, {sum(it.sent for it in writers)} sent", flush=True)
    silent(follower, "kills")
    scene.ends(server, "kills: the writer")


def promoted(count):
    """The writer is killed, the follower ended, and started with the journal at the writer's address: no answered edit is lost."""
    put("site.toml", SITE)
    put("journal", written([]))
    writers, times = [Writer(number, 5) for number in range(3)], []
    server, port = scene.listen("site.toml", journal="journal"), None
    port = server.port
    for number in range(count):
        follower = follow()
        threads = [threading.Thread(target=it.run, args=(port,)) for it in writers]
        for it in threads:
            it.start()
        time.sleep(0.1 + chance.random() * 0.2)
        server.kill()
        begun = time.monotonic()
        silent(follower, f"promotion {number}")
        server = scene.listen("site.toml", port=port, journal="journal")
        times.append(time.monotonic() - begun)
        for it in threads:
            it.join()
        client = Client(port, "tok")
        for it in writers:
            made, wrong = it.find(client)
            scene.check(f"promotion {number}: edits of {it.number}", made is not None and it.fault is None, wrong or it.fault)
        client.close()
    print(f"a follower in the writer's place: {max(times) * 1e3:.0f} ms at most", flush=True)
    scene.ends(server, "promotions")


def compacted(count):
    """The writer is stopped, its journal compacted, and it is started again: the follower takes the new file, nobody who reads beside it
    notices, and what is edited then is seen at once."""
    put("site.toml", SITE)
    put("journal", written([]))
    follower, said = follow(), ""
    reader = Reader(follower.port, "/page/hello.md")
    for number in range(count):
        writer = scene.listen("site.toml", journal="journal")
        owner, other = Client(writer.port, "tok"), Client(follower.port, "tok")
        for it in range(20):
            owner.ask(f"/page/p{it % 6}.md", "PUT", f"Number {number} {it}".encode())
            scene.check(f"compaction {number}: put {it}", other.ask(f"/page/p{it % 6}.md")[2] == page_of(f"p{it % 6}.md", f"Number {number} {it}"))
        owner.ask("/page/p5.md", "DELETE")
        before = owner.ask("/contents")
        owner.close()
        scene.ends(writer, f"compaction {number}: the writer")
        all_of = Reader(follower.port, "/contents")
        done = subprocess.run([scene.program, "compact", "site.toml", "--journal", "journal"], capture_output=True)
        records = len(read(got("journal"))[0])
        said += f"following: 1 readers, 0 pages put, 0 removed (record {records})\n"
        scene.check(f"compaction {number}: told", done.returncode == 0 and says(follower, said), (done, follower.said()))
        scene.check(f"compaction {number}: nobody notices", all_of.stop() == [before], len(all_of.found))
    scene.check("a reader beside compactions", len(reader.stop()) == 1 and reader.fault is None, (reader.found[:2], reader.fault))
    silent(follower, "compactions", said)


# ---- what becomes of the file

def cut(count):
    """A record that is being written is seen behind its last step alone, the opening of its gate."""
    put("site.toml", SITE)
    journal = Journal([puts(0, "a.md", "b.md")])
    follower = follow()
    client = Client(follower.port, "tok")
    wrong, steps = [], 0
    for number in range(1, count + 1):
        text = puts(number, *("a.md", "b.md")[: 1 + number % 2]) + b"remove c.md\n" * (number % 3)
        at, data = journal.gate() + 1, journal.behind(text)
        for i in range(len(data)):
            journal.set(at + i, data[i:i + 1])
            steps += 1
            if b">v%d<" % (number - 1) not in client.ask("/page/a.md")[2]:
                wrong.append((number, i))
        journal.set(at - 1, OPEN)
        journal.texts.append(text)
        scene.check(f"record {number}", b">v%d<" % number in client.ask("/page/a.md")[2])
    scene.check("no record is seen before it is whole", not wrong, wrong[:5])
    print(f"{count} records written in {steps} steps", flush=True)
    # the gate is open while what stands behind it isn't all there yet: it is waited for
    text = puts(count + 1, "a.md")
    at, data = journal.gate() + 1, journal.behind(text)
    os.truncate(journal.name, at + len(data) // 2)
    journal.set(at, data[:len(data) // 2])
    journal.set(at - 1, OPEN)
    time.sleep(0.5)
    scene.check("half a record behind an open gate", b">v%d<" % count in client.ask("/page/a.md")[2])
    journal.set(at, data)
    scene.check("all of it", b">v%d<" % (count + 1) in client.ask("/page/a.md")[2])
    silent(follower, "cut records")
    journal.close()


def went_back():
    """The last record is taken back, and another one stands in its place: the follower starts over, and no reader sees a part of one site
    beside a part of another."""
    put("site.toml", SITE)
    paths = ("a.md", "b.md")
    for name, number in (("longer", 1_000_009), ("shorter", 9), ("of the same length", 9)):
        for way in ("in one step", "in steps", "with nothing in its place"):
            told = f"a record taken back, {name}, {way}"
            other, last = puts(number, *paths), puts(3, *paths) + b"remove none.md\n" * (20 if name == "shorter" else 0)
            journal = Journal([puts(1, *paths), puts(2, *paths), last])
            follower = follow()
            reader = Reader(follower.port, "/contents")
            until(lambda: reader.count > 20, 5)
            gate, length = journal.take_back()
            if way == "in one step":
                data = journal.behind(other)
                journal.set(gate, OPEN + data + bytes(max(0, length - len(data))))
                journal.texts.append(other)
                wanted, record = [(3, 3), (number, number)], 3
            else:
                journal.set(gate, CLOSED)
                time.sleep(0.1)
                journal.set(gate + 1, bytes(length))
                wanted, record = [(3, 3), (2, 2)], 2
            said = f"following: journal went back\nfollowing: 1 readers, 2 pages put, 0 removed (record {record})\n"
            scene.check(f"{told}: told", says(follower, said), follower.said())
            if way == "in steps":
                journal.add(other)
                wanted.append((number, number))
            ends = until(lambda: headings(reader.found[-1]) == wanted[-1], 5)
            found = [headings(it) for it in reader.stop()]
            scene.check(told, ends and found == wanted and reader.fault is None, (found, reader.fault))
            journal.add(puts(77, *paths))
            scene.check(f"{told}: one more", headings(one(follower.port, "/contents")) == (77, 77))
            silent(follower, told, said)
            journal.close()


def started_over_later():
    """Where the configuration or the journal can't be read as it is to be started over, that is told once, the old site stays, and it is
    tried again."""
    put("site.toml", SITE)
    journal = Journal([puts(1, "a.md"), puts(2, "a.md")])
    follower = follow()
    put("site.toml", SITE + "x =\n")
    gate, length = journal.take_back()
    journal.set(gate, CLOSED + bytes(length))
    scene.check("no document: told", until(lambda: follower.said().count("\n") >= 3, 5), follower.said())
    time.sleep(2.5)
    said = follower.said()
    scene.check("no document: told once", re.fullmatch(r"following: journal went back\nfollowing: site\.toml:\d+:\d+: .*\nfollowing: config\n", said), said)
    scene.check("no document: the old site", b">v2<" in one(follower.port, "/page/a.md")[2])
    put("site.toml", SITE)
    said += "following: 1 readers, 1 pages put, 0 removed (record 1)\n"
    scene.check("a document again", says(follower, said), follower.said())
    scene.check("the new site", b">v1<" in one(follower.port, "/page/a.md")[2])
    # another file, which isn't whole at first
    whole = written([puts(5, "a.md"), puts(6, "a.md")]) + bytes(1_000)
    put("next", whole[:150])
    os.rename("next", "journal")
    said += "following: journal record 1\n"
    scene.check("a part of another file: told", says(follower, said), follower.said())
    time.sleep(1)
    scene.check("a part of another file: the old site", b">v1<" in one(follower.port, "/page/a.md")[2] and follower.said() == said, follower.said())
    put("journal", whole)
    said += "following: 1 readers, 1 pages put, 0 removed (record 2)\n"
    scene.check("all of it", says(follower, said) and b">v6<" in one(follower.port, "/page/a.md")[2], follower.said())
    # the same by one that is gone for a while
    os.rename("journal", "away")
    time.sleep(0.3)
    scene.check("no file: the old site", b">v6<" in one(follower.port, "/page/a.md")[2] and follower.said() == said, follower.said())
    put("journal", written([puts(7, "a.md")]) + bytes(1_000))
    said += "following: 1 readers, 1 pages put, 0 removed (record 1)\n"
    scene.check("another file", says(follower, said) and b">v7<" in one(follower.port, "/page/a.md")[2], follower.said())
    silent(follower, "started over later", said)
    journal.close()


def damaged(count):
    """A byte of the last record is another: that is waited for. Where it is put right nothing was the matter; where it isn't, the follower
    ends 10 seconds later, and shows no other page until then."""
    put("site.toml", SITE)
    text = puts(2, "a.md")
    at = len(written([puts(1, "a.md")]))
    length = len(Journal([puts(1, "a.md")], "none").behind(text)) - 1
    places = sorted(chance.sample(range(length), min(count, length)))
    cases = []
    for number, place in enumerate(places):
        journal = Journal([puts(1, "a.md")], f"journal{number}")
        cases.append((place, journal, follow(journal.name), number % 4 == 0))
    begun = time.monotonic()
    for place, journal, _, _ in cases:
        data = bytearray(journal.behind(text))
        data[place] ^= chance.choice((1, 2, 0x80, 0xff))
        journal.set(at, bytes(data))
        journal.set(at - 1, OPEN)
    time.sleep(3)
    for place, journal, follower, is_righted in cases:
        found = one(follower.port, "/page/a.md")
        scene.check(f"byte {place}: waited for", b">v1<" in found[2] and follower.said() == "", follower.said())
        if is_righted:
            journal.set(at, journal.behind(text))
            scene.check(f"byte {place}: put right", b">v2<" in one(follower.port, "/page/a.md")[2])
    scene.check("none has ended", all(it[2].process.poll() is None for it in cases) and time.monotonic() - begun < 9)
    for place, journal, follower, is_righted in cases:
        try:
            read(got(journal.name))
            wanted = None
        except Damaged as fault:
            wanted = f"following: record {fault.number} is damaged\ndocs_server: journal record {fault.number}\n"
        if is_righted:
            scene.check(f"byte {place}: a whole journal", wanted is None)
            silent(follower, f"byte {place}")
            continue
        ends = follower.ends(15)
        found = follower.process.poll(), follower.said()
        scene.check(f"byte {place}: damaged", ends and found == (2, wanted), (found, wanted))
        scene.check(f"byte {place}: not at once", time.monotonic() - begun > 9)
        try:
            follow(journal.name).kill()
            scene.check(f"byte {place}: a start", False)
        except Refused as fault:
            scene.check(f"byte {place}: a start", (fault.status, fault.said) == (2, "docs_server: journal record 2\n"), fault)
        follower.close()
    for _, journal, _, _ in cases:
        journal.close()
        os.remove(journal.name)


# ---- configurations

def records_refused():
    """A record whose edit the configuration refuses, or that holds no edit, ends the follower, at its number in the journal; and a start."""
    for name, text, line in (("a move of no page", b"move none.md b.md\n", "journal record 3 refused, line 1"),
                             ("no edit", b"connect\n", "bad journal record 3"),
                             ("in its second line", b"put c.md - C\nmove hello.md c.md\n", "journal record 3 refused, line 2")):
        put("site.toml", SITE)
        journal = Journal([puts(1, "a.md"), puts(2, "a.md")])
        follower = follow()
        journal.add(text)
        ends = follower.ends(5)
        said = f"following: record 3 refused\ndocs_server: {line}\n"
        scene.check(name, ends and (follower.process.poll(), follower.said()) == (2, said), follower.said())
        follower.close()
        try:
            follow().kill()
            scene.check(f"{name}: a start", False)
        except Refused as fault:
            scene.check(f"{name}: a start", (fault.status, fault.said) == (2, f"docs_server: {line}\n"), fault)
        journal.close()


def faults():
    """What stops a follower's start."""
    put("site.toml", SITE)
    put("empty", "")
    put("other", "# A page\n")
    put("first", written_first([b"put a.md - A\n"]))
    put("damaged", written([puts(1, "a.md")])[:-40])
    os.makedirs("folder", exist_ok=True)
    for name, wanted in (("none", "cannot read none"), ("folder", "cannot read folder"), ("empty", "no journal"), ("other", "no journal"),
                         ("first", "journal of version 1"), ("damaged", "journal record 1")):
        try:
            follow(name).kill()
            scene.check(name, False)
        except Refused as fault:
            scene.check(name, (fault.status, fault.said) == (2, f"docs_server: {wanted}\n"), fault)
    put("journal", written([]))
    for options in (["--follow", "journal", "--journal", "own"], ["--journal", "own", "--follow", "journal"]):
        try:
            scene.listen("site.toml", options=options).kill()
            scene.check(str(options), False)
        except Refused as fault:
            wanted = "docs_server: --journal and --follow exclude each other\ndocs_server: usage\n"
            scene.check(str(options), (fault.status, fault.said) == (2, wanted) and not os.path.exists("own"), fault)
    os.chmod("journal", 0o400)
    before = os.stat("journal")
    silent(follow(), "a journal that may only be read")
    after = os.stat("journal")
    scene.check("it is as it was", (before.st_mtime_ns, before.st_size, got("journal")) == (after.st_mtime_ns, after.st_size, written([])))
    os.chmod("journal", 0o600)


def reloads():
    """A follower reads its own configuration anew by a line, with the journal as it stands then, and goes on behind that."""
    put("site.toml", SITE)
    put("own.toml", SITE)
    put("journal", written([]))
    writer = scene.listen("site.toml", journal="journal")
    owner = Client(writer.port, "tok")
    follower, said = follow(config="own.toml"), ""
    ann = '[[reader]]\ntoken = "tok-ann"\ngroups = ["red"]\n'
    owner.ask("/page/a.md?groups=red", "PUT", b"First")
    scene.check("reload: an edit before it", one(follower.port, "/page/a.md")[0] == 200)
    more = '[[page]]\npath = "b.md"\ngroups = ["red"]\ntext = "B"\n[[page]]\npath = "a.md"\ntext = "Covered"\n'
    for name, text, told in (
        ("a reader and a page more", SITE + ann + more, "reload: 2 readers, 1 pages put, 0 removed (record 1)\n"),
        ("nothing", SITE + ann + more, "reload: nothing has changed\n"),
        ("a setting", "keep_alive = true\n" + SITE + ann + more, "reload refused: needs a restart: `keep_alive`\n"),
        ("a page less", SITE + ann, "reload: 2 readers, 0 pages put, 1 removed (record 1)\n"),
    ):
        put("own.toml", text)
        words(follower, b"reload\n")
        said += told
        scene.check(f"reload: {name}: told", says(follower, said), follower.said())
        if "keep_alive" in text:
            continue
        anew = follow(config="own.toml")
        targets = ["/page/a.md", "/page/b.md", "/page/hello.md", "/contents"]
        alike = [[one(it.port, target, token) for target in targets for token in ("tok", "tok-ann", "tok-x")] for it in (follower, anew)]
        scene.check(f"reload: {name}: as one that is started", alike[0] == alike[1], alike)
        silent(anew, f"reload: {name}: the other one")
    words(follower, b"relaod\n")
    said += "unknown line\n"
    scene.check("reload: another line", says(follower, said), follower.said())
    for number in range(20):
        if number % 4 == 0:
            words(follower, b"reload\n")
        owner.ask("/page/a.md?groups=red", "PUT", f"Number {number}".encode())
        found = one(follower.port, "/page/a.md", "tok-ann")[2]
        scene.check(f"reload: an edit beside it, {number}", found == page_of("a.md", f"Number {number}"), found)
        if number % 4 == 0:
            # the record may have been read by the reload, or by a look
            ends = until(lambda: follower.said()[len(said):].endswith("\n"), 5)
            told = follower.said()[len(said):]
            wanted = ("reload: nothing has changed\n", f"reload: 2 readers, 1 pages put, 0 removed (record {number + 2})\n")
            scene.check(f"reload: beside an edit, {number}", ends and told in wanted, told)
            said += told
    owner.ask("/page/hello.md", "DELETE")
    scene.check("reload: a removal", one(follower.port, "/page/hello.md")[0] == 404)
    put("own.toml", OWNER)
    words(follower, b"reload\n")
    said += "reload: 1 readers, 0 pages put, 0 removed (record 22)\n"
    scene.check("reload: a removal of what isn't there", says(follower, said), follower.said())
    silent(follower, "reload", said)
    scene.ends(writer, "reload: the writer")
    # a configuration over which the journal can't be made
    put("own.toml", SITE)
    journal = Journal([b"move hello.md there.md\n"])
    follower = follow(config="own.toml")
    put("own.toml", OWNER)
    words(follower, b"reload\n")
    said = "reload refused: journal record 1 refused, line 1\n"
    scene.check("reload: a record refused: told", says(follower, said), follower.said())
    journal.add(puts(1, "a.md"))
    found = [one(follower.port, f"/page/{it}")[0] for it in ("there.md", "a.md")]
    scene.check("reload: a record refused: all is as before", found == [200, 200] and follower.said() == said, (found, follower.said()))
    silent(follower, "reload: a record refused", said)
    journal.close()


def as_often_as_said():
    """`follow_millis` says how often the file is looked at while nobody asks, as the wakes of the process show; whoever asks sees each edit."""
    put("site.toml", SITE)
    writer = scene.listen("site.toml", journal="journal")
    owner = Client(writer.port, "tok")
    for millis, least, most in ((5, 100, 260), (20, 30, 70), (200, 3, 15), (10_000, 2, 15)):
        put("own.toml", SITE + f"[listen]\nfollow_millis = {millis}\n")
        follower = follow(config="own.toml")
        reader = Client(follower.port, "tok")
        time.sleep(0.5)
        before = wakes(follower)
        time.sleep(1)
        count = wakes(follower) - before
        scene.check(f"follow_millis {millis}: wakes", least <= count <= most, count)
        for number in range(5):
            owner.ask("/page/often.md", "PUT", f"{millis} {number}".encode())
            begun = time.monotonic()
            found = reader.ask("/page/often.md")
            scene.check(f"follow_millis {millis}: an edit is seen", found[2] == page_of("often.md", f"{millis} {number}"), found)
            scene.check(f"follow_millis {millis}: at once", time.monotonic() - begun < 0.15)
        silent(follower, f"follow_millis {millis}")
    scene.ends(writer, "follow_millis: the writer")


def wakes(server):
    """How often a process has waited."""
    with open(f"/proc/{server.process.pid}/status", encoding="utf-8") as file:
        return int(re.search(r"^voluntary_ctxt_switches:\s*(\d+)$", file.read(), re.M)[1])


def logged():
    """With the log a follower says its lines, and nothing else."""
    put("site.toml", SITE)
    journal = Journal([])
    follower = follow(options=["--log"])
    client = Client(follower.port, "tok")
    wanted = []
    for number in range(30):
        journal.add(puts(number, "a.md"))
        code, head, body = client.ask("/page/a.md")
        wanted.append(f"1 GET /page/a.md {code} {len(head) + 4 + len(body)} ")
    code, head, body = client.ask("/page/a.md", "PUT", b"New")
    wanted.append(f"1 PUT /page/a.md {code} {len(head) + 4 + len(body)} ")
    until(lambda: follower.said().count("\n") >= len(wanted), 5)
    lines = follower.said().split("\n")
    scene.check("the log", len(lines) == len(wanted) + 1 and all(it.startswith(line) for it, line in zip(lines, wanted)), lines)
    scene.check("the log: the end", follower.end() == 0)
    journal.close()


def main():
    count = scene.numbers[0]
    for it, given in ((faults, ()), (refused, ()), (alike, (10_000,)), (at_once, (1_000,)), (never_back, (2_000,)), (cut, (20,)), (went_back, ()),
                      (started_over_later, ()), (records_refused, ()), (reloads, ()), (as_often_as_said, ()), (logged, ()), (compacted, (10,)), (damaged, (40,)),
                      (promoted, (10,)), (kills, (count,))):
        for name in ("journal", "journal.torn"):
            if os.path.exists(name):
                os.remove(name)
        begun = time.monotonic()
        it(*given)
        print(f"{it.__name__}: {time.monotonic() - begun:.1f} s", flush=True)


scene.run(main)
