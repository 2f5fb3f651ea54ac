"""A writer and a server that follows its journal behind haproxy, set up by site/haproxy.cfg.template, one of whose lines more tells which
server sent a reply:

- what is read right behind the reply to an edit shows that edit, of whichever server: pages, their heads, the contents;
- the writer is killed while it is edited and read, and another server takes its place at the other one of its two addresses, once as
  the follower is ended and started anew for that, once beside the follower: each edit that was answered is there, no page goes back,
  and it is told how long no edit was answered, and how many reads were refused;
- edits are the writer's alone: no follower is asked for one, as long as there is a writer and while there is none.

    python3 scripts/listen/follow_behind_haproxy.py PROGRAM [READS]

Builds nothing. Needs python3, and haproxy, which it has installed where it lacks. 1,000 reads, which is what READS is if left out, and
all the rest take half a minute.
"""
import collections, os, re, sys, threading, time
sys.path.insert(1, os.path.dirname(__file__) + "/../lib")
from scene import HOST, OWNER, Client, Scene, free_port, got, listens, put, until
from journals import read
from proxies import Haproxy, fields

scene = Scene(seconds=300, seconds_each=1, numbers=(1_000,), needs=["haproxy"], at_top=True)
TOLD = "    http-response add-header x-server %s\n"
KINDS = ("GET", "HEAD", "contents")
# haproxy's replies where no server takes a request, or one went away over it
NOBODY = (502, 503, 504)


class Site:
    """haproxy, before the addresses of a writer, of a standby and of a follower, and those servers that are there."""

    def __init__(self):
        self.journal, self.config = f"{scene.scratch}/journal", f"{scene.scratch}/site.toml"
        put(self.config, "[browse]\n" + OWNER)
        self.ports = {name: free_port() for name in ("writer", "standby", "follower", "door")}
        self.haproxy = Haproxy(scene, *(self.ports[name] for name in ("writer", "follower", "standby")), TOLD)
        self.place, self.writer, self.follower = "standby", None, None

    def write(self):
        """A server takes the writer's place, at the address at which the one before wasn't."""
        self.place = "standby" if self.place == "writer" else "writer"
        self.writer = scene.listen(self.config, port=self.ports[self.place], journal=self.journal)

    def follow(self):
        options = ["--follow", self.journal, "--status", f"{HOST}:{self.ports['door']}"]
        self.follower = scene.listen(self.config, port=self.ports["follower"], options=options)

    def leave(self, name):
        """The follower ends in order, and has said nothing; no request was refused by it."""
        refused = re.search(rb'class="4xx"} (\d+)\n', Client(self.ports["door"]).ask("/metrics")[2])
        scene.check(f"{name}: the follower was asked for no edit", refused is not None and refused[1] == b"0", refused)
        status = self.follower.end()
        scene.check(f"{name}: the follower's end", (status, self.follower.said()) == (0, ""), (status, self.follower.said()))

    def client(self):
        return Client(self.haproxy.port, "tok")

    def answer(self, target):
        """A server's reply: haproxy's own, that there is none, is waited out."""
        replies = []
        until(lambda: replies.append(self.client().ask(target)) or replies[-1][0] not in NOBODY, 5)
        return replies[-1]

    def runs(self, name):
        """Both servers answer through haproxy, and what is edited from is answered too."""
        both = {self.place, "follower"}
        scene.check(f"{name}: both servers are read of", until(lambda: {self.asked("/contents")[0] for _ in range(4)} == both, 10))
        scene.check(f"{name}: the writer is there", until(lambda: self.asked("/source/never.md")[1] == 404, 10))

    def asked(self, target):
        """Which server answers, where one of the readers does, and the code."""
        reply = self.client().ask(target)
        return server_of(reply), reply[0]


def server_of(reply):
    """Which server sent a reply."""
    return "".join(fields(reply[1].decode().split("\r\n"), "x-server"))


# ---- right behind an edit

class Owner(threading.Thread):
    """Puts pages of its own, and behind each reply reads what was put, by other connections, until it has read so often."""

    def __init__(self, site, number, count):
        super().__init__()
        self.number, self.count = number, count
        self.owner, self.readers = site.client(), [site.client() for _ in range(3)]
        self.paths = [f"owner{number}/{page}.md" for page in range(5)]
        self.seen, self.stale, self.fault = collections.Counter(), [], None
        self.start()

    def run(self):
        try:
            for edit in range(-(-self.count // 5)):
                path = self.paths[edit % len(self.paths)]
                code = self.owner.ask(f"/page/{path}", "PUT", self.text(edit))[0]
                if code not in (201, 204):
                    raise ValueError(f"PUT {path}: {code}")
                for it in range(min(5, self.count - 5 * edit)):
                    kind = KINDS[(edit + it) % 3]
                    self.look(self.readers[it % 3], kind, path, edit)
        except (OSError, ValueError) as fault:
            self.fault = fault

    def text(self, edit):
        # one of several lengths, of which a head tells
        return f"# v{edit}\n\n{'x' * (edit % 7 * 100)}x\n".encode()

    def look(self, client, kind, path, edit):
        """One read, which shows this edit of the page."""
        if kind == "contents":
            reply = client.ask("/contents")
            shown = f'/page/{path}#v{edit}">v{edit}<'.encode() in reply[2]
        else:
            reply = client.ask(f"/page/{path}", kind)
            body = f'<!DOCTYPE html>\n<title>v{edit}</title>\n<h1 id="v{edit}">v{edit}</h1>\n<p>{"x" * (edit % 7 * 100)}x</p>\n'.encode()
            length = fields(reply[1].decode().split("\r\n"), "Content-Length")
            shown = length == [str(len(body))] and reply[2] == (body if kind == "GET" else b"")
        self.seen[kind, server_of(reply)] += 1
        if reply[0] != 200 or not shown:
            self.stale.append((kind, path, edit, server_of(reply), reply[0], reply[2][:200]))


def right_behind(site, count):
    """So many reads, each right behind the reply to the edit that it has to show, by four owners at once."""
    owners = [Owner(site, number, count // 4 + (number < count % 4)) for number in range(4)]
    for it in owners:
        it.join()
    seen = sum((it.seen for it in owners), collections.Counter())
    stale = [it for owner in owners for it in owner.stale]
    by = collections.Counter()
    for (kind, server), number in seen.items():
        by[server] += number
    print(f"reads right behind an edit: {sum(by.values())}, {len(stale)} stale; by server: {dict(by)}; by kind: {dict(seen)}", flush=True)
    scene.check("owners are answered", not any(it.fault for it in owners), [it.fault for it in owners])
    scene.check(f"0 of {count} are stale", not stale and sum(by.values()) == count, stale[:3])
    scene.check("each server answers its share", min(by[site.place], by["follower"]) >= count * 0.4, by)
    scene.check("each kind is of both", all(seen[kind, it] >= count / 20 for kind in KINDS for it in (site.place, "follower")), seen)


# ---- promotion

class Busy(threading.Thread):
    """Asks without a pause until it is stopped, and by another connection where there is no answer."""

    def __init__(self, site):
        super().__init__(daemon=True)
        self.site, self.peer, self.stops, self.refused, self.faults = site, None, False, 0, []
        self.start()

    def run(self):
        while not self.stops:
            self.turn()

    def answer(self, *asked):
        """A reply by a server, or None."""
        try:
            self.peer = self.peer or self.site.client()
            reply = self.peer.ask(*asked)
        except OSError:
            reply = None
        if reply is None or reply[0] in NOBODY:
            self.peer = None
            self.refused += 1
            # who is refused at once doesn't ask at once
            time.sleep(0.005)
            return None
        return reply

    def stop(self):
        self.stops = True
        self.join()


class Counter(Busy):
    """Puts the next number on its page once the one before was answered."""

    def __init__(self, site, number):
        self.path, self.sent, self.answered, self.times = f"count{number}.md", 1, [], []
        super().__init__(site)

    def turn(self):
        reply = self.answer(f"/page/{self.path}", "PUT", f"Number {self.sent}".encode())
        if reply is None:
            return
        if reply[0] in (201, 204):
            self.answered.append(self.sent)
            self.times.append(time.monotonic())
            self.sent += 1
        else:
            self.faults.append((self.path, self.sent, reply[0], reply[2][:80]))


class Reader(Busy):
    """Reads the pages in turn, of which none shows a number less than before."""

    def __init__(self, site, paths):
        self.paths, self.shown, self.count, self.by = paths, collections.Counter(), 0, collections.Counter()
        super().__init__(site)

    def turn(self):
        path = self.paths[self.count % len(self.paths)]
        reply = self.answer(f"/page/{path}")
        if reply is None:
            return
        self.count += 1
        self.by[server_of(reply)] += 1
        found = number_of(reply)
        if found < self.shown[path]:
            self.faults.append((path, self.shown[path], found, reply))
        self.shown[path] = max(self.shown[path], found)


def number_of(reply):
    """The number that a page shows, and -1 where that is another reply."""
    found = re.search(rb"<p>Number (\d+)</p>", reply[2])
    return int(found[1]) if reply[0] == 200 and found else -1


def check_shown(name, site, counters):
    """Each page shows at least the last number that was answered, to who asks behind that, of either server."""
    servers = set()
    for it in counters:
        for _ in range(4):
            least = it.answered[-1]
            reply = site.answer(f"/page/{it.path}")
            servers.add(server_of(reply))
            scene.check(f"{name}: {it.path} has what was answered", number_of(reply) >= least, (least, reply))
    return servers


def promote(name, site, counters, readers, ends):
    """The writer is killed, and another server takes its place; the follower is ended first, or goes on. How long no edit was answered,
    or None where none is answered again."""
    refused, begun = sum(it.refused for it in readers), time.monotonic()
    site.writer.kill()
    answered = [len(it.answered) for it in counters]
    if ends:
        site.leave(name)
    site.write()
    starts = time.monotonic() - begun
    # one reply may have been under way
    again = until(lambda: all(len(it.answered) > count + 1 for it, count in zip(counters, answered)), 15, 0.005)
    if not scene.check(f"{name}: edits are answered again", again, answered):
        return None
    check_shown(name, site, counters)
    times = sorted(moment for it in counters for moment in list(it.times) if moment > begun - 1)
    gap = max(after - before for before, after in zip(times, times[1:]))
    if ends:
        site.follow()
    site.runs(name)
    refused = sum(it.refused for it in readers) - refused
    way = "the follower, started anew" if ends else "another server, beside the follower"
    print(f"{name}: {way}, takes the place at the {site.place}'s address: listens after {starts * 1e3:.0f} ms, "
          f"no edit for {gap * 1e3:.0f} ms, {refused} reads refused", flush=True)
    if not ends:
        scene.check(f"{name}: no read is refused", refused == 0, refused)
    return gap


def promotions(site, count):
    """So many promotions, under edits and reads without a pause."""
    for number in range(3):
        scene.check(f"page {number}", site.client().ask(f"/page/count{number}.md", "PUT", b"Number 0")[0] == 201)
    counters = [Counter(site, number) for number in range(3)]
    readers = [Reader(site, [it.path for it in counters]) for _ in range(3)]
    gaps = []
    while len(gaps) < count and None not in gaps:
        until(lambda: all(it.times for it in counters), 10)
        time.sleep(1)
        gaps.append(promote(f"promotion {len(gaps)}", site, counters, readers, len(gaps) % 2 == 0))
    time.sleep(0.5)
    for it in (*counters, *readers):
        it.stop()
    if None in gaps:
        return
    servers = check_shown("behind all promotions", site, counters)
    scene.check("both show it", servers == {site.place, "follower"}, servers)
    for it in (*counters, *readers):
        scene.check("no edit is refused by a server, and no page goes back", not it.faults, it.faults[:3])
    # what a number stood for is put again by the next one, so the journal tells whether each of them was kept
    records = b"".join(read(got(site.journal))[0])
    for it in counters:
        kept = {int(number) for number in re.findall(rb"(?m)^put %s \S+ Number (\d+)" % it.path.encode(), records)}
        lost = [number for number in it.answered if number not in kept]
        scene.check(f"{it.path}: no edit is lost", not lost, (len(lost), lost[:5]))
    by = sum((it.by for it in readers), collections.Counter())
    print(f"{count} promotions: {sum(len(it.answered) for it in counters)} edits answered, {sum(it.refused for it in counters)} refused "
          f"and sent again; {sum(it.count for it in readers)} reads, {dict(by)}; no edit for {max(gaps) * 1e3:.0f} ms at most", flush=True)


# ---- edits

MARKDOWN = "Content-Type: text/markdown\r\n"


def edits():
    """What edits, or is edited from, as a method, a target and a body."""
    yield from (("PUT", "/page/hello.md", b"Hello"), ("DELETE", "/page/hello.md", b""), ("PUT", "/source/hello.md", b"Hello"),
                ("PUT", "/groups/hello.md?groups=red", b""), ("PUT", "/move/hello.md?to=there.md", b""), ("GET", "/source/there.md", b""),
                ("HEAD", "/source/there.md", b""), ("DELETE", "/source/there.md", b""), ("POST", "/preview/hello.md", b"Hello"))


def written_alone(site):
    """No follower is asked for an edit: with a writer, and while there is none."""
    # one that it refuses is counted, so another follower is looked at then
    scene.check("the follower refuses edits", Client(site.ports["follower"], "tok").ask("/page/hello.md", "PUT", b"x")[0] == 405)
    site.follower.end()
    site.follow()
    site.runs("edits")
    owner = site.client()
    for number in range(6):
        found = [(owner.ask(target, method, body, MARKDOWN), method, target) for method, target, body in edits()]
        wrong = [it for it in found if it[0][0] not in (200, 201, 204)]
        scene.check(f"edits {number}: each is made", not wrong, wrong[:3])
    before = got(site.journal)
    page = owner.ask("/page/count0.md")
    site.writer.kill()
    codes, times = collections.Counter(), []
    for number in range(12):
        for method, target, body in edits():
            begun = time.monotonic()
            codes[site.client().ask(target, method, body, MARKDOWN)[0]] += 1
            times.append(time.monotonic() - begun)
        reply = site.client().ask("/page/count0.md")
        alike = (reply[0], reply[2], server_of(reply)) == (200, page[2], "follower")
        scene.check(f"no writer, {number}: reads are answered", alike, reply)
    print(f"edits without a writer: {dict(codes)}, the longest in {max(times) * 1e3:.0f} ms", flush=True)
    scene.check("no writer: edits are refused by haproxy", set(codes) == {503}, codes)
    scene.check("no writer: the journal is as it was", got(site.journal) == before)
    site.leave("edits")


def main():
    site = Site()
    site.write()
    site.follow()
    try:
        scene.check("haproxy listens", until(lambda: listens(site.haproxy.port), 10))
        site.runs("the start")
        for it, *given in ((right_behind, scene.numbers[0]), (promotions, 6), (written_alone,)):
            begun = time.monotonic()
            it(site, *given)
            print(f"{it.__name__}: {time.monotonic() - begun:.1f} s", flush=True)
    finally:
        site.haproxy.ends()


scene.run(main)
