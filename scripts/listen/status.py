"""The door for monitors beside `listen`: health, counters as Prometheus reads them, and what isn't there. What it counts is what clients
were answered, and what stands: pages, the journal's records, reloads; no path, name, group or token stands in it; who comes by it and says
nothing holds up nobody.

    python3 scripts/listen/status.py PROGRAM

Builds nothing. Needs python3. Some seconds.
"""
import os, re, socket, sys, time
sys.path.insert(1, os.path.dirname(__file__) + "/../lib")
from scene import HOST, OWNER, Client, Refused, Scene, free_port, got, put, request, until
import prometheus

scene = Scene(seconds=200)
PAGE = '[[page]]\npath = "secret-plan.md"\ngroups = ["inner-circle"]\ntext = "A plan"\n'
LARGE = '[[page]]\npath = "large.md"\ntext = "' + "word " * 40_000 + '"\n'
# its pages are two
SITE = OWNER + PAGE + LARGE
# the metrics in their order, and their kinds
METRICS = [("docs_requests_total", "counter"), ("docs_unauthorized_total", "counter"), ("docs_edits_total", "counter"),
           ("docs_bytes_total", "counter"), ("docs_connections", "gauge"), ("docs_connections_most", "gauge"), ("docs_turn_seconds_max", "gauge"),
           ("docs_pages", "gauge"), ("docs_journal_bytes", "gauge"), ("docs_record", "gauge"), ("docs_reload_total", "counter"),
           ("docs_reload_time_seconds", "gauge")]


def ask(port, data, seconds=10):
    """What comes back for these bytes, until the end."""
    found = b""
    with socket.create_connection((HOST, port), timeout=seconds) as peer:
        try:
            peer.sendall(data)
            while got := peer.recv(65_536):
                found += got
        except ConnectionError:
            # it was closed before all was read there
            pass
    return found


def get(port, target, method="GET"):
    """The reply to a request: its code, 0 where there is none, its head and its body."""
    head, _, body = ask(port, f"{method} {target} HTTP/1.1\r\nHost: monitor\r\n\r\n".encode()).partition(b"\r\n\r\n")
    return int(head[9:12] or 0), head.decode(), body


class Watched:
    """A server with a door for monitors."""

    def __init__(self, options=(), journal=None):
        put("site.toml", SITE)
        self.door = free_port()
        self.server = scene.listen("site.toml", journal=journal, options=["--status", f"{HOST}:{self.door}", *options])

    def counted(self):
        """The samples of the metrics, by name and labels."""
        code, head, body = get(self.door, "/metrics")
        scene.check("the metrics' head", code == 200 and "\r\nContent-Type: text/plain; version=0.0.4; charset=utf-8\r\n" in head + "\r\n", head)
        families = prometheus.parse(body.decode())
        metrics = [(name, family.kind) for name, family in families.items()]
        scene.check("the metrics", metrics == METRICS, metrics)
        return {(name, *(value for _, value in labels)): sample for family in families.values()
                for (name, labels), sample in family.samples.items()}

    def comes(self, name, value):
        """Whether a metric of one sample comes to have this value: what stands is told behind a turn."""
        return until(lambda: self.counted()[(name,)] == value, 5)

    def reloads(self, done, refused):
        """Whether it comes to tell of so many reloads."""
        return until(lambda: [self.counted()[("docs_reload_total", it)] for it in ("done", "refused")] == [done, refused], 5)

    def hears(self, line, told):
        """Writes a line on its standard input: whether what it prints then comes to end in this."""
        before = len(self.server.said())
        self.server.process.stdin.write(line)
        self.server.process.stdin.flush()
        return until(lambda: self.server.said()[before:].endswith(told), 10)

    def ends(self, name):
        scene.check(f"{name}: the end", self.server.end() == 0 and self.server.said() == "", self.server.said())


def replies():
    """Each kind of request at the door, and what is none."""
    site = Watched()
    for method in ("GET", "HEAD"):
        code, head, body = get(site.door, "/health", method)
        wanted = "HTTP/1.1 200 OK\r\nContent-Type: text/plain; charset=utf-8\r\nContent-Length: 3\r\nConnection: close"
        scene.check(f"{method} /health", (code, head, body) == (200, wanted, b"ok\n" if method == "GET" else b""), (head, body))
    for target in ("/", "/page/secret-plan.md", "/metrics/", "/health?x", "/Health", "*", "http://a/health", "/record?", "/record/", "/record?least=x"):
        scene.check(f"GET {target}", get(site.door, target)[0] == 404)
    for method in ("POST", "PUT", "DELETE", "get", "OPTIONS"):
        code, head, _ = get(site.door, "/health", method)
        scene.check(f"{method} /health", code == 405 and "\r\nAllow: GET, HEAD\r\n" in head, head)
        scene.check(f"{method} elsewhere", get(site.door, "/none", method)[0] == 404)
    for name, data in (("no target", b"GET\r\n\r\n"), ("no version", b"GET /health\r\n\r\n"), ("another version", b"GET /health HTTP/2.0\r\n\r\n"),
                       ("two spaces", b"GET  /health HTTP/1.1\r\n\r\n"), ("no text", b"\x16\x03\x01\x00\n"), ("an empty line", b"\r\n\r\n"),
                       ("a long line", b"GET /" + b"x" * 1_020 + b" HTTP/1.1\r\n\r\n"), ("no end of it", b"x" * 5_000)):
        scene.check(name, ask(site.door, data) == b"")
    most = b"GET /" + b"x" * (1_024 - len(b"GET / HTTP/1.1")) + b" HTTP/1.1\r\n\r\n"
    scene.check("the longest line", ask(site.door, most).startswith(b"HTTP/1.1 404 "))
    scene.check("a line feed alone", ask(site.door, b"GET /health HTTP/1.0\n\n").endswith(b"\r\n\r\nok\n"))
    scene.check("a long head", ask(site.door, b"GET /health HTTP/1.1\r\nX: " + b"y" * 9_000 + b"\r\n\r\n").endswith(b"\r\n\r\nok\n"))
    cut = socket.create_connection((HOST, site.door), timeout=10)
    for it in b"GET /health HTTP/1.1\r\n":
        cut.send(bytes([it]))
    scene.check("byte by byte", cut.recv(9_000).startswith(b"HTTP/1.1 200 "))
    cut.close()
    site.ends("replies")


def counters():
    """What is counted is what clients were answered."""
    site = Watched(["--log"])
    before = site.counted()
    scene.check("nothing yet", not any(value for name, value in before.items() if name not in (("docs_turn_seconds_max",), ("docs_pages",))), before)
    clients = [Client(site.server.port, token) for token in ("tok", "tok", "wrong")]
    sent = [0, 0]
    for client, target, method in ((clients[0], "/page/secret-plan.md", "GET"), (clients[0], "/page/none.md", "GET"),
                                   (clients[1], "/page/large.md", "GET"), (clients[1], "/page/large.md", "HEAD"),
                                   (clients[2], "/page/secret-plan.md", "GET"), (clients[0], "/page/n.md", "PUT")):
        code, head, body = client.ask(target, method, b"New" if method == "PUT" else b"")
        sent[0] += len(head) + 4 + len(body)
    found = site.counted()
    classes = [found[("docs_requests_total", it)] for it in ("2xx", "3xx", "4xx", "5xx")]
    scene.check("by class", classes == [4, 0, 2, 0], classes)
    scene.check("401", found[("docs_unauthorized_total",)] == 1)
    scene.check("edits", found[("docs_edits_total",)] == 1)
    scene.check("bytes", found[("docs_bytes_total",)] == sent[0], (found[("docs_bytes_total",)], sent))
    scene.check("connections", (found[("docs_connections",)], found[("docs_connections_most",)]) == (3, 3), found)
    clients[0].close()
    clients[2].close()
    scene.check("fewer of them", until(lambda: site.counted()[("docs_connections",)] == 1, 5))
    found = site.counted()
    scene.check("and as many at once before", found[("docs_connections_most",)] == 3)
    scene.check("a turn took some time", 0 <= found[("docs_turn_seconds_max",)] < 5)
    text = get(site.door, "/metrics")[2].decode()
    for it in ("tok", "secret", "plan", "inner", "wrong", "large"):
        scene.check(f"{it} stands nowhere", it not in text)
    scene.check("the end", site.server.end() == 0)


def pages():
    """Pages are counted as an owner sees them; edits leave no bytes where there is no journal."""
    site = Watched()
    owner, edits = Client(site.server.port, "tok"), 0
    for name, target, method, code, count in (("at the start", "/page/large.md", "GET", 200, 2), ("one more", "/page/n.md", "PUT", 201, 3),
                                              ("another text", "/page/n.md", "PUT", 204, 3), ("one less", "/page/large.md", "DELETE", 204, 2)):
        scene.check(f"pages: {name}: the reply", owner.ask(target, method, b"New" if method == "PUT" else b"")[0] == code)
        scene.check(f"pages: {name}", site.comes("docs_pages", count), site.counted())
        edits += method != "GET"
        scene.check(f"pages: {name}: edits", site.counted()[("docs_edits_total",)] == edits, site.counted())
        listed = set(re.findall(rb'href="(/page/[^"#]*)', owner.ask("/contents")[2]))
        scene.check(f"pages: {name}: as an owner sees them", len(listed) == count, listed)
    scene.check("pages: no journal", site.counted()[("docs_journal_bytes",)] == 0)
    site.ends("pages")


def records():
    """The journal's records are longer behind an edit, and behind nothing else; the next start finds them so."""
    site = Watched(journal="journal")
    scene.check("records: at the start", site.comes("docs_pages", 2), site.counted())
    before = site.counted()[("docs_journal_bytes",)]
    owner, nobody = Client(site.server.port, "tok"), Client(site.server.port, "wrong")
    scene.check("records: no edit: the replies", [owner.ask("/page/large.md")[0], nobody.ask("/page/n.md", "PUT", b"New")[0]] == [200, 401])
    scene.check("records: no edit", site.counted()[("docs_journal_bytes",)] == before)
    scene.check("records: an edit: the reply", owner.ask("/page/n.md", "PUT", b"New")[0] == 201)
    scene.check("records: an edit", until(lambda: site.counted()[("docs_journal_bytes",)] > before, 5), site.counted())
    found = site.counted()
    scene.check("records: the page", found[("docs_pages",)] == 3, found)
    behind = found[("docs_journal_bytes",)]
    scene.check("records: what stands behind them isn't counted", behind < os.path.getsize("journal"), behind)
    scene.ends(site.server, "records")
    again = Watched(journal="journal")
    scene.check("records: behind a start: the pages", again.comes("docs_pages", 3), again.counted())
    scene.check("records: behind a start", again.counted()[("docs_journal_bytes",)] == behind, again.counted())
    scene.ends(again.server, "records: behind a start")


def told(door, query=""):
    """What is told of the journal: the code, and the two words."""
    code, _, body = get(door, f"/record{query}")
    return code, *body.decode().split()


def how_far():
    """Which journal it is, and how many of its records are in the site, of a writer, of a follower and of one without a journal."""
    site = Watched(journal="far")
    identity = got("far")[22:54].decode()
    owner = Client(site.server.port, "tok")
    scene.check("how far: at the start", told(site.door) == (200, identity, "0"), told(site.door))
    for count in range(1, 4):
        scene.check(f"how far: edit {count}", owner.ask("/page/n.md", "PUT", b"New")[0] in (201, 204))
        scene.check(f"how far: behind it {count}", until(lambda: told(site.door) == (200, identity, str(count)), 5), told(site.door))
    owner.ask("/page/none.md", "DELETE")
    owner.ask("/page/large.md")
    door = free_port()
    follower = scene.listen("site.toml", options=["--follow", "far", "--status", f"{HOST}:{door}"])
    scene.check("how far: a follower", until(lambda: told(door) == (200, identity, "3"), 5), told(door))
    for query, code in (("?least=3", 200), ("?least=4", 503), (f"?of={identity}", 200), (f"?of={identity}&least=3", 200),
                        (f"?least=4&of={identity}", 503), ("?of=" + "0" * 32, 503), ("?of=x", 404), ("?least=3&least=3", 404)):
        scene.check(f"how far: {query}", (told(site.door, query)[0], told(door, query)[0]) == (code, code), told(site.door, query))
    owner.ask("/page/n.md", "DELETE")
    scene.check("how far: both", until(lambda: told(site.door)[2] == told(door, "?least=4")[2] == "4", 5), (told(site.door), told(door)))
    scene.check("how far: the end of the follower", follower.end() == 0)
    scene.ends(site.server, "how far: the end of the writer")
    again = Watched(journal="far")
    scene.check("how far: behind a start", told(again.door) == (200, identity, "4"), told(again.door))
    scene.ends(again.server, "how far: the end behind a start")
    alone = Watched()
    scene.check("how far: no journal", (told(alone.door), told(alone.door, "?least=0")[0], told(alone.door, "?least=1")[0])
                == ((200, "-", "0"), 200, 503), told(alone.door))
    code, head, _ = get(alone.door, "/record", "PUT")
    scene.check("how far: no other method", code == 405 and "\r\nAllow: GET, HEAD\r\n" in head, head)
    alone.ends("how far: no journal")


def reloads():
    """Reloads are counted by what came of them."""
    site = Watched()
    more = SITE + '[[reader]]\ntoken = "tok-more"\ngroups = []\n'
    scene.check("reloads: at the start", site.reloads(0, 0), site.counted())
    scene.check("reloads: none was done", site.counted()[("docs_reload_time_seconds",)] == 0, site.counted())
    last = 0
    for name, text, line, told, done, refused in (
        ("a reader more", more, b"reload\n", "reload: 2 readers, 0 pages put, 0 removed (record 0)\n", 1, 0),
        ("no change", more, b"reload\n", "reload: nothing has changed\n", 1, 0),
        ("a typo", more + "x =\n", b"reload\n", "\nreload refused: config\n", 1, 1),
        ("another line", more, b"relaod\n", "unknown line\n", 1, 1),
        ("a setting more", "keep_alive = true\n" + more, b"reload\n", "reload refused: needs a restart: `keep_alive`\n", 1, 2),
        ("a reader less", SITE, b"reload\n", "reload: 1 readers, 0 pages put, 0 removed (record 0)\n", 2, 2),
    ):
        put("site.toml", text)
        begun = int(time.time())
        scene.check(f"reloads: {name}: told", site.hears(line, told), site.server.said())
        scene.check(f"reloads: {name}", site.reloads(done, refused), site.counted())
        when = site.counted()[("docs_reload_time_seconds",)]
        is_done = told.startswith("reload: ") and "nothing" not in told
        scene.check(f"reloads: {name}: when", begun <= when <= time.time() if is_done else when == last, (begun, when, last))
        last = when
    scene.check("reloads: pages stay", site.counted()[("docs_pages",)] == 2)
    scene.check("reloads: the end", site.server.end() == 0)


def silent():
    """Three hundred at the door who say nothing: a reader is answered as ever, and the door is free again behind them."""
    site = Watched()
    peers = []
    for _ in range(300):
        peers.append(socket.create_connection((HOST, site.door), timeout=10))
    reader = Client(site.server.port, "tok")
    slowest = 0
    for _ in range(50):
        begun = time.monotonic()
        scene.check("a reader", reader.ask("/page/secret-plan.md")[0] == 200)
        slowest = max(slowest, time.monotonic() - begun)
    print(f"slowest reply to a reader beside 300 silent monitors: {slowest * 1_000:.0f} ms")
    for it in peers:
        it.close()
    scene.check("the door is free again", until(lambda: get(site.door, "/health")[0] == 200, 10))
    site.ends("silent")


def taken():
    """An address that isn't free stops the start."""
    busy = socket.create_server((HOST, 0))
    try:
        put("site.toml", OWNER)
        scene.listen("site.toml", options=["--status", f"{HOST}:{busy.getsockname()[1]}"]).kill()
        scene.check("an address that isn't free", False)
    except Refused as refused:
        scene.check("an address that isn't free", (refused.status, refused.said) == (2, "docs_server: socket\n"), refused.said)


def main():
    for it in (replies, counters, pages, records, how_far, reloads, silent, taken):
        it()


scene.run(main)
