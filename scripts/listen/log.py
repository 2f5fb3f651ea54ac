"""The log of `listen` in both its forms: each request's line, field by field, beside what its client was answered: pages, edits, queries,
pipelines in one write, requests cut anywhere, bad ones, long ones, slow readers, with a journal and without. As JSON, which `jq` reads too
where it is there, it has who asked, by name or row, and when. A token stands nowhere in it. A log that can't be written stops nobody.

    python3 scripts/listen/log.py PROGRAM

Builds nothing. Needs python3. Some seconds.
"""
import base64, datetime, json, os, random, re, shutil, socket, subprocess, sys, time, urllib.parse
sys.path.insert(1, os.path.dirname(__file__) + "/../lib")
from scene import HOST, Scene, free_port, put, start, until

scene = Scene(seconds=300)
OWNER, PLAIN, WRONG = "tok-Owner-7c1f", "tok-plain-55aa", "tok-wrong-0b9d"
SECRETS = [OWNER, PLAIN, WRONG, "searched-for", "Bearer", "bearer", "Basic"]
# who has the token, by name or row
READERS = {OWNER: "ann", PLAIN: "reader-2"}
FORMS = ("--log", "--log=json")
LINE = re.compile(r"(\d+) ([A-Z]{1,16}|-) (/[!-~]*|-) (\d{3}) (\d+) (\d+)\n")
KEYS = ["time", "conn", "reader", "method", "path", "code", "bytes", "us"]
TIME = re.compile(r"\d{4}-\d\d-\d\dT\d\d:\d\d:\d\d\.\d{6}Z")


class Peer:
    """A connection, which notes what it asks and what it is answered."""

    def __init__(self, port, buffer=None):
        self.socket = socket.socket()
        if buffer:
            self.socket.setsockopt(socket.SOL_SOCKET, socket.SO_RCVBUF, buffer)
        self.socket.settimeout(20)
        self.socket.connect((HOST, port))
        if not buffer:
            self.socket.setsockopt(socket.IPPROTO_TCP, socket.TCP_NODELAY, 1)
        self.left, self.asked, self.seen = b"", [], []

    def send(self, *requests, cuts=(), pause=0.003):
        """Sends requests, each the bytes, and what is to be logged of it: method, target, and who asks, where somebody does; in one write,
        or cut at these places."""
        data = b"".join(it[0] for it in requests)
        self.asked += [(it[1], it[2], *(it[3:] or ("-",))) for it in requests]
        places = [0, *sorted(set(cuts)), len(data)]
        for begin, end in zip(places, places[1:]):
            if begin < end:
                self.socket.sendall(data[begin:end])
                if end < len(data):
                    time.sleep(pause)
        return self

    def more(self, count=262_144):
        got = self.socket.recv(count)
        if not got:
            raise ConnectionError("the connection ended")
        self.left += got

    def replies(self, count=None, pause=0, piece=262_144):
        """Reads so many replies, or all that are owed: of each its code and how many bytes it has."""
        for _ in range(len(self.asked) - len(self.seen) if count is None else count):
            while b"\r\n\r\n" not in self.left:
                time.sleep(pause)
                self.more(piece)
            end = self.left.index(b"\r\n\r\n") + 4
            length = re.search(rb"\r\nContent-Length: (\d+)", self.left[:end])
            if length and self.asked[len(self.seen)][0] != "HEAD":
                end += int(length[1])
            while len(self.left) < end:
                time.sleep(pause)
                self.more(piece)
            self.seen.append((int(self.left[9:12]), end))
            self.left = self.left[end:]
        return self

    def close(self):
        self.socket.close()
        return self


def request(method, target, token=OWNER, body=b"", fields="", version="1.1", logged=None):
    """A request, and what is to be logged of it: method, target and who asks."""
    head = f"{method} {target} HTTP/{version}\r\nHost: docs\r\n" + (f"Authorization: Bearer {token}\r\n" if token else "") + fields
    length = f"Content-Length: {len(body)}\r\n" if body or method == "PUT" else ""
    return (head + length + "\r\n").encode() + body, *(logged or (method, target.split("?")[0])), READERS.get(token, "-")


def chunked(target, body, size):
    parts = b"".join(b"%x\r\n%s\r\n" % (len(body[i:i + size]), body[i:i + size]) for i in range(0, len(body), size)) + b"0\r\n\r\n"
    head = f"PUT {target} HTTP/1.1\r\nHost: docs\r\nAuthorization: Bearer {OWNER}\r\nTransfer-Encoding: chunked\r\n\r\n"
    return head.encode() + parts, "PUT", target, READERS[OWNER]


def told_plainly(line):
    """Of a line what it tells, without who asked: connection, method, target, code, bytes, microseconds. None where it is none."""
    found = LINE.fullmatch(line)
    return found and (int(found[1]), None, found[2], found[3], *map(int, found.groups()[3:]))


def told_as_json(line):
    """The same with who asked. The line is an object of these keys in their order, without a space, in ASCII."""
    try:
        found = json.loads(line)
    except ValueError:
        return None
    if list(found) != KEYS or line != json.dumps(found, separators=(",", ":")) + "\n" or not TIME.fullmatch(found["time"]):
        return None
    return tuple(found[it] for it in KEYS[1:])


def moment(line):
    """When the reply of a line was handed over, in seconds since 1970."""
    return datetime.datetime.fromisoformat(json.loads(line)["time"].replace("Z", "+00:00")).timestamp()


class Logged:
    """A server with a log, and what its peers were answered."""

    def __init__(self, form, options=(), config="site.toml"):
        self.as_json = form == "--log=json"
        self.began = time.time()
        self.server = scene.listen(config, options=[form, *options])
        self.peers = []

    def peer(self, buffer=None):
        self.peers.append(Peer(self.server.port, buffer))
        return self.peers[-1]

    def ends(self, name):
        """Ends it, and compares its lines with what was answered: those of each connection in their order."""
        wanted = sum(len(it.seen) for it in self.peers)
        until(lambda: self.server.said().count("\n") >= wanted, 5)
        time.sleep(0.05)
        status, text = self.server.end(), self.server.said().removeprefix("docs_server: new journal journal\n")
        scene.check(f"{name}: it ends", status == 0, status)
        lines = text.splitlines(keepends=True)
        fields = [(told_as_json if self.as_json else told_plainly)(it) for it in lines]
        scene.check(f"{name}: a line has its fields", all(fields), [it for it, found in zip(lines, fields) if not found][:3])
        scene.check(f"{name}: a line each", len(lines) == wanted, f"{len(lines)} of {wanted}")
        if self.as_json and all(fields):
            self.moments(name, lines)
        fields = [it for it in fields if it]
        self.compare(name, fields)
        decoded = urllib.parse.unquote(text)
        for it in SECRETS:
            scene.check(f"{name}: {it} stands nowhere", it not in text and it not in decoded)
        return [it[6] for it in fields]

    def moments(self, name, lines):
        """The lines are in the order of their times, all of these while the server ran; and `jq` reads them, where it is there."""
        times = [moment(it) for it in lines]
        scene.check(f"{name}: times", times == sorted(times) and self.began - 1 < times[0] and times[-1] < time.time() + 1, times[:2])
        if shutil.which("jq"):
            done = subprocess.run(["jq", "-r", ".conn"], input="".join(lines).encode(), capture_output=True)
            read = (done.returncode, done.stdout.decode().splitlines())
            scene.check(f"{name}: jq", read == (0, [str(json.loads(it)["conn"]) for it in lines]), done.stderr[:100])

    def compare(self, name, fields):
        """The lines of each connection, in their order, tell what its peer asked and was answered."""
        found = {}
        for conn, reader, method, path, code, count, _ in fields:
            found.setdefault(conn, []).append((method, path, reader, code, count))
        given = [[(*line[:2], line[2] if self.as_json else None, *reply) for line, reply in zip(it.asked, it.seen)] for it in self.peers]
        given = [it for it in given if it]
        # numbers of connections are given in the order in which these came
        said = [found[it] for it in sorted(found)]
        for number, (it, that) in enumerate(zip(given, said)):
            wrong = [pair for pair in zip(it, that) if pair[0] != pair[1]]
            scene.check(f"{name}: connection {number}", it == that, wrong[:2] or (len(it), len(that)))
        scene.check(f"{name}: connections", len(given) == len(said), (len(given), len(said)))


# ---- what is asked

QUOTES = '/page/"' + '\\"' * 600
ONE_BY_ONE = (
    request("GET", "/page/a.md"), request("HEAD", "/page/a.md"), request("GET", "/page/a.md", PLAIN),
    request("GET", "/page/a.md", WRONG), request("GET", "/page/a.md", None), request("GET", "/page/none.md"),
    request("PUT", "/page/n.md", body=b"New"), request("PUT", "/page/n.md?groups=searched-for", body=b"Newer " * 9_000),
    request("GET", "/page/n.md"), request("PUT", "/page/n.md", PLAIN, b"No"), request("DELETE", "/page/n.md"),
    request("GET", "/search?q=searched-for"), request("GET", "/search?q=searched-for?" + OWNER), request("POST", "/page/a.md"),
    request("GET", "/"), request("GET", "/?" + OWNER), request("GET", "/page/big.md"), request("HEAD", "/page/big.md"),
    request("get", "/page/a.md", logged=("-", "/page/a.md")), request("X" * 17, "/page/a.md", logged=("-", "/page/a.md")),
    request("GET", "http://docs/page/a.md", logged=("GET", "-")), request("OPTIONS", "*", logged=("OPTIONS", "-")),
    request("GET", "/page/" + "p" * 994), request("GET", "/page/" + "p" * 995, logged=("GET", "/page/" + "p" * 994 + "...")),
    request("GET", "/page/é\u0085", logged=("GET", "/page/%C3%A9%C2%85")), request("GET", "/page/%0A%1B[2J"),
    request("GET", "/page/" + "%" * 9_000 + "?" + OWNER, logged=("GET", "/page/" + "%" * 994 + "...")),
    request("GET", '/page/"a\\b"\\'), request("GET", QUOTES, logged=("GET", QUOTES[:1_000] + "...")),
    request("GET", "/page/a.md", fields="Cookie: " + OWNER + "\r\n"),
    request("GET", "/page/a.md", fields="Connection: close\r\n"),
)
SECRET = f"Authorization: Bearer {OWNER}\r\n"
BAD = (
    (b"\r\n\r\nnonsense\r\n\r\n", "-", "-"), (SECRET.encode() + b"\r\n", "-", "-"),
    (f"{OWNER} /a HTTP/1.1\r\n\r\n".encode(), "-", "/a"),
    (f"GET /page/a.md?{OWNER} HTTP/1.1\r\n{SECRET}\r\n".encode(), "GET", "/page/a.md"),
    (f"GET {OWNER} HTTP/1.1\r\n{SECRET}{SECRET}\r\n".encode(), "GET", "-"), (f"AUTH {OWNER}\r\n\r\n".encode(), "-", "-"),
    (f"GET /{OWNER} HTTP/1.1 x\r\n\r\n".encode(), "-", "-"),
    (f"GET /page/a.md HTTP/2.0\r\nHost: a\r\n{SECRET}\r\n".encode(), "-", "-"),
    (f"GET /page/a.md HTTP/1.1\r\nHost: a\r\nHost: b\r\n{SECRET}\r\n".encode(), "GET", "/page/a.md"),
    (f"GET /page/a.md HTTP/1.1\nHost: a\n{SECRET}\r\n\r\n".encode(), "GET", "/page/a.md"),
    (b"\x16\x03\x01" + bytes(range(256)) * 80, "-", "-"), (b"GET /" + b"l" * 20_000, "-", "-"),
    (f"GET /page/a.md HTTP/1.1\r\nHost: a\r\nX: {OWNER * 2_000}\r\n\r\n".encode(), "GET", "/page/a.md"),
    (f"PUT /page/a.md HTTP/1.1\r\nHost: a\r\n{SECRET}Content-Length: 1048577\r\n\r\n".encode(), "PUT", "/page/a.md"),
    (f"PUT /page/a.md HTTP/1.1\r\nHost: a\r\n{SECRET}Transfer-Encoding: gzip\r\n\r\n".encode(), "PUT", "/page/a.md"),
    (f"PUT /page/a.md HTTP/1.1\r\nHost: a\r\n{SECRET}Transfer-Encoding: chunked\r\n\r\n{OWNER}\r\n".encode(), "PUT", "/page/a.md"),
)
OPTIONS = (
    (["--log=json"], True), (["--journal", "j", "--log=json"], True), (["--log=json", "--journal", "j"], True),
    (["--log=json", "--log=json"], False), (["--log=json", "--log"], False), (["--log", "--log=json"], False), (["--log=JSON"], False),
    (["--log", "json"], False),
    (["--log"], True), (["--journal", "j", "--log"], True), (["--log", "--journal", "j"], True), (["--journal", "--log"], True),
    (["--journal", "--log", "--log"], True), (["--log", "--log"], False), (["--log", "x"], False), (["--journal"], False),
    (["--log", "--journal"], False), (["--journal", "j", "--journal", "k"], False), (["--log", "--log", "--log"], False),
    (["--journal", "j", "--log", "--log"], False), (["--journal", "j", "x"], False), (["log"], False), (["--Log"], False),
    (["--log="], False), ([""], False),
)


def one_by_one(log):
    """Each kind of request, the next one behind the last reply."""
    peer = log.peer()
    for it in ONE_BY_ONE:
        peer.send(it).replies()
    peer.close()
    log.peer().send(request("GET", "/page/a.md", version="1.0")).replies().close()


def bad(log):
    """What is no request: the reply is the last one. Of its first line nothing is logged that may be something else."""
    for data, method, target in BAD:
        log.peer().send((data, method, target)).replies().close()
    good = request("GET", "/page/a.md")
    log.peer().send(good, good, (b"BAD " + good[0], "-", "-")).replies().close()


def pipelines(log):
    """Many requests in one write, each with a line of its own."""
    rows = [request("GET", "/page/a.md"), request("HEAD", "/page/a.md"), request("GET", "/none?" + OWNER),
            request("PUT", "/page/p.md", body=b"P"), request("GET", "/page/p.md"), request("GET", "/page/a.md", WRONG),
            request("DELETE", "/page/p.md"), chunked("/page/c.md", b"C" * 99, 7)]
    fake = request("GET", "/page/evil.md")[0] * 50
    rows += [request("PUT", "/page/e.md", body=fake), chunked("/page/e.md", fake, 13), request("GET", "/page/e.md")]
    log.peer().send(*rows).replies().close()
    log.peer().send(*rows * 40).replies().close()
    log.peer().send(*[request("GET", f"/page/{i}.md", None) for i in range(3_000)]).replies().close()
    # behind a request that ends the connection nothing is answered
    log.peer().send(rows[0], request("GET", "/page/a.md", fields="Connection: close\r\n")).replies().send(rows[0]).close()


def cut(log, tries=60):
    """Requests cut at places that differ each time."""
    chance = random.Random(11)
    rows = [request("GET", "/page/a.md?" + OWNER), request("PUT", "/page/u.md", body=b"GET /page/x.md HTTP/1.1\r\n\r\n" * 30),
            chunked("/page/u.md", b"0\r\n\r\n" * 60, 11), request("GET", "/page/u.md"), request("HEAD", "/page/a.md")]
    for _ in range(tries):
        chosen = [chance.choice(rows) for _ in range(chance.randint(1, 6))]
        length = sum(len(it[0]) for it in chosen)
        log.peer().send(*chosen, cuts=[chance.randrange(length) for _ in range(chance.randint(1, 6))], pause=0.001).replies().close()
    one = request("GET", "/page/a.md")
    log.peer().send(one, one, cuts=range(2 * len(one[0])), pause=0.0003).replies().close()
    log.peer().send(request("PUT", "/page/u.md", body=b"u" * 1_000_000)).replies().close()


def slow(log):
    """A peer that takes its replies bit by bit, and one that goes before it took them."""
    big = request("GET", "/page/big.md")
    peer = log.peer(buffer=4_096)
    peer.send(*[big, request("GET", "/page/a.md")] * 20).replies(pause=0.0005, piece=65_536).close()
    # the rest isn't handed over, and has no line: what came through has
    gone = log.peer()
    gone.send(request("GET", "/page/a.md")).replies()
    gone.close()


def sign_in(token, user="somebody"):
    """The field of a browser's login, whose password is a token."""
    return "Authorization: Basic " + base64.b64encode(f"{user}:{token}".encode()).decode() + "\r\n"


def names():
    """Who asks, as JSON has it: a name, or the number of the row, of whom the configuration knows, and `-` for all others and for guests.
    A password counts where readers may sign in by one."""
    rows = (("a", 'name = "ann"'), ("b", ""), ("c", 'name = "-"'), ("d", 'name = "j.doe-2_x@example.org"'), ("e", "Name = 5"),
            ("f", f'name = "{"n" * 32}"'), ("g", 'name = "reader-1"'), ("h", "owner = true"), ("i", 'name = "ann"'), ("j", "groups = []"))
    good = {"a": "ann", "c": "-", "d": "j.doe-2_x@example.org", "f": "n" * 32, "g": "reader-1", "i": "ann"}
    readers = "".join(f'[[reader]]\ntoken = "tok-{token}-12af"\n{line}\n' for token, line in rows)
    page = '[[page]]\npath = "a.md"\ntext = "Hello"\n'
    SECRETS.extend(f"tok-{token}-12af" for token, _ in rows)
    for site, browse, login in (("plain", "", False), ("guests", "[browse]\nguest = []\n", False),
                                ("logins", '[browse]\nlogin = "basic"\n', True)):
        put(f"{site}.toml", browse + readers + page)
        log = Logged("--log=json", config=f"{site}.toml")
        peer = log.peer()
        for number, (token, _) in enumerate(rows, 1):
            token, name = f"tok-{token}-12af", good.get(token, f"reader-{number}")
            for asked, said in ((f"Authorization: Bearer {token}\r\n", name), (f"authorization: BEARER   {token} \r\n", name),
                                (sign_in(token), name if login else "-"), (sign_in(token + "="), "-"), (sign_in(token, "a\x01"), "-"),
                                (f"Authorization: Bearer {token}x\r\n", "-"), (f"Authorization: {token}\r\n", "-"),
                                (f"Authorization: Bearer {token[:-1]}\r\n", "-"), (f"Authorization: Digest {token}\r\n", "-"), ("", "-")):
                peer.send((*request("GET", "/page/a.md", None, fields=asked)[:3], said)).replies()
        peer.close()
        log.ends(f"names, {site}")


def many(form):
    """Many peers at once, and the time of each reply."""
    log = Logged(form)
    peers = [log.peer() for _ in range(200)]
    for it in peers:
        it.send(request("GET", "/page/a.md")).replies()
    begun = time.monotonic()
    for _ in range(20):
        for it in peers:
            it.send(request("GET", "/page/a.md"))
        for it in peers:
            it.replies()
    took = (time.monotonic() - begun) * 1_000_000
    micros = log.ends(f"{form}, 200 peers")
    scene.check(f"{form}, 200 peers: microseconds", max(micros) < took + 100_000 and sum(micros) > 0, (max(micros), took))


def answers(port):
    try:
        return Peer(port).send(*[request("GET", "/page/a.md")] * 300).replies().seen[-1][0] == 200
    except OSError:
        return False


def unwritten():
    """A log that can't be written, and one that isn't wanted."""
    broken = (("a full device", open("/dev/full", "wb")), ("a closed pipe", None))
    for form, name, stderr in ((form, *it) for form in FORMS for it in broken):
        back, front = os.pipe()
        os.close(back)
        port = free_port()
        it = start([scene.program, "listen", "site.toml", f"{HOST}:{port}", form], stdin=subprocess.PIPE, stdout=subprocess.DEVNULL,
                   stderr=stderr or front)
        os.close(front)
        scene.check(f"{form}, {name}: it answers", until(lambda: answers(port), 10) and answers(port))
        it.stdin.close()
        scene.check(f"{form}, {name}: it ends", it.wait(timeout=10) == 0)
    server = scene.listen("site.toml")
    Peer(server.port).send(request("GET", "/page/a.md")).replies().close()
    scene.check("no log: it ends", server.end() == 0)
    scene.check("no log: nothing is written", server.said() == "", server.said()[:100])


def options():
    for words, good in OPTIONS:
        given = {"input": b""} if good else {"stdin": subprocess.DEVNULL}
        done = subprocess.run([scene.program, "listen", "site.toml", f"{HOST}:{free_port()}", *words], stdout=subprocess.DEVNULL,
                              stderr=subprocess.PIPE, timeout=20, **given)
        wanted = (0, b"") if good else (2, b"docs_server: usage\n")
        said = re.sub(rb"docs_server: (new journal .*|unknown option: .*|.* (needs a file|stands twice))\n", b"", done.stderr)
        scene.check(" ".join(["listen", *words]), (done.returncode, said) == wanted, (done.returncode, done.stderr))


def main():
    put("site.toml", f'[[reader]]\ntoken = "{OWNER}"\nowner = true\nname = "ann"\n[[reader]]\ntoken = "{PLAIN}"\n'
        '[[page]]\npath = "a.md"\ntext = "Hello"\n[[page]]\npath = "big.md"\nfile = "big.md"\n')
    put("big.md", "word " * 40_000)
    for form, name, chosen in ((form, *it) for form in FORMS for it in (("kept", []), ("journal", ["--journal", "journal"]))):
        for part in (one_by_one, bad, pipelines, cut, slow):
            log = Logged(form, chosen)
            part(log)
            log.ends(f"{form}, {name}, {part.__name__}")
    names()
    for form in FORMS:
        many(form)
    unwritten()
    options()


scene.run(main)
