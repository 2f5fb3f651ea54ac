"""What strangers get who come to `listen` through a proxy, by the templates in site/ as they stand:

- nginx answers the first of 400 wrong passwords by 401 and the others by 429, and a second later the right one works again; another
  address isn't slowed meanwhile; of 60 requests at a time the last ones are 429;
- nginx ends who sends no head, and who sends one byte of it now and then, and who stops within a body; docs_server never sees one of them;
- where fail2ban is there, its filter nginx-http-auth knows each wrong password in nginx's log of errors;
- nginx and haproxy answer `Expect: 100-continue` by themselves, and haproxy ends who sends no head;
- without a proxy docs_server ends strangers, silent or not, and a slow request; who was answered goes on;
- behind 1,024 strangers, silent, with a byte a second, or with wrong tokens, a reader is answered within 3 seconds.

    python3 scripts/listen/strangers.py PROGRAM

Builds nothing. Needs python3, openssl, and nginx, haproxy and curl, which it has installed where they lack. Two minutes.
"""
import base64, os, re, shutil, socket, ssl, subprocess, sys, threading, time
sys.path.insert(1, os.path.dirname(__file__) + "/../lib")
from proxies import Haproxy, Nginx, keys
from scene import HOST, Scene, got, put

scene = Scene(seconds=240, needs=["nginx=nginx-light", "haproxy", "curl", "openssl"], at_top=True)
SITE = """[listen]
idle_seconds = 4
stranger_seconds = 2
request_seconds = 6

[[reader]]
token = "tok-owner"
owner = true

[[page]]
path = "index.md"
text = "# Here"
"""
OTHER = "127.0.0.2"


class Peer:
    """A connection from an address, to nginx by TLS where `secure` is."""

    def __init__(self, port, secure=True, source=HOST):
        raw = socket.create_connection((HOST, port), timeout=30, source_address=(source, 0))
        context = ssl.create_default_context(cafile=f"{scene.scratch}/cert") if secure else None
        self.socket = context.wrap_socket(raw, server_hostname=HOST) if secure else raw

    def send(self, *lines, body=b""):
        self.socket.sendall("\r\n".join([*lines, "Host: docs", "", ""]).encode() + body)

    def code(self):
        """The code of the next reply, whose content is read too; 0 where the connection ends in place of one."""
        head = self.up_to(b"\r\n\r\n")
        length = re.search(rb"(?i)content-length: (\d+)", head)
        if length:
            self.up_to(None, int(length[1]))
        return int(head.split()[1]) if head else 0

    def up_to(self, end, count=0):
        found = b""
        while not found.endswith(end) if end else len(found) < count:
            byte = self.socket.recv(1 if end else count - len(found))
            if not byte:
                return b""
            found += byte
        return found

    def ends_within(self, seconds, sent=b""):
        """How long the connection goes on, with one byte of `sent` each second."""
        begin = time.monotonic()
        self.socket.settimeout(1)
        for at in range(seconds):
            try:
                self.socket.sendall(sent[at:at + 1])
                while self.socket.recv(4096):
                    pass
                return time.monotonic() - begin
            except TimeoutError:
                pass
            except OSError:
                return time.monotonic() - begin
        return None


def basic(password):
    return "Authorization: Basic " + base64.b64encode(f"owner:{password}".encode()).decode()


def tried(port, password, count, source=HOST):
    """The codes of so many tries of a password, as fast as they go on one connection after the other."""
    codes, peer = [], None
    while len(codes) < count:
        peer = peer or Peer(port, source=source)
        peer.send("GET /page/index.md HTTP/1.1", basic(password))
        codes.append(peer.code())
        if not codes[-1]:
            codes.pop()
            peer = None
    return codes


def check_guesses(proxy):
    begin = time.monotonic()
    codes = tried(proxy.port, "wrong", 400)
    took, wrong = time.monotonic() - begin, codes.count(401)
    print(f"nginx: 400 wrong passwords in {took:.2f} s: {wrong} were 401, {codes.count(429)} were 429", flush=True)
    # those of the burst, and 20 more for each second that it took
    scene.check("nginx: wrong passwords", 100 <= wrong <= 102 + 20 * took and wrong + codes.count(429) == 400, codes)
    scene.check("nginx: another address meanwhile", tried(proxy.port, "secret-owner", 5, OTHER) == [200] * 5)
    time.sleep(1)
    found = tried(proxy.port, "secret-owner", 10)
    scene.check("nginx: the right one a second later", found == [200] * 10, found)


def check_banned(log):
    """fail2ban's own filter finds each wrong password that nginx told."""
    wrong = got(log).decode().count("password mismatch")
    scene.check("nginx tells wrong passwords in its log of errors", wrong >= 100, wrong)
    if not shutil.which("fail2ban-regex"):
        return print("fail2ban isn't there: its filter is not tried")
    told = subprocess.run(["fail2ban-regex", log, "nginx-http-auth"], capture_output=True, text=True, timeout=60).stdout
    found = re.search(r"(\d+) matched", told)
    return scene.check("fail2ban's filter nginx-http-auth finds them", found and int(found[1]) == wrong, (wrong, told[-300:]))


def check_many(proxy):
    """Requests whose bodies don't come: 50 of an address are waited for, for ten seconds, and the next ones are refused."""
    # until the burst is free again
    time.sleep(6)
    peers, begin = [], time.monotonic()
    for _ in range(60):
        peers.append(Peer(proxy.port))
        peers[-1].send("PUT /page/index.md HTTP/1.1", basic("secret-owner"), "Content-Length: 5")
    time.sleep(0.5)
    codes = []
    for peer in peers:
        peer.socket.settimeout(0.05)
        try:
            codes.append(peer.code())
        except TimeoutError:
            codes.append(None)
    scene.check("nginx: 60 requests at a time", codes == [None] * 50 + [429] * 10, codes)
    peers[0].socket.settimeout(30)
    code, took = peers[0].code(), time.monotonic() - begin
    scene.check("nginx: a body that doesn't come", code in (0, 408) and 9 < took < 13, (code, took))


def check_silent(peers):
    """Peers that send nothing, or a byte a second of a head: each one's connection ends between two times, or goes on where None stands."""
    def wait(name, peer, sent, bounds):
        found = peer.ends_within(20, sent)
        print(f"{name}: " + (f"ended after {found:.1f} s" if found else "goes on for 20 s"), flush=True)
        scene.check(name, bounds[0] <= found <= bounds[1] if found and bounds else found == bounds, found)

    waits = [threading.Thread(target=wait, args=peer) for peer in peers]
    for each in waits:
        each.start()
    for each in waits:
        each.join()


def check_expect(name, peer, login, answers):
    """Whether a proxy answers 100 before the body comes; the reply behind it."""
    peer.send("PUT /page/new.md HTTP/1.1", login, "Content-Length: 5", "Expect: 100-continue")
    peer.socket.settimeout(0.7)
    try:
        code = peer.code()
    except TimeoutError:
        code = None
    peer.socket.settimeout(20)
    peer.socket.sendall(b"text\n")
    scene.check(f"{name}: Expect: 100-continue", code == (100 if answers else None), code)
    last = peer.code()
    scene.check(f"{name}: the reply behind it", last in (201, 204), last)


CROWD = 1024


def crowd_comes(port, sent):
    """So many strangers more than there are places for, each with some bytes; and who keeps on sending a byte a second, until it is told."""
    peers, over = [], threading.Event()
    for _ in range(CROWD + 200):
        peer = socket.socket()
        peer.setblocking(False)
        peer.connect_ex((HOST, port))
        peers.append(peer)
    time.sleep(0.3)

    def keep_sending():
        at = 0
        while not over.is_set():
            for peer in peers:
                try:
                    peer.send(sent[at:] if at == 0 and sent.endswith(b"\r\n\r\n") else sent[at:at + 1])
                except OSError:
                    pass
            at += 1
            over.wait(1)

    sending = threading.Thread(target=keep_sending)
    sending.start()
    return peers, over, sending


def check_crowd(known, port, what, sent):
    """A reader comes behind a crowd, and one who was there before goes on."""
    peers, over, sending = crowd_comes(port, sent)
    begin = time.monotonic()
    reader = Peer(port, False)
    reader.send("GET /page/index.md HTTP/1.1", "Authorization: Bearer tok-owner")
    code, took = reader.code(), time.monotonic() - begin
    print(f"behind {CROWD + 200} strangers, {what}: answered after {took:.2f} s", flush=True)
    scene.check(f"a reader behind strangers, {what}", code == 200 and took < 3, (code, took))
    known.send("GET /page/index.md HTTP/1.1", "Authorization: Bearer tok-owner")
    scene.check(f"one who was there before, {what}", known.code() == 200)
    over.set()
    sending.join()
    for peer in peers:
        peer.close()
    time.sleep(2)


def check_crowds(server):
    known = Peer(server.port, False)
    known.send("GET /page/index.md HTTP/1.1", "Authorization: Bearer tok-owner")
    scene.check("a reader before the strangers", known.code() == 200)
    wrong = b"GET /page/index.md HTTP/1.1\r\nHost: docs\r\nAuthorization: Bearer wrong\r\n\r\n"
    for what, sent in (("silent", b""), ("a byte a second", wrong[:-4]), ("wrong tokens", wrong)):
        check_crowd(known, server.port, what, sent)
    time.sleep(15)
    known.send("GET /page/index.md HTTP/1.1", "Authorization: Bearer tok-owner")
    scene.check("a known one is silent for 15 seconds, and goes on", known.code() == 200)


def main():
    keys(scene)
    put(f"{scene.scratch}/site.toml", SITE)
    log = f"{scene.scratch}/errors"
    put(f"{scene.scratch}/plain.toml", SITE[SITE.index("[[reader]]"):])
    server, other, plain = (scene.listen(f"{scene.scratch}/{name}.toml", options=options)
                            for name, options in (("site", ["--log"]), ("site", []), ("plain", [])))
    nginx = Nginx(scene, server.port, f"error_log {log};", limited=True)
    haproxy = Haproxy(scene, other.port, other.port)
    bearer = "Authorization: Bearer tok-owner"
    try:
        scene.check("nginx and haproxy listen", nginx.begins() and haproxy.begins())
        time.sleep(1)
        check_guesses(nginx)
        check_banned(log)
        seen = server.said().count("\n")
        scene.check("docs_server saw the right passwords alone", seen == 15, server.said())
        check_many(nginx)
        check_expect("nginx", Peer(nginx.port), basic("secret-owner"), True)
        check_expect("haproxy", Peer(haproxy.port, False), bearer, True)
        check_expect("no proxy", Peer(other.port, False), bearer, False)
        ways = (("nginx", nginx.port, True, (8, 12), (8, 12)), ("haproxy", haproxy.port, False, (8, 12), (8, 12)),
                ("no proxy", other.port, False, (2, 4), (2, 4)))
        head = b"GET /page/index.md HTTP/1.1\r\n"
        slow = Peer(other.port, False)
        slow.send("GET /page/index.md HTTP/1.1", bearer)
        scene.check("no proxy: a known one", slow.code() == 200)
        check_silent([(f"{name}: {what}", Peer(port, secure), sent, bounds) for name, port, secure, *each in ways
                      for what, sent, bounds in zip(("no head", "a byte a second"), (b"", head), each)]
                     + [("no proxy: a known one, a byte a second", slow, head, (6, 8))])
        check_crowds(plain)
    finally:
        nginx.ends()
        haproxy.ends()
    scene.check("docs_server ends in order", server.end() == 0 and other.end() == 0 and plain.end() == 0)


scene.run(main)
