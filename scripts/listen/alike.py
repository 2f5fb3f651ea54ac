"""Sends the same bytes to `serve` and to `listen` over the handbook in site/, and compares what comes back, byte for byte up to the end of
each connection: whole requests of each route by each reader, pipelines, edits with what is read behind them, and requests that are none
(each fault of docs/HTTP.md). The pages for people and folders, which `listen` alone has, are turned off. To `listen` they are sent at once, and again in pieces of a few bytes, and no connection of it is reset,
as that of `serve` may be where bytes behind a last reply weren't read. scripts/site/serve_site.py compares the replies of `serve` with ones
written by hand.

    python3 scripts/listen/alike.py PROGRAM [SEED]

Builds nothing. Needs python3. Half a minute.
"""
import os, random, socket, subprocess, sys, threading, time, tomllib
sys.path.insert(1, os.path.dirname(__file__) + "/../lib")
from scene import HOST, TOP, Scene, free_port, put, read_by_all, request, start

scene = Scene(seconds=200, numbers=(1,), at_top=True)
chance = random.Random()
CONFIG, FAILED = "site/config.toml", "\nfailed: "
with open(f"{TOP}/{CONFIG}", "rb") as file:
    PATHS = [page["path"] for page in tomllib.load(file)["page"]] + ["never.md", "ops/", "a/../b.md", "%ff.md", "x%2Fy.md", "guide"]
TARGETS = ["/page/" + path for path in PATHS] + ["/backlinks/" + path for path in PATHS]
TARGETS += ["/contents", "/broken", "/search?q=incident", "/search?q=", "/search", "/", "/contents/", "/page/", "*", "http://docs/contents"]
TOKENS = ("tok-owner", "tok-ann", "tok-bob", "tok-x")
GET = b"GET /page/index.md HTTP/1.1\r\nHost: docs\r\nAuthorization: Bearer tok-ann\r\n"
CHUNKED = b"Transfer-Encoding: chunked\r\n"
ODD = [
    GET + b"Connection: close\r\n\r\n" + GET + b"\r\n", GET.replace(b"1.1", b"1.0") + b"\r\n" + GET + b"\r\n",
    b"\r\n\r\n" + GET + b"\r\n", b"", GET, GET.replace(b"\r\n", b"\n") + b"\n", GET + b"Host: other\r\n\r\n",
    GET.replace(b"Host: docs\r\n", b"") + b"\r\n", GET + b"Authorization: Bearer tok-owner\r\n\r\n",
    GET + b"X: " + b"x" * 16_384 + b"\r\n\r\n", GET + b"X: y\r\n" * 65 + b"\r\n", GET + b"Transfer-Encoding: gzip\r\n\r\n",
    GET + CHUNKED + b"\r\n5\r\nhello\r\n0\r\n\r\n" + GET + b"\r\n", GET + CHUNKED + b"Content-Length: 5\r\n\r\n",
    GET + CHUNKED + b"\r\nz\r\n", GET + b"Content-Length: x\r\n\r\n", GET + b"Content-Length: 1048577\r\n\r\n",
    GET + b"Content-Length: 5\r\n\r\nhello" + GET + b"\r\n", GET + b"Content-Length: 5\r\n\r\nhel", b"HEAD" + GET[3:] + b"\r\n",
    b"PATCH" + GET[3:] + b"\r\n", b"\x00\xff\r\n\r\n", GET.lower() + b"\r\n",
]


def edits():
    """A pipeline of the owner's edits, each with what is read behind it."""
    sent = b""
    for number in range(200):
        path = chance.choice(PATHS[:-6] + ["new.md", "two words.md"]).replace(" ", "%20")
        if chance.random() < 0.3:
            sent += request("tok-owner", "/page/" + path, "DELETE")
        else:
            text = f"# Page {number}\n\n[link]({chance.choice(PATHS)}) and `code`\n".encode() * chance.randint(0, 30)
            sent += request("tok-owner", f"/page/{path}?groups={chance.choice(('staff', 'ops', '', 'NONE'))}", "PUT", text)
        sent += request(chance.choice(TOKENS), chance.choice(TARGETS)) + request("tok-owner", "/page/" + path)
    return sent


def sent(peer, part, piece):
    """Sends bytes in pieces, and ends what is sent."""
    try:
        at = 0
        while at < len(part):
            size = piece()
            peer.sendall(part[at:at + size])
            at += size
        peer.shutdown(socket.SHUT_WR)
    except OSError:
        pass


def exchange(port, parts, piece):
    """What comes back on one connection for each part, and how it failed. All are opened first, and each is ended behind its part."""
    found = [b""] * len(parts)
    peers = [socket.create_connection((HOST, port), timeout=30) for _ in parts]
    senders = [threading.Thread(target=sent, args=(*it, piece)) for it in zip(peers, parts)]
    for sender in senders:
        sender.start()
    for at, peer in enumerate(peers):
        try:
            while more := peer.recv(262_144):
                found[at] += more
        except OSError as fault:
            found[at] += f"{FAILED}{fault}".encode()
    for sender in senders:
        sender.join()
    for peer in peers:
        peer.close()
    return found


def served(parts):
    """By `serve`, which takes all its connections first."""
    port = free_port()
    server = start([scene.program, "serve", CONFIG, f"{HOST}:{port}", str(len(parts)), "1000000"], stdout=subprocess.PIPE)
    server.stdout.readline()
    found = exchange(port, parts, lambda: 1 << 30)
    scene.check("serve ends", server.wait(timeout=20) == 0)
    return [reply.partition(FAILED.encode())[0] for reply in found]


def listened(parts, piece):
    put(scene.scratch + "/plain.toml", read_by_all(CONFIG))
    server = scene.listen(scene.scratch + "/plain.toml")
    found = exchange(server.port, parts, piece)
    scene.ends(server, "listen")
    return found


def alike(name, parts):
    wanted = served(parts)
    scene.check(f"{name}: serve answers", sum(map(len, wanted)) > 100)
    for way, piece in (("at once", lambda: 1 << 30), ("in pieces", lambda: chance.choice((1, 2, 7, 300, 5_000)))):
        for part, right, found in zip(parts, wanted, listened(parts, piece)):
            scene.check(f"{name} {way}: {part[:60]!r}", right == found, f"{len(found)} bytes, serve {len(right)}: {found[:100]!r}")


def main():
    chance.seed(scene.numbers[0])
    began = time.monotonic()
    alike("a request", [request(token, target, method) for token in TOKENS for target in TARGETS for method in ("GET", "HEAD")][::2])
    alike("no request", ODD)
    alike("a pipeline", [b"".join(request(token, target) for target in TARGETS * 3) for token in TOKENS])
    alike("edits", [edits()])
    alike("a large PUT", [request("tok-owner", "/page/large.md", "PUT", b"word " * 209_715) + request("tok-owner", "/page/large.md")])
    print(f"took {time.monotonic() - began:.0f} s")


scene.run(main)
