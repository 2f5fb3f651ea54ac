"""Measures the dearest requests of `listen` over 9,990 pages, on each of which the same 250 words stand, with 20 links and 6 headings: a PUT
of 1 MiB of different words, of a short text in its place, of a page that stands, of a page of 149,796 links; that page asked for; searches
of 1 and of 16 words of each page and of a rare one; contents; reports. Prints the server's processor time a request (its own code and the
kernel's, from /proc/PID/stat), the mean of as many as it says, and resident memory.

    python3 scripts/bench/dear_bench.py PROGRAM [PAGES]

Builds nothing. Needs python3. A minute or two. What else runs on the machine changes the figures.
"""
import os, sys
sys.path.insert(1, os.path.dirname(__file__) + "/../lib")
from scene import OWNER, Client, Scene, put
from timing import measured

scene = Scene(seconds=900, numbers=(9_990,), told=None)
MOST = 1_048_576
SHARED = " ".join(f"common{at}" for at in range(250))


def page(at, pages):
    links = " ".join(f"[to {to}](p{(at * 31 + to * 17) % (pages + 20)}.md)" for to in range(1, 21))
    own = " ".join(f"own{at}x{word}" for word in range(17))
    parts = "".join(f"## Part {part}\n\nA word of every page.\n\n" for part in range(6))
    return f"# Page {at}\n\n{links}\n\n{own}\n\n{SHARED}\n\n{parts}"


def site(pages):
    """A configuration and its folder, whose pages are for all."""
    put("config.toml", OWNER + '[[reader]]\ntoken = "ann"\ngroups = ["all"]\n[[folder]]\npath = "pages"\ngroups = ["all"]\n')
    for at in range(pages):
        put(f"pages/p{at}.md", page(at, pages))


def different_words():
    """1 MiB of words of which no two are the same."""
    return " ".join(f"w{at}" for at in range(MOST // 6))[:MOST].rpartition(" ")[0].encode()


def tell(server, name, ask, times, codes):
    """Asks so often, and prints the mean."""
    before = sum(server.used())
    found = {ask(at)[0] for at in range(times)}
    scene.check(name, found <= set(codes), found)
    print(f"{name:52} {(sum(server.used()) - before) / times / 1000:8.2f} ms, of {times}", flush=True)


def edits(server, owner):
    """Large texts, and a page that stands, put again."""
    words, links, first = different_words(), b"[](p1)" * 149_796, page(0, scene.numbers[0]).encode()
    to = "/page/{}{}.md?groups=all".format
    tell(server, "PUT of 1 MiB of different words", lambda at: owner.ask(to("words", at), "PUT", words), 3, [201])
    tell(server, "PUT of a short text in its place", lambda at: owner.ask(to("words", at), "PUT", b"short"), 3, [204])
    tell(server, "PUT of a page that stands", lambda _: owner.ask("/page/p0.md?groups=all", "PUT", first), 40, [204])
    tell(server, "PUT of a page of 149,796 links", lambda at: owner.ask(to("links", at), "PUT", links), 3, [201])
    tell(server, "GET of it, first", lambda at: owner.ask(f"/page/links{at}.md"), 3, [200])
    tell(server, "GET of it, kept", lambda _: owner.ask("/page/links2.md"), 20, [200])
    tell(server, "report with three such pages", lambda _: owner.ask("/broken", "HEAD"), 10, [200])
    for at in range(3):
        owner.ask(f"/page/links{at}.md", "DELETE")


def lists(server, client, who):
    words = "+".join(f"common{at}" for at in range(16))
    for name, target, method in (("search of 16 words of each page", f"/search?q={words}", "GET"),
                                 ("search of a word of each page", "/search?q=every", "GET"),
                                 ("search of a rare word", "/search?q=own77x3", "GET"),
                                 ("contents", "/contents", "GET"), ("report", "/broken", "HEAD")):
        tell(server, f"{name}, {who}", lambda _: client.ask(target, method), 30, [200])


def cases():
    measured()
    site(scene.numbers[0])
    server = scene.listen("config.toml", wait=120)
    print(f"start: {sum(server.used()) / 1e6:.2f} s of processor time, resident {server.resident() / 1000:.0f} MB", flush=True)
    owner, reader = Client(server.port, "tok", timeout=120), Client(server.port, "ann", timeout=120)
    edits(server, owner)
    lists(server, owner, "an owner")
    lists(server, reader, "a reader")
    print(f"resident behind all: {server.resident() / 1000:.0f} MB", flush=True)
    scene.ends(server, "listen")


scene.run(cases)
