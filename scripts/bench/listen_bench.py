"""Loads `listen` with 64 connections of wrk over 127.0.0.1, kept alive, and in the same run nginx with files of the same bytes: as it is
set up by default, and tuned for such files (`open_file_cache`, `sendfile off`). Each server is on one core and wrk on another. They are
asked for a page of 4 kB without links and one with 20 links, both of them kept in the server's cache. Prints requests a second, the
server's processor time a request (its own code, the kernel's; from /proc/PID/stat), and the time within which 99 in 100 were answered: of
RUNS runs, one after another of each of the six, that with the least processor time, and the least time of 99 in 100. Then resident
memory, with 3 and with 10,000 pages of 4 kB, and with 1,000 idle connections.

The goals: at most 1.2 times nginx's processor time without links, 1.8 times with them, and 99 in 100 no later than nginx, as it is set up
by default. The last line says how many of them are met.

    python3 scripts/bench/listen_bench.py PROGRAM [SECONDS [RUNS]]

Builds nothing. Needs python3, taskset, wrk and nginx (Debian's nginx-light), which it has installed where they lack. Takes 6 times
SECONDS (3) times RUNS (3), and some seconds more. What else runs on the machine changes the figures, and the ratios less.
"""
import os, sys
sys.path.insert(1, os.path.dirname(__file__) + "/../lib")
from beside import CONNECTIONS, PLAIN, TUNED, Nginx, cheapest, loaded, microseconds, tell
from scene import Client, Scene, allow_files, put
from timing import measured

scene = Scene(seconds=600, seconds_each=60, numbers=(3, 3), needs=["nginx=nginx-light", "wrk", "taskset=util-linux"])
TEXT = "Each page has sixty-four lines, and each of them has this text.\n" * 64
LINKED = ("Each page has some lines and [links to other pages](a.md) of it.\n" + TEXT[:130]) * 20
WORDY = "\n".join(f"[A link](guide/{line:05}.md) " + " ".join(f"word{line * 13 + word}" for word in range(24)) for line in range(20))
KINDS = (("plain.md", "without links", 1.2), ("linked.md", "with 20 links", 1.8))
CORE = ("taskset", "-c", "0")


def site(name, pages, bounds=""):
    reader = '[[reader]]\ntoken = "tok"\ngroups = ["team"]\n'
    put(name, bounds + reader + "".join(f'[[page]]\npath = "{path}"\ngroups = ["team"]\nfile = "{file}"\n' for path, file in pages))
    return name


def serve(name):
    return scene.listen(name, before=CORE, wait=240)


def served(server, path):
    client = Client(server.port, "tok")
    code, _, body = client.ask("/page/" + path)
    client.close()
    if code != 200:
        sys.exit(f"{path}: {code}")
    return body


# ---- speed

def all_loaded(server, seconds, runs):
    """The runs of wrk for each page and each server, which take turns."""
    beside = {"nginx": Nginx(scene.scratch, "plain", PLAIN, CORE), "nginx, tuned": Nginx(scene.scratch, "tuned", TUNED, CORE)}
    found = {}
    try:
        for _ in range(runs):
            for path, *_ in KINDS:
                found.setdefault((path, "listen"), []).append(loaded(server.pid, server.port, "/page/" + path, seconds))
                for name, nginx in beside.items():
                    found.setdefault((path, name), []).append(loaded(nginx.pid, nginx.port, "/" + path, seconds))
    finally:
        for nginx in beside.values():
            nginx.end()
    return found


def told(name, found):
    """Prints the run with the least processor time, with the least time of 99 in 100; both of them."""
    slow = min(microseconds(it[2]) for it in found)
    return tell(name, cheapest(found), f"{slow / 1e3:.2f} ms"), slow


def compared(found, path, name, most, length):
    """The rows of a page, and whether the goals are met."""
    seconds, runs = scene.numbers
    print(f"{CONNECTIONS} connections, a page {name} of {length:,} bytes, the least of {runs} runs of {seconds} s")
    here, slow_here = told("  docs_server listen", found[path, "listen"])
    there, slow_there = told("  nginx             ", found[path, "nginx"])
    tuned, _ = told("  nginx, tuned      ", found[path, "nginx, tuned"])
    print(f"  {here / there:.2f} times nginx's processor time (goal {most}), {here / tuned:.2f} times that of nginx, tuned")
    scene.check(f"a page {name}: processor time", here <= most * there, f"{here / there:.2f}")
    scene.check(f"a page {name}: 99 in 100", slow_here <= slow_there, f"{slow_here:.0f} us, nginx {slow_there:.0f}")


def speed():
    server = serve(site("site.toml", [("a.md", "plain.md"), ("plain.md", "plain.md"), ("linked.md", "linked.md")]))
    for path, *_ in KINDS:
        put("files/" + path, served(server, path))
    scene.check("20 links", served(server, "linked.md").count(b'<a href="/page/a.md">') == 20)
    found = all_loaded(server, *scene.numbers)
    for path, name, most in KINDS:
        compared(found, path, name, most, os.path.getsize("files/" + path))
    scene.ends(server, "speed")


# ---- memory

def idle(server, before):
    clients = [Client(server.port, "tok") for _ in range(1_000)]
    for client in clients:
        client.ask("/page/guide/00000.md")
    print(f"  with 1,000 idle connections, each of which has asked once: {server.resident() / 1000:.1f} MB, "
          f"{(server.resident() - before) / 1000:.1f} kB each", flush=True)
    for client in clients:
        client.close()


def memory(count):
    """With so many pages; with three also that of idle connections."""
    paths = [(f"guide/{number:05}.md", "wordy.md") for number in range(count)]
    server = serve(site("pages.toml", paths, "[listen]\nconnections = 2000\n"))
    served(server, paths[-1][0])
    before = server.resident()
    print(f"resident with {count:,} pages: {before / 1000:.1f} MB; {sum(server.used()) / 1e6:.1f} s to start", flush=True)
    if count == 3:
        idle(server, before)
    scene.ends(server, f"{count} pages")


def main():
    measured()
    allow_files(4_000)
    os.chmod(scene.scratch, 0o755)
    for name, text in (("plain.md", TEXT), ("linked.md", LINKED), ("wordy.md", WORDY)):
        put(name, text)
    speed()
    for count in (3, 10_000):
        memory(count)


scene.run(main)
