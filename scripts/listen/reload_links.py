"""A folder that is named by a link, as `current` to the release in force, and the link switched again and again while `listen` reads its
pages anew: behind each reload all pages are those of one release.

    python3 scripts/listen/reload_links.py PROGRAM [SWITCHES]

Builds nothing. Needs python3. 1,000 switches where no number is said; some seconds.
"""
import os, sys, threading, time
sys.path.insert(1, os.path.dirname(__file__) + "/../lib")
from scene import Client, Scene, put, until

scene = Scene(seconds=300, numbers=(1_000,))
RELEASES = ("first", "second")
COUNT = 64  # pages of a release


def release(name):
    """The files of a release, and a picture that both have."""
    for number in range(COUNT):
        put(f"releases/{name}/part-{number % 8}/page-{number}.md", f"# Page {number}\n\nOf the {name} release.\n")


def switch(name):
    """Has the link lead to this release, in one step."""
    os.symlink(f"releases/{name}", "next")
    os.replace("next", "current")


class Switching:
    """A thread that switches the link, with pauses that are as long as a look or a part of it."""

    def __init__(self):
        self.count, self.is_over = 0, False
        self.thread = threading.Thread(target=self.run, daemon=True)
        self.thread.start()

    def run(self):
        while not self.is_over:
            self.count += 1
            switch(RELEASES[self.count % 2])
            time.sleep(0.0001 * (self.count % 23))

    def end(self):
        self.is_over = True
        self.thread.join()


def read_of(client):
    """The releases of which pages are read."""
    found = set()
    for number in range(COUNT):
        code, _, body = client.ask(f"/page/docs/part-{number % 8}/page-{number}.md")
        found |= {name for name in RELEASES if f"Of the {name} release.".encode() in body} if code == 200 else {code}
    return found


def reload(server):
    """Has the server read its configuration anew: what it has printed since, one line."""
    told = len(server.said())
    server.process.stdin.write(b"reload\n")
    server.process.stdin.flush()
    until(lambda: server.said()[told:].endswith("\n"), 30)
    return server.said()[told:]


def switched(switches):
    for name in RELEASES:
        release(name)
    switch("first")
    put("site.toml", '[[reader]]\ntoken = "tok-ann"\nowner = true\n\n[[folder]]\npath = "current"\nprefix = "docs"\n')
    server = scene.listen("site.toml")
    client, switching, seen = Client(server.port, "tok-ann"), Switching(), []
    while switching.count < switches or len(seen) < switches // 4:
        said = reload(server)
        seen.append(read_of(client))
        scene.check(f"reload {len(seen)}: told", said == "reload: nothing has changed\n" or said.startswith("reload: 1 readers, 64 pages put, "), said)
    switching.end()
    mixed = [number for number, one in enumerate(seen, 1) if len(one) != 1]
    scene.check("each reload gives one release", not mixed, f"{len(mixed)} of {len(seen)}, the first: {mixed[:3]}")
    scene.check("both were read", {name for one in seen for name in one} == set(RELEASES), seen[:3])
    switch("second")
    reload(server)
    scene.check("the last one", read_of(client) == {"second"})
    print(f"{switching.count} switches, {len(seen)} reloads")
    scene.check("the end", server.end() == 0)


def told():
    """Whatever is told of a file names its folder as it is written."""
    release("first")
    put("releases/first/bad%name.md", "Bad")
    if not os.path.islink("current"):
        switch("first")
    for path in ("current", "current/", "./current", "releases/first"):
        put("site.toml", f'[[reader]]\ntoken = "tok-ann"\nowner = true\n\n[[folder]]\npath = "{path}"\nprefix = "docs"\non_bad = "skip"\n')
        switch("first")
        server = scene.listen("site.toml")
        scene.check(f"{path}: a bad file", f"{path}/bad%name.md: " in server.said(), server.said())
        scene.check(f"{path}: no other name", "/releases" not in server.said().replace(f"{path}/", ""), server.said())
        server.end()
    os.remove("releases/first/bad%name.md")


def main():
    switched(*scene.numbers)
    told()


scene.run(main)
