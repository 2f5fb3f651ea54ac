"""A follower that reads its own configuration anew, of many files, some at a time: how long others wait beside that, and what they are
answered. What has changed is served all at once, so who asks just then waits for as many pages as that. What its writer edits meanwhile is
seen at once; where the writer's journal is made anew meanwhile, what stands then is served, and the reload made behind it.

    python3 scripts/listen/follow_reload.py PROGRAM [FILES]

Builds nothing. Needs python3. 9,900 files where no number is said; about a minute.
"""
import os, subprocess, sys, threading, time
sys.path.insert(1, os.path.dirname(__file__) + "/../lib")
from scene import OWNER, Client, Scene, page_of, put, until
from journals import written

scene = Scene(seconds=300, seconds_each=2, numbers=(9_900,))
READER = '[[reader]]\ntoken = "tok-ann"\ngroups = ["red"]\n'
FOLDER = '[[folder]]\npath = "docs"\nprefix = "docs"\ngroups = ["red"]\n'
WORDS = "some words of a record. " * 160  # so that the journal has more than eight mebibytes
RECORDS = 2_200


def write(count, version):
    """So many of the files, as of one version."""
    for number in range(count):
        line = f"[next](q{number + 1}.md) and version {version} of page {number}.\n"
        put(f"docs/p{number % 100}/q{number}.md", f"# Page {number}\n\n" + line * 20)


def record(number):
    return f"put notes/n{number % 50}.md - # Note {number} {WORDS}\n".encode()


class Waits(threading.Thread):
    """Asks a server for one page without a pause, and keeps how long the longest reply took and what codes there were."""

    def __init__(self, port):
        super().__init__()
        self.port, self.longest, self.count, self.codes, self.stops = port, 0.0, 0, set(), False
        self.start()

    def run(self):
        client = Client(self.port, "tok-ann")
        while not self.stops:
            begun = time.monotonic()
            self.codes.add(client.ask("/page/docs/p1/q1.md")[0])
            self.longest = max(self.longest, time.monotonic() - begun)
            self.count += 1
        client.close()

    def stop(self):
        self.stops = True
        self.join()


class Edits(threading.Thread):
    """Edits at the writer, and asks the follower behind each reply whether it is seen there."""

    def __init__(self, writer, follower):
        super().__init__()
        self.ports, self.count, self.stale, self.stops = (writer, follower), 0, [], False
        self.start()

    def run(self):
        owner, reader = Client(self.ports[0], "tok"), Client(self.ports[1], "tok")
        while not self.stops:
            owner.ask("/page/edited.md", "PUT", f"Edit {self.count}".encode())
            found = reader.ask("/page/edited.md")
            if found[2] != page_of("edited.md", f"Edit {self.count}"):
                self.stale.append((self.count, found))
            self.count += 1
        owner.close()
        reader.close()

    def stop(self):
        self.stops = True
        self.join()


def asks(server):
    server.process.stdin.write(b"reload\n")
    server.process.stdin.flush()


def begin():
    """A writer whose journal has many records, and a follower with many files of its own."""
    writer = scene.listen("site.toml", journal="journal")
    return writer, scene.listen("own.toml", options=("--follow", "journal"))


def text_of(server, path):
    client = Client(server.port, "tok")
    try:
        return client.ask(f"/page/{path}")[2].decode()
    finally:
        client.close()


def beside(follower, writer, files):
    """How long others wait beside a reload, with edits and without, and whether each edit is seen."""
    for version, (changed, edits) in enumerate(((0, False), (10, False), (files // 10, False), (0, True), (files // 10, True)), 1):
        write(changed, version)
        waits, told = Waits(follower.port), len(follower.said())
        editor = Edits(writer.port, follower.port) if edits else None
        begun = time.monotonic()
        asks(follower)
        ends = until(lambda: follower.said()[told:].endswith("\n"), 60)
        took, said = time.monotonic() - begun, follower.said()[told:]
        waits.stop()
        name = f"{changed} of {files} files changed, {'with' if edits else 'without'} edits"
        if editor:
            editor.stop()
            scene.check(f"{name}: each edit is seen at once", editor.count > 0 and not editor.stale, editor.stale[:2])
        wanted = f"reload: 2 readers, {changed} pages put, 0 removed (record " if changed else "reload: nothing has changed\n"
        if edits:
            # the last record may have been taken by the reload, or by a look
            wanted = "reload: 2 readers, " if changed else "reload: "
        scene.check(f"{name}: told", ends and said.startswith(wanted), said)
        scene.check(f"{name}: replies", waits.codes == {200}, waits.codes)
        longest = 0.05 + changed * 0.000_3
        scene.check(f"{name}: no reply waits for more than {longest * 1_000:.0f} ms", waits.longest < longest, waits.longest)
        print(f"{name}: {took * 1_000:.0f} ms; {waits.count} replies beside it, the longest {waits.longest * 1_000:.1f} ms", flush=True)
        if changed:
            scene.check(f"{name}: what is served", f"version {version}" in text_of(follower, "docs/p1/q1.md"))
        scene.check(f"{name}: the records stand", "some words" in text_of(follower, "notes/n1.md"))


def again(follower, files):
    """A second line begins anew: what was written in between is served."""
    told = len(follower.said())
    write(20, "first")
    asks(follower)
    time.sleep(0.1)
    write(20, "second")
    asks(follower)
    ends = until(lambda: "second" in text_of(follower, "docs/p1/q1.md"), 60)
    scene.check("asked twice: what stands last is served", ends)
    until(lambda: follower.said()[told:].endswith("\n"), 5)
    said = follower.said()[told:]
    scene.check("asked twice: told", said.startswith("reload: 2 readers, 20 pages put, 0 removed (record "), said)


def replaced(follower, writer):
    """The journal is compacted while a follower reads its files: it takes the new one, and makes the reload behind that."""
    scene.ends(writer, "the writer")
    told = len(follower.said())
    write(20, "third")
    waits = Waits(follower.port)
    asks(follower)
    done = subprocess.run([scene.program, "compact", "site.toml", "--journal", "journal"], capture_output=True)
    ends = until(lambda: follower.said()[told:].count("\n") == 2, 60)
    said = sorted(follower.said()[told:].splitlines())
    waits.stop()
    told = done.returncode == 0 and ends and said[0].startswith("following: 2 readers, ") and said[1].startswith("reload: ")
    scene.check("compacted beside it: both are told", told, (done, said))
    scene.check("compacted beside it: replies", waits.codes == {200}, waits.codes)
    served = "third" in text_of(follower, "docs/p1/q1.md") and "some words" in text_of(follower, "notes/n1.md")
    scene.check("compacted beside it: what is served", served)
    writer = scene.listen("site.toml", journal="journal")
    owner = Client(writer.port, "tok")
    owner.ask("/page/edited.md", "PUT", b"Behind it")
    owner.close()
    scene.check("compacted beside it: what is edited behind it", "Behind it" in text_of(follower, "edited.md"))
    return writer


def main():
    files = scene.numbers[0]
    write(files, 0)
    put("site.toml", OWNER)
    put("own.toml", OWNER + READER + FOLDER)
    put("journal", written([record(number) for number in range(RECORDS)]))
    writer, follower = begin()
    beside(follower, writer, files)
    again(follower, files)
    writer = replaced(follower, writer)
    asks(follower)
    begun = time.monotonic()
    scene.check("the end while it reads", follower.end() == 0 and time.monotonic() - begun < 2)
    scene.ends(writer, "the writer")


scene.run(main)
