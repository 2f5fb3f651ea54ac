"""Files that change while `listen` reads its pages anew: what is served behind a reload stood on the disk together, and where the files never
rest the reload is refused and all stays. Beside it: what is answered and edited while a reload reads, one that is asked for while another
reads, and standard input that ends meanwhile.

    python3 scripts/listen/reload_changing.py PROGRAM [PASSES]

Builds nothing. Needs python3. 60 passes where no number is said; about a minute.
"""
import os, sys, threading, time
sys.path.insert(1, os.path.dirname(__file__) + "/../lib")
from scene import Client, Scene, put, start, stop, until

scene = Scene(seconds=300, seconds_each=2, numbers=(60,))
COUNT = 2_000  # files, so that a reload reads in some thirty turns
REFUSED = "reload refused: the files are changing\n"


def write(version, times=None):
    """All files, one after the other, as of one version, each in place of the one before, and when each was written."""
    for number in range(COUNT):
        name = f"docs/p{number % 50}/q{number}.md"
        if os.path.exists(name):
            os.remove(name)
        put(name, f"# Page {number}\n\nOf version {version}.\n")
        if times is not None:
            times.append(time.monotonic())


def begin(journal=None):
    """A server over the files of version 0."""
    write(0)
    put("site.toml", '[[reader]]\ntoken = "tok-ann"\nowner = true\n\n[[folder]]\npath = "docs"\nprefix = "docs"\n')
    return scene.listen("site.toml", journal=journal)


def ask(server):
    """Asks for a reload."""
    server.process.stdin.write(b"reload\n")
    server.process.stdin.flush()


def reload(server):
    """Has the server read its configuration anew: what it has printed since, one line."""
    told = len(server.said())
    ask(server)
    until(lambda: server.said()[told:].endswith("\n"), 60, pause=0.002)
    return server.said()[told:]


def versions(server):
    """The versions of which pages are read."""
    client, found = Client(server.port, "tok-ann"), set()
    for number in range(0, COUNT, 7):
        code, _, body = client.ask(f"/page/docs/p{number % 50}/q{number}.md")
        found.add(body.partition(b"Of version ")[2].split(b".")[0].decode() if code == 200 else code)
    client.close()
    return found


class Writing:
    """A thread that writes files until it is told to end, and when it wrote each."""

    def __init__(self, step):
        self.count, self.is_over, self.step, self.times = 0, False, step, []
        self.thread = threading.Thread(target=self.run, daemon=True)
        self.thread.start()

    def run(self):
        while not self.is_over:
            self.count += 1
            self.step(self.count, self.times)

    def end(self):
        self.is_over = True
        self.thread.join()

    def rested(self, begun, ended):
        """The longest time between these moments in which nothing was written, though more was still to be: what stood then stood together."""
        times = [begun, *(it for it in self.times if begun < it < ended), ended]
        return max(later - sooner for sooner, later in zip(times, times[1:]))


def passes(count):
    """All files are written again and again, with pauses between: behind each reload that is made all pages are of one version, unless a pass
    was held up while they were read."""
    server = begin()
    made, refused, held_up, mixed = 0, 0, 0, []

    def step(number, times):
        write(number, times)
        time.sleep(0.3 * (number % 5))

    writing = Writing(step)
    while made + refused < count or (not made and made + refused < 10 * count):
        begun = time.monotonic()
        said = reload(server)
        rested = writing.rested(begun, time.monotonic())
        if said == REFUSED or said.endswith(": no such file\n"):
            refused += 1
            continue
        made += 1
        scene.check(f"reload {made}: told", said == "reload: nothing has changed\n" or said.startswith("reload: 1 readers, "), said)
        found = versions(server)
        if len(found) != 1 and rested > 0.01:
            held_up += 1
        elif len(found) != 1:
            mixed.append((found, rested))
    writing.end()
    scene.check("one version behind each reload", not mixed, f"{len(mixed)} of {made}: {mixed[:2]}")
    scene.check("some were made", made > held_up)
    reload(server)
    scene.check("the last one", versions(server) == {str(writing.count)})
    print(f"{writing.count} versions, {made} reloads made, {refused} refused, {held_up} of a pass that was held up")
    scene.check("the end", server.end() == 0)


def restless():
    """A file that changes all the time: the reload is refused, unless whoever writes it is held up, and all others stay as they were."""
    server = begin()
    for name in ("docs/p0/q0.md", "docs/p7/q1957.md", "docs/new.md", "docs/p9/new.md"):
        script = 'while :; do echo "Of version 0." > "$0"; done'
        writers = [start(["sh", "-c", script, name]) for _ in range(3)]
        said = []
        while REFUSED not in said and len(said) < 60:
            said.append(reload(server))
        for writer in writers:
            stop(writer)
        scene.check(f"{name}: refused", REFUSED in said, said)
        scene.check(f"{name}: all others stay", versions(server) <= {"0", ""}, versions(server))
        if "new" in name:
            os.remove(name)
    write(5)
    scene.check("files that rest", reload(server).startswith(f"reload: 1 readers, {COUNT} pages put, "))
    scene.check("are read", versions(server) == {"5"})
    for name in ("docs/come.md", "docs/p9/come.md"):
        writing = Writing(lambda number, times: (put(name, "Come"), os.remove(name)))
        told = [REFUSED, f"reload refused: cannot read {name}: no such file\n", "reload: nothing has changed\n", "reload: 1 readers, 1 pages put, 0 removed (record 0)\n",
                "reload: 1 readers, 0 pages put, 1 removed (record 0)\n"]
        for _ in range(10):
            said = reload(server)
            scene.check(f"{name} comes and goes", said in told, said)
        writing.end()
    reload(server)
    scene.check("all stands as it was", versions(server) == {"5"})
    scene.check("the end", server.end() == 0)


def meanwhile():
    """Requests and edits while a reload reads, and a reload that is asked for while another reads."""
    server = begin(journal="journal")
    write(1)
    client, told = Client(server.port, "tok-ann"), len(server.said())
    ask(server)
    read = edits = 0
    while not server.said()[told:].endswith("\n"):
        read += client.ask("/page/docs/p1/q1.md")[0] == 200
        edits += client.ask(f"/page/edited-{edits}.md", "PUT", b"Edited.\n")[0] in (201, 204)
    scene.check("requests are answered", read > 10, read)
    scene.check("edits are made", edits > 10, edits)
    stand = sum(client.ask(f"/page/edited-{number}.md")[0] == 200 for number in range(edits))
    scene.check("edits stand behind it", stand == edits, f"{stand} of {edits}")
    scene.check("the files are read", versions(server) == {"1"})
    client.close()
    write(2)
    client, told = Client(server.port, "tok-ann"), len(server.said())
    for _ in range(3):
        ask(server)
        client.ask("/page/docs/p1/q1.md")
    until(lambda: server.said()[told:].endswith("\n"), 30)
    time.sleep(1)
    lines = server.said()[told:].splitlines()
    scene.check("asked for again", lines and lines[0].startswith(f"reload: 1 readers, {COUNT} pages put") and len(lines) <= 3, lines)
    scene.check("is read", versions(server) == {"2"})
    put("site.toml", "[[reader]\n")
    ask(server)
    ask(server)
    scene.check("a bad one while another reads", until(lambda: server.said().endswith("reload refused: config\n"), 10), server.said()[told:])
    scene.check("all stays", versions(server) == {"2"})
    scene.check("the end", server.end() == 0)


def ends():
    """Standard input ends while a reload reads."""
    server = begin()
    write(1)
    ask(server)
    begun = time.monotonic()
    scene.check("the end while it reads", server.end() == 0)
    scene.check("comes at once", time.monotonic() - begun < 2)


def main():
    restless()
    meanwhile()
    ends()
    passes(*scene.numbers)


scene.run(main)
