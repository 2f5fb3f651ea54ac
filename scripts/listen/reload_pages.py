"""Pages and media read anew while `listen` runs, beside edits of its owner: behind each of many random changes of rows, files, pictures and
edits the replies of four readers are those of a server that is started anew on a copy of the same files and of the journal. Then how long others wait
beside a reload of many files.

    python3 scripts/listen/reload_pages.py PROGRAM [CHANGES [FILES]]

Builds nothing. Needs python3. 200 changes where no number is said, and 2,000 files.
"""
import os, random, shutil, sys, threading, time
sys.path.insert(1, os.path.dirname(__file__) + "/../lib")
from scene import Client, Scene, put, until

scene = Scene(seconds=600, seconds_each=2, numbers=(200, 2_000))
GROUPS = ("red", "green")
READERS = {"tok-own": ("owner = true", []), "tok-red": ("", ["red"]), "tok-green": ("", ["green"]), "tok-none": ("", [])}
NAMES = [f"{folder}{name}.md" for folder in ("", "in/", "in/deep/") for name in ("a", "b", "c", "index")]
PATHS = NAMES + [f"docs/{it}" for it in NAMES]
PICTURES = ["pic.png", "in/pic.png", "in/deep/table.csv"]
TARGETS = [f"/page/{it}" for it in PATHS] + [f"/page/docs/{it}" for it in PICTURES] + ["/pages", "/search?q=word", "/broken"] + [f"/backlinks?path={it}" for it in PATHS[::5]]


def rows():
    """The readers of a configuration."""
    return "".join(f'[[reader]]\ntoken = "{token}"\n{owner}\ngroups = {list(groups)}\n'.replace("'", '"')
                   for token, (owner, groups) in READERS.items())


class Files:
    """A configuration with rows, and a folder of pages and pictures, all of which change."""

    def __init__(self, chance):
        self.chance, self.rows, self.media = chance, {}, True
        shutil.rmtree("docs", ignore_errors=True)
        os.mkdir("docs")
        self.write()

    def text(self):
        links = " ".join(f"[{it}](/page/{it})" for it in self.chance.sample(PATHS, 3))
        picture = self.chance.choice(PICTURES)
        return f"# Word {self.chance.randint(0, 99)}\n\n{links} ![it](/page/docs/{picture}) word{self.chance.randint(0, 9)}\n"

    def change(self):
        """One change of a row, of a file or of a picture."""
        name, picture, kind = self.chance.choice(NAMES), f"docs/{self.chance.choice(PICTURES)}", self.chance.randint(0, 8)
        file = f"docs/{name}"
        if kind == 0:
            self.rows.pop(name, None)
        elif kind in (1, 2):
            self.rows[name] = (self.chance.sample(GROUPS, self.chance.randint(0, 2)), self.text())
        elif kind == 3 and os.path.exists(file):
            os.remove(file)
        elif kind == 6:
            put(picture, f"bytes {self.chance.randint(0, 3)}")
        elif kind == 7 and os.path.exists(picture):
            os.remove(picture)
        elif kind == 8:
            self.media = self.chance.random() < 0.8
        else:
            put(file.replace("index", self.chance.choice(("index", "README"))), self.text())
            # a README is its folder's index where none stands there
        self.write()

    def write(self):
        pages = "".join(f'[[page]]\npath = "{path}"\ngroups = {groups}\ntext = """{text}"""\n'.replace("'", '"')
                        for path, (groups, text) in self.rows.items())
        folder = '[[folder]]\npath = "docs"\nprefix = "docs"\nreadme = true\ngroups = ["green"]\n'
        put("site.toml", rows() + pages + folder + "media = true\n" * self.media)


def replies(port):
    """The replies of all readers."""
    found = []
    for token in READERS:
        client = Client(port, token)
        found += [client.ask(it) for it in TARGETS]
        client.close()
    return found


def reload(server, told):
    """Has the server read its configuration anew: what it has printed since, one line."""
    server.process.stdin.write(b"reload\n")
    server.process.stdin.flush()
    until(lambda: server.said()[told:].endswith("\n"), 30)
    return server.said()[told:]


def anew(name, server, has_journal):
    """Whether the replies are those of a server that is started anew on copies."""
    shutil.rmtree("copy", ignore_errors=True)
    os.mkdir("copy")
    for it in ("site.toml", "journal")[: 1 + has_journal]:
        shutil.copy(it, f"copy/{it}")
    shutil.copytree("docs", "copy/docs")
    os.chdir("copy")
    try:
        again = scene.listen("site.toml", journal="journal" if has_journal else None)
    finally:
        os.chdir("..")
    wanted, found = replies(again.port), replies(server.port)
    again.kill()
    differ = [TARGETS[i % len(TARGETS)] for i in range(len(wanted)) if wanted[i] != found[i]]
    scene.check(name, not differ, differ[:3])


def changes(times, has_journal):
    """Behind each change, and each edit between."""
    chance = random.Random(times + has_journal)
    files = Files(chance)
    server = scene.listen("site.toml", journal="journal" if has_journal else None)
    owner, told = Client(server.port, "tok-own"), {}
    for count in range(times):
        for _ in range(chance.randint(1, 3)):
            files.change()
        if has_journal and chance.random() < 0.5:
            path = f"/page/{chance.choice(PATHS)}"
            code = owner.ask(path, *(("DELETE",) if chance.random() < 0.3 else ("PUT", files.text().encode())))[0]
            scene.check(f"edit {count}", code in (200, 201, 204, 404), code)
        said = reload(server, len(server.said()))
        kind = "refused" if "refused" in said else "made"
        told[kind] = told.get(kind, 0) + 1
        scene.check(f"change {count}: told", said.startswith("reload: ") and said.count("\n") == 1, said)
        anew(f"change {count}, {'with' if has_journal else 'without'} a journal", server, has_journal)
    scene.check("the end", server.end() == 0)


def busy(count):
    """How long a reader waits beside reloads of so many files, of which some have changed."""
    shutil.rmtree("docs")
    for i in range(count):
        put(f"docs/p{i % 100}/q{i}.md", f"# Page {i}\n\n" + f"[next](q{i + 1}.md) and some words of page {i}.\n" * 40)
    put("site.toml", rows() + '[[page]]\npath = "a.md"\ntext = "A"\n[[folder]]\npath = "docs"\nprefix = "docs"\n')
    server = scene.listen("site.toml", journal="journal-of-many")
    slowest, stop = [0.0], threading.Event()

    def read():
        client = Client(server.port, "tok-red")
        while not stop.is_set():
            begun = time.monotonic()
            client.ask("/page/a.md")
            slowest[0] = max(slowest[0], time.monotonic() - begun)

    reader = threading.Thread(target=read)
    reader.start()
    for changed in (0, 10, 64, count // 10):
        for i in range(changed):
            put(f"docs/p{i % 100}/q{i}.md", f"# Page {i}\n\n" + f"[next](q{i + 1}.md) and {changed} other words of page {i}.\n" * 40)
        slowest[0] = 0.0
        begun, told = time.monotonic(), len(server.said())
        said = reload(server, told)
        took = time.monotonic() - begun
        time.sleep(0.1)
        wanted = "reload: nothing has changed\n" if not changed else f"reload: 4 readers, {changed} pages put, 0 removed (record 0)\n"
        scene.check(f"{changed} changed", said == wanted, said)
        print(f"{count} files, {changed} changed: {took * 1_000:.0f} ms; slowest reply beside it {slowest[0] * 1_000:.0f} ms")
    stop.set()
    reader.join()
    edited(server, count)
    scene.check("the end", server.end() == 0)


def edited(server, count):
    """An owner's edits beside a reload whose edits are made with turns between: each is answered, none is lost, and the site is a restart's."""
    for i in range(count // 10):
        put(f"docs/p{i % 100}/q{i}.md", f"# Page {i}\n\n" + f"[next](q{i + 1}.md) and the last words of page {i}.\n" * 40)
    codes, stop, slowest = [], threading.Event(), [0.0]

    def edit():
        owner = Client(server.port, "tok-own")
        while not stop.is_set():
            path, begun = len(codes) % 5, time.monotonic()
            codes.append(owner.ask(f"/page/own{path}.md", "PUT", f"# Own {len(codes)}".encode())[0])
            slowest[0] = max(slowest[0], time.monotonic() - begun)

    editor = threading.Thread(target=edit)
    editor.start()
    said = reload(server, len(server.said()))
    stop.set()
    editor.join()
    scene.check("edits beside a reload", codes and set(codes) <= {201, 204}, set(codes))
    scene.check("a reload beside edits", said.startswith(f"reload: 4 readers, {count // 10} pages put, 0 removed"), said)
    print(f"{len(codes)} edits beside a reload of {count // 10} pages: the slowest took {slowest[0] * 1_000:.0f} ms")
    shutil.rmtree("copy", ignore_errors=True)
    os.mkdir("copy")
    shutil.copy("site.toml", "copy/site.toml")
    shutil.copy("journal-of-many", "copy/journal")
    shutil.copytree("docs", "copy/docs")
    os.chdir("copy")
    try:
        again = scene.listen("site.toml", journal="journal")
    finally:
        os.chdir("..")
    targets = ["/pages", "/broken"] + [f"/page/own{i}.md" for i in range(5)] + [f"/page/docs/p{i % 100}/q{i}.md" for i in range(0, count, 50)]
    ask = lambda port: [Client(port, "tok-own").ask(it) for it in targets]
    wanted, found = ask(again.port), ask(server.port)
    again.kill()
    differ = [targets[i] for i in range(len(targets)) if wanted[i] != found[i]]
    scene.check("as a start anew", not differ, differ[:3])


def main():
    times, files = scene.numbers
    changes(times * 3 // 4, True)
    changes(times // 4, False)
    busy(files)


scene.run(main)
