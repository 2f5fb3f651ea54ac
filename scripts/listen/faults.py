"""Tries what stops `listen` and `compact` before they do anything, and a journal that loses its name while `listen` runs, by the lines and the status that they end with: each fault alone, and
with the next ones, of which the earlier one is told. No fault changes a journal. What is wanted is worked out from docs/RUNNING.md; what
stops all commands alike is tried by scripts/site/faults.py, and each way to damage a journal by scripts/listen/damage.py.

    python3 scripts/listen/faults.py PROGRAM

Builds nothing. Needs python3. Half a minute.
"""
import fcntl, os, re, resource, socket, subprocess, sys
sys.path.insert(1, os.path.dirname(__file__) + "/../lib")
from scene import HOST, OWNER, Client, Scene, got, put
from journals import is_opened, written

scene = Scene(seconds=200)
PAGE = '[[page]]\npath = "a.md"\n'
SITES = {"good": 'text = "A"\n', "absent": 'file = "absent.md"\n', "long": 'file = "long.md"\n',
         "bounds": 'text = "A"\n[listen]\nconnections = 0\n', "folder": 'text = "A"\n[[folder]]\npath = "nowhere"\n',
         "twice": 'text = "A"\n[[folder]]\npath = "pages"\n', "bad": 'text = "A"\n[[folder]]\npath = "bad"\n',
         "on_bad": 'text = "A"\n[[folder]]\npath = "bad"\nnames = "nfc"\nreadme = true\non_bad = true\n', "except": 'text = "A"\n[[folder]]\npath = "pages"\nexcept = ["b/"]\n',
         "both": 'file = "absent.md"\n[listen]\nidle_seconds = -1\n', "follow": 'file = "absent.md"\n[listen]\nfollow_millis = 0\n',
         # a name behind the folders' keys, and in front of the pages for people and of the files
         "name": 'text = "A"\n[[reader]]\ntoken = "kot"\nname = "Ann"\n', "number": 'file = "absent.md"\n[[reader]]\ntoken = "kot"\nname = 5\n',
         "folder_name": 'text = "A"\n[[reader]]\ntoken = "kot"\nname = "Ann"\n[[folder]]\nprefix = ""\n',
         "name_title": 'text = "A"\n[[reader]]\ntoken = "kot"\nname = ""\n[browse]\ntitle = 1\n'}
DIFFER = {"good": [b"put b.md - B\n"], "no_edit": [b"put b.md - B\n", b"connect\n"], "refused": [b"remove b.md\n", b"move b.md c.md\n"],
          "long_path": [b"put " + b"a" * 201 + b" - B\n"], "empty_line": [b"\n"], "no_text": [b"put b.md -\n"],
          "latin": [b"put b.md - \xff\n"]}
USAGES = ((["listen"], ()), (["listen", "good.toml"], ()), (["listen", "good.toml", f"{HOST}:0", "--journal"], ("--journal needs a file",)),
          (["compact"], ()), (["compact", "good.toml"], ()),
          (["listen", "good.toml", f"{HOST}:0", "good"], ("unknown option: good",)),
          (["listen", "good.toml", f"{HOST}:0", "--Journal", "good"], ("unknown option: --Journal",)),
          (["compact", "good.toml", "good"], ("unknown option: good",)),
          (["listen", "good.toml", f"{HOST}:0", "--journal", "good", "x"], ("unknown option: x",)),
          (["listen", "good.toml", f"{HOST}:0", "--follow"], ("--follow needs a file",)),
          (["listen", "good.toml", f"{HOST}:0", "--follow", "good", "--journal", "kept"], ("--journal and --follow exclude each other",)),
          (["compact", "good.toml", "--follow", "good"], ("unknown option: --follow",)),
          (["compact", "good.toml", "--journal"], ("--journal needs a file",)),
          (["compact", "good.toml", "--journal", "good", "x"], ("unknown option: x",)),
          (["compact", "good.toml", "--log", "good"], ("unknown option: --log",)), (["folders"], ()), (["folders", "good.toml", "x"], ()))
BAD_NAME = "`name` must be 1 to 32 of a-z, 0-9, `-`, `_`, `.` and `@`"
# what is told above the line that stops it, where the document is refused; the first is the TOML reader's
ABOVE = {"no.toml": r"no\.toml:1:4: \S.*\n",
         **{f"{name}.toml": re.escape(f"{name}.toml{told}\n") for name, told in (
             ("bounds", ": [listen]: `connections` must be an integer from 1 to 65535"),
             ("both", ": [listen]: `idle_seconds` must be an integer from 1 to 86400"),
             ("follow", ": [listen]: `follow_millis` must be an integer from 1 to 10000"),
             ("on_bad", ":7: folder 1: `on_bad` must be a string"), ("except", ":7: folder 1: `except` is bad"),
             ("name", f":7: reader 2: {BAD_NAME}"), ("number", ":7: reader 2: `name` must be a string"),
             ("folder_name", f":7: reader 2: {BAD_NAME}\nfolder_name.toml:10: folder 1: no `path`"),
             ("name_title", f": [browse]: `title` must be a string\nname_title.toml:7: reader 2: {BAD_NAME}"))}}
NEW = "docs_server: new journal kept\n"
MOVED = "docs_server: journal moved\n"
NO_ADDRESSES = ("", HOST, "localhost", "localhost:", ":80", f"{HOST}:", f"{HOST}:65536", "256.0.0.1:80", "::1:80")


def stops(words, *lines, stdout=subprocess.DEVNULL, limit=None):
    """It ends with status 2 and these lines, below the faults of a document that is refused, and prints nothing else."""
    try:
        done = subprocess.run([scene.program, *words], stdin=subprocess.DEVNULL, stdout=stdout, stderr=subprocess.PIPE, timeout=20,
                              preexec_fn=limit)
    except subprocess.TimeoutExpired:
        return scene.check(" ".join(words), False, f"it goes on, and isn't stopped as {lines}")
    above = ABOVE.get(words[1], "") if lines[-1].startswith("config") else ""
    wanted = above + "".join(re.escape(f"docs_server: {line}\n") for line in lines)
    found = done.stderr.decode()
    return scene.check(" ".join(words), done.returncode == 2 and re.fullmatch(wanted, found), f"{done.returncode}, {found!r}, wanted {wanted!r}")


def damaged():
    return written([b"put a.md - First.\n"])[:-1]


def files():
    """Configurations and journals, good ones and bad ones."""
    for name, text in SITES.items():
        put(f"{name}.toml", OWNER + PAGE + text)
    put("no.toml", "x =\n")
    put("pages/a.md", "A\n")
    for name in ("a.md", "b%.md", "b?.md"):
        put("bad/" + name, "A\n")
    put("long.md", "a" * 1_048_577)
    for name, texts in DIFFER.items():
        put(name, written(texts))
    put("damaged", damaged())
    put("foreign", "no journal at all")
    os.mkdir("place")


def usage(full):
    for words, told in USAGES:
        stops(words, *told, "usage")
    for address in NO_ADDRESSES:
        stops(["listen", "absent.toml", address], "ADDR is an IP address or localhost, and a port: 127.0.0.1:8080", "usage", stdout=full)


class Later:
    """What is found behind a site: an address that is taken, and an output that is full."""

    def __init__(self, taken, full):
        self.taken, self.full = taken, full

    def both(self, config, journal, line):
        """`listen` and `compact` are stopped alike, and so is `listen` with what is found later."""
        stops(["listen", config, f"{HOST}:0", "--journal", journal], line)
        stops(["compact", config, "--journal", journal], line)
        stops(["listen", config, self.taken, "--journal", journal], line, stdout=self.full)

    def sites(self):
        """The configuration, the files that it names, its folders; then the journal."""
        for config, line in (("nowhere.toml", "cannot read nowhere.toml"), ("no.toml", "config"), ("absent.toml", "cannot read absent.md"),
                             ("both.toml", "config: `idle_seconds` is bad"), ("follow.toml", "config: `follow_millis` is bad"), ("folder.toml", "cannot read nowhere"),
                             ("on_bad.toml", "config: folder 1: `on_bad` is bad"), ("name.toml", "config: reader 2: `name` is bad"),
                             ("number.toml", "config: reader 2: `name` is bad"), ("folder_name.toml", "config: folder 1: `path` is bad"),
                             ("name_title.toml", "config: reader 2: `name` is bad")):
            stops(["folders", config], line, stdout=self.full)
        stops(["folders", "bad.toml"], "cannot write", stdout=self.full)
        for journal in ("good", "damaged"):
            self.both("bad.toml", journal, "cannot read bad/b%.md: a path has no \\, %, ? or #")
            self.both("on_bad.toml", journal, "config: folder 1: `on_bad` is bad")
            self.both("nowhere.toml", journal, "cannot read nowhere.toml")
            self.both("no.toml", journal, "config")
            self.both("bounds.toml", journal, "config: `connections` is bad")
            self.both("both.toml", journal, "config: `idle_seconds` is bad")
            self.both("follow.toml", journal, "config: `follow_millis` is bad")
            self.both("absent.toml", journal, "cannot read absent.md")
            self.both("folder.toml", journal, "cannot read nowhere")
            self.both("except.toml", journal, "config: folder 1: `except` is bad")
            self.both("name.toml", journal, "config: reader 2: `name` is bad")
            self.both("number.toml", journal, "config: reader 2: `name` is bad")
            self.both("folder_name.toml", journal, "config: folder 1: `path` is bad")
            self.both("name_title.toml", journal, "config: reader 2: `name` is bad")
            self.both("twice.toml", journal, "config: a.md twice")
        stops(["listen", "long.toml", self.taken, "--journal", "damaged"], "refused", stdout=self.full)

    def journals(self):
        for name in ("place", "/dev/null", "/dev/full", "nowhere/journal"):
            self.both("good.toml", name, "cannot open journal")
        self.both("good.toml", "damaged", "journal record 2")
        self.both("good.toml", "latin", "journal record 1")
        self.both("good.toml", "foreign", "no journal")
        for name in ("no_edit", "long_path", "empty_line", "no_text"):
            self.both("good.toml", name, f"bad journal record {len(DIFFER[name])}")
        self.both("good.toml", "refused", "journal record 2 refused, line 1")
        with open("damaged", "rb+") as file:
            fcntl.flock(file, fcntl.LOCK_EX)
            self.both("good.toml", "damaged", "journal in use")
            self.both("absent.toml", "damaged", "cannot read absent.md")

    def addresses(self):
        """The address, and then the output."""
        for address in (self.taken, "192.0.2.1:80"):
            stops(["listen", "good.toml", address], "socket", stdout=self.full)
            stops(["listen", "good.toml", address, "--journal", "good"], "socket", stdout=self.full)
        stops(["listen", "good.toml", f"{HOST}:0", "--journal", "good"], "cannot write", stdout=self.full)
        stops(["listen", "good.toml", "[::1]:0"], "cannot write", stdout=self.full)
        stops(["listen", "good.toml", f"{HOST}:0"], "socket", limit=lambda: resource.setrlimit(resource.RLIMIT_NOFILE, (6, 6)))


def moved():
    """A journal whose name is lost while the server runs, or that is cut: nothing of the turn's replies is sent, or it ends within some
    seconds."""
    for name, lose in (("cut to nothing", lambda: os.truncate("kept", 0)), ("cut", lambda: os.truncate("kept", 1_000_000)),
                       ("renamed", lambda: os.rename("kept", "elsewhere")), ("removed", lambda: os.remove("kept")),
                       ("replaced", lambda: os.rename("good", "kept"))):
        server = scene.listen("good.toml", journal="kept")
        client = Client(server.port, "tok")
        scene.check(f"{name}: an edit before", client.ask("/page/b.md", "PUT", b"B")[0] == 201)
        lose()
        try:
            found = client.ask("/page/c.md", "PUT", b"C")
        except OSError:
            found = None
        scene.check(f"{name}: an edit isn't answered", found is None, found)
        scene.check(f"{name}: it ends", server.ends(5) and (server.process.returncode, server.said()) == (2, NEW + MOVED), server.said())
        for file in ("kept", "elsewhere"):
            if os.path.exists(file):
                os.remove(file)
    put("good", written(DIFFER["good"]))
    server = scene.listen("good.toml", journal="kept")
    os.remove("kept")
    scene.check("removed at rest: it ends", server.ends(14) and (server.process.returncode, server.said()) == (2, NEW + MOVED), server.said())


def main():
    files()
    full = os.open("/dev/full", os.O_WRONLY)
    usage(full)
    with socket.create_server((HOST, 0)) as taken:
        later = Later(f"{HOST}:{taken.getsockname()[1]}", full)
        later.sites()
        later.journals()
        later.addresses()
    for name, texts in DIFFER.items():
        found, wanted = got(name), written(texts)
        scene.check(f"the journal {name} is as it was", is_opened(found, wanted) if name == "good" else found == wanted, len(found))
    moved()
    scene.check("the damaged one is too", got("damaged") == damaged())
    scene.check("the foreign one is too", got("foreign") == b"no journal at all")
    scene.check("no file is left", not [name for name in os.listdir(".") if name.endswith((".compacting", ".new"))], os.listdir("."))


scene.run(main)
