"""Tries `lint`: each fault and each warning alone, of a document, of the files that it names and of a journal; two at once; and random
configurations with a fault that is put into one of their rows: it has to be told of that row, with its line where no text before it
looks like a header. `listen` has to take a configuration where `lint` ends with 0, and only there; where it refuses the document its
line stands below the faults that `lint` tells. Lines are counted here, and journals are written here.

    python3 scripts/site/lint.py PROGRAM [COUNT [SEED]]

Builds nothing: PROGRAM is crates/docs_server/out/docs_server, or any other build. 200 configurations take some 20 seconds.
"""
import fcntl, itertools, os, random, re, subprocess, sys
from hashlib import sha256
sys.path.insert(1, os.path.dirname(__file__) + "/../lib")
from scene import HOST, Scene, got, put
from journals import written as journal_of

scene = Scene(seconds=600, seconds_each=1, numbers=(200, 1), told="{right} of {all} as they should be")
TOKEN = "a-token-that-nobody-guesses-soon"
KEY, OTHER_KEY = (f'token_sha256 = "{sha256(it.encode()).hexdigest()}"' for it in (TOKEN, TOKEN + "2"))
READER = f'[[reader]]\n{KEY}\nowner = true\ngroups = ["team"]\n'
CLEAR = "warning: a token in clear text; `docs_server token` makes one that isn't"
PAGE = '[[page]]\npath = "a.md"\ntext = "A"\n'
FOLDER = '[[folder]]\npath = "folder"\n'
GOOD = READER + PAGE
# the longest text of a page, and one that is longer
MOST_TEXT = "x" * 1_048_576


# ---- what is told

def ran(words, **given):
    return subprocess.run([scene.program, *words], capture_output=True, timeout=60, **given)


def lint(text):
    """The lines that `lint` prints of a text, and its status."""
    put("site.toml", text)
    it = ran(["lint", "site.toml"])
    return it.stdout.decode(errors="replace").splitlines(), it.returncode, it.stderr


def listened(*options):
    """What `listen` says of the text that was put last, and whether it takes it: its input is at its end, so it ends at once."""
    it = ran(["listen", "site.toml", f"{HOST}:0", *options], input=b"")
    return it.stderr.decode(errors="replace"), it.returncode == 0


def is_fault(line):
    return "warning: " not in line


def told(name, text, *lines, by="config"):
    """A text of which these lines are told, and no others. `listen` stops with this line where one is a fault, below the faults where they
    are the document's."""
    found, status, error = lint(text)
    faults = [f"site.toml{line}\n" for line in lines if is_fault(line)]
    scene.check(name, found == [f"site.toml{line}" for line in lines] and status == bool(faults) and error == b"",
                f"wanted {list(lines)}, found {found}, status {status}, {error!r}")
    said, taken = listened()
    is_of_document = by.startswith("config") and not by.endswith(" twice")
    wanted = "".join(faults if is_of_document else []) + f"docs_server: {by}\n"
    scene.check(f"{name}: listen", not taken and said == wanted if faults else taken and all("passed over" in it for it in said.splitlines()),
                f"taken {taken}, wanted {wanted if faults else ''!r}, said {said!r}")
    scene.check(f"{name}: no token", TOKEN not in "\n".join(found) + said)


# ---- each alone

BAD_NAME, NO_STRING = "`name` must be 1 to 32 of a-z, 0-9, `-`, `_`, `.` and `@`", "`name` must be a string"
REFUSED_NAME = "config: reader 2: `name` is bad"
READER_FAULTS = {"owner = 1": "`owner` must be a boolean", 'groups = "team"': "`groups` must be an array of strings",
                 "groups = [1]": "`groups` must be an array of strings", 'groups = ["Team"]': '`groups`: "Team" is no name of a group',
                 f"groups = {[f'g{i}' for i in range(33)]}".replace("'", '"'): "`groups`: more than 32"}
MARKDOWN_FAULTS = {"skip_bom = 1": "`skip_bom` must be a boolean", "tables = 1": "`tables` must be a boolean",
                   "front_matter = true": "`front_matter` must be a string", 'front_matter = "no"': "`front_matter` is bad",
                   "titel = 1": "unknown key `titel`",
                   "table = true": "unknown key `table`: is `tables` meant?", "task = true": "unknown key `task`: is `tasks` meant?"}
LISTEN_FAULTS = {"connections = 0": "`connections` must be an integer from 1 to 65535",
                 "idle_seconds = 86401": "`idle_seconds` must be an integer from 1 to 86400",
                 "media_bytes = 1.0": "`media_bytes` must be an integer from 1 to 1073741824",
                 "stranger_seconds = 0": "`stranger_seconds` must be an integer from 1 to 86400",
                 'request_seconds = "60"': "`request_seconds` must be an integer from 1 to 86400",
                 "follow_millis = 10001": "`follow_millis` must be an integer from 1 to 10000",
                 "connection = 1": "unknown key `connection`: is `connections` meant?", "far_away = 1": "unknown key `far_away`"}
BROWSE_FAULTS = {"title = 1": "`title` must be a string", 'title = ""': "`title` is bad", 'language = "e"': "`language` is bad",
                 'home = "../a"': "`home` is bad", 'guest = ["A"]': '`guest`: "A" is no name of a group',
                 'login = "digest"': "`login` is bad",
                 "editing = 1": "`editing` must be a boolean", "titel = 1": "unknown key `titel`: is `title` meant?"}
FOLDER_FAULTS = {"prefix = 1": "`prefix` must be a string", 'prefix = "/"': "`prefix` is bad",
                 'groups = ["A"]': '`groups`: "A" is no name of a group', 'except = "a"': "`except` must be an array of strings",
                 'except = [".."]': "`except` is bad", "media = false": "`media` is bad",
                 'media = ["exe"]': "`media` is bad", 'names = "nfd"': "`names` is bad", "readme = 1": "`readme` must be a boolean",
                 'on_bad = "ask"': "`on_bad` is bad", 'onbad = "skip"': "unknown key `onbad`: is `on_bad` meant?",
                 "file = 1": "unknown key `file`"}
PAGE_FAULTS = {'groups = "team"': "`groups` must be an array of strings", 'groups = ["a b"]': '`groups`: "a b" is no name of a group'}
TOP_FAULTS = {"keep_alive = 1": "`keep_alive` must be a boolean", "cache = 0": "`cache` must be an integer from 1 to 4096",
              "entities = 1": "`entities` must be a string", "markdown = 1": "`markdown` must be a table",
              "listen = 1": "`listen` must be a table",
              "browse = 1": "`browse` must be a table", "folder = 1": "`folder` must be an array of tables"}


def documents():
    """What is told of the document as a whole, and of its own keys."""
    told("good", GOOD)
    found, status, error = lint(GOOD + "x =\n" + "[[reader]]\n")
    scene.check("no TOML", len(found) == 1 and re.fullmatch(r"site\.toml:8:4: \S.*", found[0]) and (status, error) == (1, b""), found)
    scene.check("no TOML: listen", listened() == (f"{found[0]}\ndocs_server: config\n", False))
    told("no readers", PAGE, ": warning: no readers")
    told("no owner", READER.replace("true", "false") + PAGE, ": warning: no owner")
    for line, text in TOP_FAULTS.items():
        key = line.split(" ")[0]
        told(line, f"{line}\n{GOOD}", f": {text}", by=f"config: `{key}` is bad" if key in ("listen", "folder", "browse") else "config")
    told("reader = 1", "reader = 1\n" + PAGE, ": `reader` must be an array of tables", ": warning: no readers")
    told("page = 1", "page = 1\n" + READER, ": `page` must be an array of tables")
    told("readers", "readers = 1\n" + GOOD, ": warning: unknown key `readers`: is `reader` meant?")
    told("another key", "colour = 1\n" + GOOD, ": warning: unknown key `colour`")


def tables():
    """What is told of the keys of each table."""
    for table, faults in (("markdown", MARKDOWN_FAULTS), ("listen", LISTEN_FAULTS), ("browse", BROWSE_FAULTS)):
        for line, text in faults.items():
            by = "config" if table == "markdown" else f"config: `{table if 'unknown' in text else line.split(' ')[0]}` is bad"
            told(f"{table}: {line}", f"{GOOD}[{table}]\n{line}\n", f": [{table}]: {text}", by=by)


def readers():
    for line, text in READER_FAULTS.items():
        told(line, f'{GOOD}[[reader]]\n{OTHER_KEY}\n{line}\n', f":8: reader 2: {text}")
    told("no token", GOOD + "[[reader]]\n", ":8: reader 2: no `token`")
    told("no text", GOOD + "[[reader]]\ntoken = 1\n", ":8: reader 2: `token` must be a string")
    told("no bearer token", GOOD + '[[reader]]\ntoken = "a b"\n', ":8: reader 2: `token` is no bearer token")
    told("twice", GOOD + f'[[reader]]\ntoken = "{TOKEN}"\n', ":8: reader 2: the token of reader 1", f":8: reader 2: {CLEAR}")
    told("twice by digest", GOOD + f"[[reader]]\n{KEY}\n", ":8: reader 2: the token of reader 1")
    told("in clear", GOOD + f'[[reader]]\ntoken = "{TOKEN}2"\n', f":8: reader 2: {CLEAR}")
    told("no digest", GOOD + '[[reader]]\ntoken_sha256 = "ab"\n', ":8: reader 2: `token_sha256` is bad")
    told("both", GOOD + f'[[reader]]\ntoken = "{TOKEN}2"\ntoken_sha256 = "{64 * "0"}"\n', ":8: reader 2: both `token` and `token_sha256`")
    told("short", GOOD + '[[reader]]\ntoken = "tok"\n', ":8: reader 2: warning: a token of fewer than 22 characters can be guessed")
    told("onwer", GOOD + f'[[reader]]\n{OTHER_KEY}\nonwer = true\n', ":8: reader 2: warning: unknown key `onwer`: is `owner` meant?")


NO_NAMES = {'"Ann"': BAD_NAME, '""': BAD_NAME, f'"{"n" * 33}"': BAD_NAME, '"a b"': BAD_NAME, '"a/b"': BAD_NAME, '"änn"': BAD_NAME,
            '"an\\u0000n"': BAD_NAME, "5": NO_STRING, '["ann"]': NO_STRING, "true": NO_STRING}


def names():
    """What is told of the names of readers, and by which name a row is told."""
    for name in ("ann", "7", "n" * 32, "j.doe-2_x@example.org"):
        row = f'[[reader]]\n{OTHER_KEY}\nname = "{name}"\n'
        told(f"name {name}", GOOD + row)
        told(f"fault of {name}", f"{GOOD}{row}owner = 1\n", f":8: reader 2 ({name}): `owner` must be a boolean")
        told(f"warning of {name}", f"{GOOD}{row}onwer = 1\n", f":8: reader 2 ({name}): warning: unknown key `onwer`: is `owner` meant?")
    told("a name beside a bad token", GOOD + f'[[reader]]\ntoken = "{TOKEN} "\nname = "ann"\n', ":8: reader 2 (ann): `token` is no bearer token")
    told("one name twice", GOOD.replace("owner", 'name = "ann"\nowner') + f'[[reader]]\n{OTHER_KEY}\nname = "ann"\n')
    for name, text in NO_NAMES.items():
        bad = f"[[reader]]\n{OTHER_KEY}\nname = {name}\n"
        told(f"no name {name}", GOOD + bad, f":8: reader 2: {text}", by=REFUSED_NAME)
        # the other commands that read it refuse it alike, and those that don't pass it over
        lines = f"site.toml:8: reader 2: {text}\ndocs_server: {REFUSED_NAME}\n"
        for words in (["folders", "site.toml"], ["compact", "site.toml", "--journal", "nowhere"]):
            found = ran(words)
            scene.check(f"no name {name}: {words[0]}", (found.stderr.decode(), found.returncode) == (lines, 2), found)
        for words in (["check", "site.toml", TOKEN], ["replay", "site.toml"], ["serve", "site.toml", f"{HOST}:0", "0", "1"]):
            found = ran(words, input=b"")
            put("site.toml", GOOD)
            wanted = ran(words, input=b"")
            scene.check(f"no name {name}: {words[0]}", found.returncode == wanted.returncode == 0 and found.stderr == wanted.stderr == b"",
                        f"wanted {wanted}, found {found}")
            put("site.toml", GOOD + bad)
        told(f"no name {name}, and no owner", f"{GOOD}{bad}owner = 1\n", ":8: reader 2: `owner` must be a boolean", f":8: reader 2: {text}")
        # names come behind folders and in front of the pages for people
        told(f"no name {name}, and no folder", f'{GOOD}{bad}[[folder]]\nprefix = "a"\n', f":8: reader 2: {text}", ":11: folder 1: no `path`",
             by="config: folder 1: `path` is bad")
        told(f"no name {name}, and no pages for people", f"{GOOD}{bad}[browse]\ntitle = 1\n", ": [browse]: `title` must be a string",
             f":8: reader 2: {text}", by=REFUSED_NAME)
        told(f"no name {name}, and no bounds", f"{GOOD}{bad}[listen]\nconnections = 0\n", f": [listen]: {LISTEN_FAULTS['connections = 0']}",
             f":8: reader 2: {text}", by="config: `connections` is bad")
        told(f"no name {name}, and no token", f"{GOOD}{bad}[[reader]]\n", f":8: reader 2: {text}", ":11: reader 3: no `token`")
        told(f"no name {name} and another", GOOD.replace("owner", f"name = {name}\nowner") + bad, f":1: reader 1: {text}",
             f":9: reader 2: {text}", by=REFUSED_NAME.replace("2", "1"))
        told(f"no name {name} of the same token", f"{GOOD}{bad.replace(OTHER_KEY, KEY)}", ":8: reader 2: the token of reader 1",
             f":8: reader 2: {text}")


def pages():
    told("no path", GOOD + '[[page]]\ntext = ""\n', ":8: page 2: no `path`")
    told("no path of a page", GOOD + '[[page]]\npath = "/a"\ntext = ""\n', ":8: page 2: `path` is no path of a page")
    for line, text in PAGE_FAULTS.items():
        told(line, f'{GOOD}[[page]]\npath = "b.md"\ntext = ""\n{line}\n', f":8: page 2 (b.md): {text}")
    told("no source", GOOD + '[[page]]\npath = "b.md"\n', ":8: page 2 (b.md): neither `text` nor `file`")
    told("two sources", GOOD + '[[page]]\npath = "b.md"\ntext = ""\nfile = "b"\n', ":8: page 2 (b.md): both `text` and `file`")
    told("text that is none", GOOD + '[[page]]\npath = "b.md"\ntext = 1\n', ":8: page 2 (b.md): `text` must be a string")
    told("the longest text", GOOD + f'[[page]]\npath = "b.md"\ntext = "{MOST_TEXT}"\n')
    told("a longer text", GOOD + f'[[page]]\npath = "b.md"\ntext = "{MOST_TEXT}x"\n',
         ":8: page 2 (b.md): `text` has more than 1048576 bytes", by="refused")
    told("covered", GOOD + '[[page]]\npath = "a.md"\ntext = ""\n', ":8: page 2 (a.md): warning: the path of page 1, which this one covers")
    told("unheld", GOOD + '[[page]]\npath = "b.md"\ntext = ""\ngroups = ["ops", "team"]\n',
         ":8: page 2 (b.md): warning: a group that no reader has: ops")
    told("guests", GOOD + '[[page]]\npath = "b.md"\ntext = ""\ngroups = ["ops"]\n[browse]\nguest = ["ops"]\n')
    told("another key", GOOD + '[[page]]\npath = "b.md"\ntext = ""\ngroup = []\n',
         ":8: page 2 (b.md): warning: unknown key `group`: is `groups` meant?")


def folders():
    for line, text in FOLDER_FAULTS.items():
        by = "a key is unknown" if "unknown" in text else f"`{line.split(' ')[0]}` is bad"
        told(f"folder: {line}", f"{GOOD}{FOLDER}{line}\n", f":8: folder 1: {text}", by=f"config: folder 1: {by}")
    told("folder without a path", GOOD + '[[folder]]\nprefix = "a"\n', ":8: folder 1: no `path`", by="config: folder 1: `path` is bad")
    told("folder's group", f'{GOOD}{FOLDER}groups = ["ops"]\n', ":8: folder 1: warning: a group that no reader has: ops")


def files():
    """What is told of the files that a configuration names."""
    put("latin.md", b"\xff")
    put("long.md", "x" * 1_048_577)
    put("most.md", "x" * 1_048_576)
    put("table", "zwp 200B\n")
    put("bad_table", "zwp 200B\nzwp\n")
    put("twice_table", "zwp 200B\n\nzwp 200C\n")
    put("built_in", "amp 200B\n")
    put("long_table", "zwp 200B\n" + "\n" * 1_048_577)
    for name, text in (("bad/a.md", "A"), ("bad/b%.md", "B"), ("bad/d/c?.md", "C"), ("other/in.md", "I"), ("other/deep/a.md", "A"),
                       ("media/c.png", "c"), ("more/c.png", "d"), ("more/d.txt", "d")):
        put(name, text)
    named = '[[page]]\npath = "b.md"\nfile = "%s"\n'
    told("the longest file", GOOD + named % "most.md")
    for file, reason, by in (("absent.md", "no such file", "cannot read absent.md"), ("folder", "a folder", "cannot read folder"),
                             ("latin.md", "not UTF-8", "cannot read latin.md"), ("long.md", "more than 1048576 bytes", "refused")):
        told(f"file: {file}", GOOD + named % file, f":8: page 2 (b.md): cannot read {file}: {reason}", by=by)
    told("a table", 'entities = "table"\n' + GOOD)
    told("a long table", 'entities = "long_table"\n' + GOOD)
    for file, text, by in (("absent", "cannot read absent: no such file", "cannot read absent"),
                           ("folder", "cannot read folder: a folder", "cannot read folder"),
                           ("latin.md", "cannot read latin.md: not UTF-8", "cannot read latin.md"),
                           ("bad_table", "line 2: bad row", "bad table"), ("twice_table", "line 3: a name that has other characters", "bad table"),
                           ("built_in", "line 1: a name that has other characters", "bad table")):
        told(f"entities: {file}", f'entities = "{file}"\n' + GOOD, f": {text}", by=by)
    told("all files", 'entities = "absent"\n' + GOOD + named % "latin.md" + FOLDER.replace("folder\"", "nowhere\""),
         ": cannot read absent: no such file", ":9: page 2 (b.md): cannot read latin.md: not UTF-8",
         ":12: folder 1: cannot read nowhere: no such file", by="cannot read absent")
    put("site.toml", b"x = '\xff'\n")
    it = ran(["lint", "site.toml"])
    scene.check("not UTF-8", (it.stdout, it.returncode, it.stderr) == (b"site.toml: not UTF-8\n", 1, b""), it)
    scene.check("not UTF-8: listen", listened() == ("docs_server: cannot read site.toml\n", False))
    it = ran(["lint", "nowhere.toml"])
    scene.check("no file", (it.stdout, it.returncode, it.stderr) == (b"", 2, b"docs_server: cannot read nowhere.toml\n"), it)


def folder(path, more=""):
    return f'[[folder]]\npath = "{path}"\n{more}'


def files_of_folders():
    bad = ["bad/b%.md: a path has no \\, %, ? or #", "bad/d/c?.md: a path has no \\, %, ? or #"]
    told("bad files", GOOD + folder("bad", 'prefix = "b"\n'), *(f":8: folder 1: cannot read {it}" for it in bad), by=f"cannot read {bad[0]}")
    told("bad files are passed over", GOOD + folder("bad", 'prefix = "b"\non_bad = "skip"\n'),
         *(f":8: folder 1: warning: cannot read {it}" for it in bad))
    told("no folder", GOOD + folder("nowhere"), ":8: folder 1: cannot read nowhere: no such file", by="cannot read nowhere")
    told("no folder to except", GOOD + folder("folder", 'except = ["nowhere"]\n'), ":8: folder 1: cannot read folder/nowhere: no such file",
         by="cannot read folder/nowhere")
    told("a page's path", GOOD.replace("a.md", "in.md") + folder("folder"), ":8: folder 1: in.md: the path of page 1", by="config: in.md twice")
    told("a folder's path", GOOD + folder("folder") + folder("other"), ":10: folder 2: in.md: a page of folder 1", by="config: in.md twice")
    told("two of them", GOOD + PAGE.replace("a.md", "in.md") + folder("folder") + folder("other", 'prefix = "deep"\n') + folder("other"),
         ":11: folder 1: in.md: the path of page 2", ":16: folder 3: in.md: the path of page 2", by="config: in.md twice")
    told("a page of that name", GOOD.replace("a.md", "c.png") + folder("media", "media = true\n"), ":8: folder 1: c.png: the path of page 1",
         ":8: folder 1: warning: no page", by="config: c.png twice")
    told("a medium of that name", GOOD + folder("media", "media = true\n") + folder("more", 'media = ["png"]\n'),
         ":11: folder 2: c.png: a page of folder 1", ":8: folder 1: warning: no page", ":11: folder 2: warning: no page",
         by="config: c.png twice")
    told("no page", GOOD + folder("media"), ":8: folder 1: warning: no page")
    rows = "".join(f'[[page]]\npath = "{i}"\ntext = ""\n' for i in range(10_000))
    told("many pages", READER + rows)
    told("many, and one twice", READER + rows + '[[page]]\npath = "5"\ntext = ""\n',
         ":30005: page 10001 (5): warning: the path of page 6, which this one covers")
    told("more pages", READER + rows + PAGE, ": more than 10000 pages", by="refused")
    told("more by a folder", READER + rows + folder("folder"), ":30005: folder 1: cannot read folder/in.md: more than 10000 pages",
         ":30005: folder 1: warning: no page", by="cannot read folder/in.md: more than 10000 pages")


# journals over GOOD, each with what is told of it, and what `listen` stops with
PUT_B, EDITED = b"put b.md - B\n", ": warning: a.md: an edit of the journal stands in its place"
JOURNALS = {"none": ([], [], ""), "another page": ([PUT_B], [], ""), "the same": ([b"put a.md - A\n"], [], ""),
            "another text": ([b"put a.md - B\n"], [EDITED], ""), "other groups": ([b"put a.md team A\n"], [EDITED], ""),
            "moved": ([PUT_B, b"move a.md c.md\n"], [EDITED], ""), "removed": ([b"remove a.md\n"], [EDITED], ""),
            "back again": ([b"put a.md - B\n", b"put a.md - A\n"], [], ""),
            "no edit": ([PUT_B, b"connect\n"], [": bad journal record 2"], "bad journal record 2"),
            "refused": ([PUT_B, PUT_B + b"move b.md a.md\n"], [": journal record 2 refused, line 2"], "journal record 2 refused, line 2")}


def journal_told(name, journal, lines, by):
    """A journal of which these lines are told over a good configuration. Nothing is written, and no lock is asked for."""
    found = ran(["lint", "site.toml", "--journal", "kept"])
    faults = any(map(is_fault, lines))
    wanted = ("".join(f"site.toml{line}\n" for line in lines).encode(), int(faults), b"")
    scene.check(f"journal: {name}", (found.stdout, found.returncode, found.stderr) == wanted, f"wanted {wanted}, found {found}")
    scene.check(f"journal: {name}: as it was", journal is None or got("kept") == journal)
    said, taken = listened("--journal", "kept")
    scene.check(f"journal: {name}: listen", (said, taken) == (f"docs_server: {by}\n", False) if faults else taken, said)


def journals():
    put("site.toml", GOOD)
    for name, (texts, lines, by) in JOURNALS.items():
        put("kept", journal_of(texts))
        with open("kept", "rb") as file:
            fcntl.flock(file, fcntl.LOCK_EX)
            found = ran(["lint", "site.toml", "--journal", "kept"])
            scene.check(f"journal: {name}: while a server has it", found.stdout.decode() == "".join(f"site.toml{it}\n" for it in lines), found)
        journal_told(name, got("kept"), lines, by)
    for name, journal, lines, by in (("damaged", journal_of([PUT_B])[:-1], [": journal record 2"], "journal record 2"),
                                     ("torn", journal_of([PUT_B]) + b"torn", [], ""), ("foreign", b"none", [": no journal"], "no journal")):
        put("kept", journal)
        journal_told(name, journal, lines, by)
    os.remove("kept")
    journal_told("absent", None, [": warning: no journal yet"], "")
    os.remove("kept")
    os.mkdir("kept")
    journal_told("a folder", None, [": cannot open journal"], "cannot open journal")
    os.rmdir("kept")
    # pages of folders, of which one is moved at the start
    put("guide/README.md", "Guide\n")
    put("site.toml", GOOD + folder("folder") + folder("guide", 'prefix = "guide"\nreadme = true\n'))
    for name, texts, paths in (("over folders", [], []), ("a folder's page", [b"put in.md - B\n", b"remove a.md\n"], ["a.md", "in.md"]),
                               ("an index", [b"put guide/index.md - B\n"], ["guide/index.md"])):
        put("kept", journal_of(texts))
        journal_told(name, got("kept"), [EDITED.replace("a.md", path) for path in paths], "")
    os.remove("kept")
    # a document's fault, or a file's, is told alone
    for text in (GOOD + "[[reader]]\n", GOOD + folder("nowhere")):
        put("site.toml", text)
        scene.check("journal: behind a fault", ran(["lint", "site.toml", "--journal", "nowhere"]).stdout == ran(["lint", "site.toml"]).stdout)


def pairs():
    """Two at once: both are told, the document's before the rows', and faults before warnings."""
    for (first, one), (second, other) in itertools.product(TOP_FAULTS.items(), list(READER_FAULTS.items())[:3]):
        if first.split(" ")[0] != "browse":
            told(f"{first}, {second}", f'{first}\n{GOOD}[[reader]]\n{OTHER_KEY}\n{second}\n', f": {one}", f":9: reader 2: {other}")
    told("warning and fault", "colour = 1\n" + GOOD + "[[reader]]\n", ":9: reader 2: no `token`", ": warning: unknown key `colour`")


# ---- random ones

def written(key, value):
    return random.choice([f"{key} = {value}", f"{key}={value}", f"  {key} = {value}  # as it is"])


def header(key):
    return random.choice([f"[[{key}]]"] * 4 + [f"  [[{key}]]", f"[[ {key} ]]", f"[[{key}]]  # another one"])


def good_row(key, number):
    """The lines of a good row."""
    if key == "reader":
        lines = [written("token", f'"{TOKEN}-{number}"'), written("owner", "true"), written("groups", '["team", "ops"]')]
        if random.random() < 0.5:
            lines.append(written("name", f'"ann_{number}@example.org"'))
    elif key == "page":
        lines = [written("path", f'"pages/{number}.md"'), written("text", '"""\nA text\n"""' if random.random() < 0.3 else '"A text"')]
    else:
        lines = [written("path", '"folder"'), written("prefix", f'"f{number}"')]
    if random.random() < 0.5 and key != "folder" and "groups" not in " ".join(lines):
        lines.append(written("groups", '["team"]'))
    random.shuffle(lines)
    return lines


SEEDS = {"reader": [("owner = 1", "`owner` must be a boolean"), ('token = "a b"', "`token` is no bearer token"), ('name = "Ann"', BAD_NAME),
                    ("name = 5", NO_STRING)],
         "page": [('path = "/a"', "`path` is no path of a page"), ('file = "x"', "both `text` and `file`"), ('groups = ["A"]', "")],
         "folder": [('names = "nfd"', "`names` is bad"), ("readme = 1", "`readme` must be a boolean"),
                    ("colour = 1", "unknown key `colour`")]}


def with_fault(table, lines, seed):
    """A row in which a line stands in the place of the one that has its key, or behind the others, and what stands behind its place."""
    key = seed.split(" ")[0]
    kept = [line for line in lines if not re.match(rf"\s*{key}\s*=", line)]
    names = [re.match(rf'\s*{ {"reader": "name", "page": "path"}.get(table, "no key") }\s*=\s*"([^"]*)"', line) for line in kept]
    return kept + [seed], "".join(f" ({it[1]})" for it in names if it)


def random_text(fault):
    """A configuration, and where the fault was put: its row, with the name that is told, and its line, and whether a text before it looks
    like a header."""
    table, (seed, _) = fault if fault else (None, ("", ""))
    counts = {"reader": random.randint(1, 5), "page": random.randint(1, 8), "folder": random.randint(1, 3)}
    row = random.randint(1, counts[table]) if table else 0
    keys = list(counts)
    random.shuffle(keys)
    out, line, named, has_decoy, decoyed = [], None, "", False, False
    for key, number in ((key, number) for key in keys for number in range(1, counts[key] + 1)):
        out += random.choice([[], [""], ["# a row"], [f"# [[{key}]]"]])
        lines = good_row(key, number)
        if (key, number) == (table, row):
            line, decoyed = "\n".join(out + [""]).count("\n") + 1, has_decoy
            lines, named = with_fault(table, lines, seed)
        elif key == "page" and random.random() < 0.1:
            lines = [it for it in lines if not it.lstrip().startswith("text")] + [f'text = """\n[[{table or "page"}]]\n"""']
            has_decoy = True
        out += [header(key)] + lines
    return "\n".join(out) + "\n", f"{row}{named}", line, decoyed


def tried(number):
    """Another configuration, with a fault or without."""
    faults = [(table, seed) for table, seeds in SEEDS.items() for seed in seeds]
    fault = random.choice([None] + faults * 2) if random.random() < 0.9 else None
    text, row, line, decoyed = random_text(fault)
    found, status, error = lint(text)
    bad = [*filter(is_fault, found)]
    if fault:
        table, (seed, words) = fault
        where = rf"(:{line})?" if decoyed else f":{line}"
        form = rf"site\.toml{where}: {table} {re.escape(row)}: .*{re.escape(words)}"
        scene.check(f"text {number}: {seed}", len(bad) == 1 and re.fullmatch(form, bad[0]) and status == 1 and not error,
                    f"wanted {form!r}, found {found}, status {status}, {error!r}\n{text}")
    else:
        scene.check(f"text {number}", not bad and status == 0 and not error, f"found {found}, status {status}, {error!r}\n{text}")
    said, taken = listened()
    scene.check(f"text {number}: listen", taken == (status == 0) and (taken or said.startswith("".join(f"{it}\n" for it in bad))),
                f"status {status}, {said!r}\n{text}")
    scene.check(f"text {number}: no token", TOKEN not in "\n".join(found) + said)


def main():
    count, seed = scene.numbers
    random.seed(seed)
    put("folder/in.md", "In the folder\n")
    documents()
    tables()
    readers()
    names()
    pages()
    folders()
    files()
    files_of_folders()
    journals()
    pairs()
    for number in range(count):
        tried(number)


scene.run(main)
