"""Journals of version 1, which the programs before this form wrote: `listen` refuses each by its name, status 2, and leaves it as it was;
`compact` makes of it one of now, and a server over that answers as the one did that wrote it. Damaged ones are refused by both.

The journals stand in scripts/listen/version_1, over the pages of its site.toml, as the last program of that form left them: `begun` has no
edit; `edited` has PUTs, DELETEs, moves and changes of groups; `killed` is that one behind a kill before the gate of a further record was
opened; `compacted` is what its `compact` made. Beside them stands what that program answered to all readers over `begun`, and over each of
the others alike, a line for each reply: the token, the method, the target, the code, where a 301 leads to, and 16 digits of the SHA-256 of
the body. Where replies have to differ, as by another rendering, these lines are made anew by the program of now, `python3
scripts/listen/version_1.py PROGRAM 1`, once what differs was looked at.

    python3 scripts/listen/version_1.py PROGRAM [ANEW]

Builds nothing. Needs python3. Some seconds.
"""
import hashlib, os, random, re, subprocess, sys
sys.path.insert(1, os.path.dirname(__file__) + "/../lib")
from scene import TOP, Client, Refused, Scene, got, put
from journals import is_first, is_opened, read, read_first

scene = Scene(seconds=300, numbers=(0,))
chance = random.Random(1)
KEPT = TOP + "/scripts/listen/version_1/"
# of each journal the file that has its replies
JOURNALS = {"begun": "begun", "edited": "edited", "killed": "edited", "compacted": "edited"}
PATHS = ("index.md", "guide/start.md", "gone.md", "moved.md", "new/place.md", "new/other.md", "a.md", "b.md", "c.md",
         "%C3%B6/%C3%BC.md", "never.md")
TARGETS = [f"/{route}/{path}" for route in ("page", "backlinks", "source") for path in PATHS] + [
    "/contents", "/contents/new/", "/broken", "/search?q=first", "/search?q=back", "/search?q=edit"]


def replies(port):
    """All replies to each reader, as lines."""
    lines = []
    for token in ("tok-owner", "tok-ann", "tok-bob", "tok-none"):
        client = Client(port, token)
        for target in TARGETS:
            code, head, body = client.ask(target)
            leads = re.search(rb"\r\nLocation: (\S+)", head)
            lines.append(f"{token} GET {target} {code} {leads[1].decode() if leads else '-'} {hashlib.sha256(body).hexdigest()[:16]}\n")
        client.close()
    return lines


def refused(words, fault, name):
    """A command over the file `journal` is refused so, and the file stays as it was."""
    before = got("journal")
    try:
        done = subprocess.run([scene.program, *words, "--journal", "journal"], stdin=subprocess.DEVNULL, capture_output=True, timeout=10)
        found = done.returncode, done.stderr.decode()
    except subprocess.TimeoutExpired:
        found = "it goes on"
    scene.check(f"{name}: {words[0]}", found == (2, f"docs_server: {fault}\n"), found)
    scene.check(f"{name}: {words[0]}: the files are as they were", got("journal") == before and set(os.listdir(".")) == {"site.toml", "journal"})


LISTEN, COMPACT = ["listen", "site.toml", "127.0.0.1:0"], ["compact", "site.toml"]


def served(name):
    """What a server over the journal answers."""
    try:
        server = scene.listen("site.toml", journal="journal")
    except Refused as fault:
        scene.check(f"{name}: the start", False, fault)
        return []
    found = replies(server.port)
    scene.ends(server, name)
    return found


def converted(name):
    """A journal is refused, and compacted: then the replies are those from before."""
    old = got(KEPT + name)
    put("journal", old)
    refused(LISTEN, "journal of version 1", name)
    done = subprocess.run([scene.program, *COMPACT, "--journal", "journal"], stdin=subprocess.DEVNULL, capture_output=True)
    scene.check(f"{name}: compact", (done.returncode, done.stdout, done.stderr) == (0, b"", b""), done)
    scene.check(f"{name}: no other file", set(os.listdir(".")) == {"site.toml", "journal"}, os.listdir("."))
    new = got("journal")
    texts, front = read(new)
    scene.check(f"{name}: a journal of now", is_opened(new, front) and bool(texts) == (name != "begun"), texts)
    found = served(name)
    if scene.numbers[0]:
        put(f"{KEPT}{JOURNALS[name]}.replies", "".join(found))
    wanted = got(f"{KEPT}{JOURNALS[name]}.replies").decode().splitlines(keepends=True)
    differ = [line for line in found if line not in wanted]
    scene.check(f"{name}: the same replies", found == wanted, differ[:3])
    done = subprocess.run([scene.program, *COMPACT, "--journal", "journal"], stdin=subprocess.DEVNULL, capture_output=True)
    scene.check(f"{name}: a second compaction changes no edit", done.returncode == 0 and read(got("journal"))[0] == texts, done)
    scene.check(f"{name}: nor a reply", served(name) == found)
    return f"{name}: {len(old):,} bytes of {len(read_first(old))} records became {len(front):,} of {len(texts)}, with {len(found)} replies"


def damaged(old):
    """A journal with a bit turned, or cut: it is refused by both, unless it is what a crash may have left."""
    ways = [(f"bit turned at {at}", old[:at] + bytes([old[at] ^ 1 << chance.randrange(8)]) + old[at + 1:])
            for at in sorted(chance.sample(range(len(old)), 150))] + [(f"cut at {at}", old[:at]) for at in chance.sample(range(len(old)), 50)]
    firsts = 0
    for name, journal in ways:
        put("journal", journal)
        firsts += is_first(journal)
        refused(LISTEN, "journal of version 1" if is_first(journal) else "no journal", name)
        if not is_first(journal):
            refused(COMPACT, "no journal", name)
    print(f"{len(ways)} damaged ones, of which {firsts} are what a crash may have left")


def main():
    put("site.toml", got(KEPT + "site.toml"))
    for name in JOURNALS:
        print(converted(name), flush=True)
    damaged(got(KEPT + "edited"))


scene.run(main)
