"""Compacts journals of the handbook in site/, and compares all replies before and after, byte for byte: each page and alias, the contents,
the broken links and some searches, for each reader. The journals hold PUTs, DELETEs and moves, also of the configuration's own pages.

Also: `compact` killed by SIGKILL at random moments, and stopped at each call that it makes of the system for files (strace), by SIGKILL
or a failure, EIO, or ENOSPC of its writes: each time the old journal or the new one is there, whole, the site is the same, and a failure
leaves no other file. Of one call at most 60 are stopped: the zeros behind a journal are written by hundreds.
Then edits behind a compacted journal; a second compaction, which changes no edit; and that a journal which a server has open is refused
as in use.

    python3 scripts/listen/compact.py PROGRAM [KILLS]

Builds nothing. Needs python3, and strace, which it has installed where it lacks. 40 kills, which is what KILLS is if left out, take some
minutes.
"""
import os, random, subprocess, sys, time, tomllib
sys.path.insert(1, os.path.dirname(__file__) + "/../lib")
from scene import Client, Refused, Scene, got, put
from journals import Refused as Unread, is_opened, read, written

scene = Scene(seconds=120, seconds_each=6, numbers=(40,), needs=["strace"], at_top=True)
chance = random.Random(1)
# Of the kills, which draw as often as the clock has it: so the edits behind them are the same in each run.
moment = random.Random(2)
CALLS = ("openat", "flock", "pread64", "pwrite64", "fsync", "ftruncate", "unlink", "rename", "fchown", "fchmod", "readlink", "write")
WAYS = {"killed": CALLS, "EIO": CALLS, "ENOSPC": ("pwrite64",)}
CONFIG = "site/config.toml"
NEW = [f"new/{number}.md" for number in range(30)]
LISTS = ["/contents", "/broken", "/search?q=incident", "/search?q=edit"]


class Handbook:
    """The handbook with a journal, and what is asked of it. The journal is `large` before its compaction, and `small` behind it."""

    def __init__(self):
        with open(CONFIG, "rb") as file:
            self.own = [page["path"] for page in tomllib.load(file)["page"]]
        self.targets = ["/page/" + path for path in self.own + NEW] + ["/backlinks/" + path for path in self.own] + LISTS
        self.journal, self.begun = scene.scratch + "/journal", scene.scratch + "/journal.compacting"
        self.large = self.small = b""

    def is_begun(self):
        return os.path.exists(self.begun)

    def is_large(self, journal):
        """Whether it is the journal before the compaction."""
        return is_opened(journal, self.front())

    def front(self):
        return read(self.large)[1]

    def is_small(self, journal):
        """Whether it is the journal behind the compaction: each has an identity and a time of its own, and zeros behind its closed gate."""
        try:
            texts, front = read(journal)
            return not self.is_large(journal) and texts == read(self.small)[0] and is_opened(journal, front)
        except Unread:
            return False

    def started(self, name):
        try:
            return scene.listen(CONFIG, journal=self.journal)
        except Refused as refused:
            scene.check(f"{name}: the start", False, refused)
            return None

    def replies(self, name):
        """All replies to each reader; None where the server doesn't start."""
        if not (server := self.started(name)):
            return None
        found = []
        for token in ("tok-owner", "tok-ann", "tok-bob"):
            client = Client(server.port, token)
            found += [(token, target, client.ask(target)) for target in self.targets]
            client.close()
        scene.ends(server, name)
        return found

    def same(self, name, wanted):
        found = self.replies(name)
        differ = [] if found == wanted or not found else [(old[:2], old[2][0], new[2][0]) for old, new in zip(wanted, found) if old != new]
        scene.check(f"{name}: the same replies", found == wanted, differ[:3])

    def words(self):
        return [scene.program, "compact", CONFIG, "--journal", self.journal]

    def compact(self, name, status=0, said=""):
        done = subprocess.run(self.words(), stdin=subprocess.DEVNULL, capture_output=True, text=True, timeout=60)
        scene.check(f"{name}: compact", (done.returncode, done.stdout, done.stderr) == (status, "", said), done)

    def edit(self, count, name):
        """So many PUTs and DELETEs by the owner."""
        if not (server := self.started(name)):
            return
        owner = Client(server.port, "tok-owner")
        for number in range(count):
            path = chance.choice(self.own + NEW)
            if chance.random() < 0.3:
                owner.ask("/page/" + path, "DELETE")
            else:
                text = f"# Edit {number}\n\n[link](/{chance.choice(self.own + NEW)}) " + "word \\x " * chance.randint(0, 2_000)
                code = owner.ask(f"/page/{path}?groups={chance.choice(('staff', 'ops', 'staff,ops'))}", "PUT", text.encode())[0]
                scene.check(f"{name}: a PUT of {path}", code in (201, 204), code)
        owner.close()
        scene.ends(server, name)

    def move(self, name):
        """Records of moves, which no request makes: pages of the configuration and others get new paths, so that aliases stand."""
        texts, _ = read(got(self.journal))
        paths = {reply[1].removeprefix("/page/") for reply in self.replies(name) or [] if reply[0] == "tok-owner" and reply[2][0] == 200}
        lines = []
        for path in sorted(paths & {*self.own, *NEW})[::2]:
            lines += [f"move {path} moved/{path}\n", f"move moved/{path} again/{path}\n"]
            self.targets.extend((f"/page/moved/{path}", f"/page/again/{path}"))
        put(self.journal, written([*texts, "".join(lines).encode()]))


# ---- compactions that are stopped

def killed(handbook, number, most):
    """A compaction that is killed within so many seconds; which journal it left."""
    put(handbook.journal, handbook.large)
    if handbook.is_begun() and moment.random() < 0.5:
        os.remove(handbook.begun)
    process = subprocess.Popen(handbook.words(), stdin=subprocess.DEVNULL, stdout=subprocess.DEVNULL, stderr=subprocess.DEVNULL)
    time.sleep(moment.random() * most)
    process.kill()
    process.wait()
    old = "the old journal" + ", with a new one begun" * handbook.is_begun()
    left = got(handbook.journal)
    found = old if handbook.is_large(left) else "the new journal" if handbook.is_small(left) else "another"
    scene.check(f"kill {number}: one of the two journals", found != "another", f"{len(left)} bytes")
    return found


def all_killed(handbook, wanted, took):
    kills = scene.numbers[0]
    outcomes = {"the old journal": 0, "the old journal, with a new one begun": 0, "the new journal": 0, "another": 0}
    for number in range(kills):
        outcomes[killed(handbook, number, took * 1.5)] += 1
        handbook.same(f"kill {number}", wanted)
    large, small = handbook.large, handbook.small
    (texts, front), (others, other) = read(large), read(small)
    print(f"a journal of {len(front):,} bytes and {len(texts)} records became one of {len(other):,} and {len(others)}; "
          f"{kills} kills left " + ", ".join(f"{count} times {found}" for found, count in outcomes.items() if count))


def stopped(handbook, way, call, number):
    """A compaction with the call of this name and number stopped. Whether there was such a call."""
    put(handbook.journal, handbook.large)
    if way != "killed" and handbook.is_begun():
        os.remove(handbook.begun)
    calls, inject = scene.scratch + "/calls", "signal=SIGKILL" if way == "killed" else f"error={way}"
    words = ["strace", "-f", "-o", calls, "-e", f"trace={call}", "-e", f"inject={call}:{inject}:when={number}+", *handbook.words()]
    done = subprocess.run(words, stdin=subprocess.DEVNULL, capture_output=True, timeout=60)
    hit = b"(INJECTED)" in (text := got(calls)) or b"killed by SIGKILL" in text
    os.remove(calls)
    name, left = f"{way} at {call} {number}", got(handbook.journal)
    scene.check(f"{name}: one of the two journals", handbook.is_large(left) or handbook.is_small(left), f"{len(left)} bytes")
    scene.check(f"{name}: done, or not said to be",
                (done.returncode == 0) <= (handbook.is_small(left) and (way == "killed") <= (not hit)), done)
    scene.check(f"{name}: no other file is left", way == "killed" or not handbook.is_begun())
    return hit


def all_stopped(handbook, wanted):
    for way, calls in WAYS.items():
        counts = {}
        for call in calls:
            while counts.get(call, 0) < 60 and stopped(handbook, way, call, counts.get(call, 0) + 1):
                counts[call] = counts.get(call, 0) + 1
        print(f"{way} at each of " + ", ".join(f"{count} {call}" for call, count in counts.items()), flush=True)
        handbook.same(f"{way} at last", wanted)


# ---- all

def compacted(handbook, wanted):
    """The first compaction, and how long it takes."""
    handbook.large, then = got(handbook.journal), time.monotonic()
    handbook.compact("whole")
    took = time.monotonic() - then
    print(f"a compaction takes {took * 1e3:.0f} ms")
    handbook.small = got(handbook.journal)
    handbook.same("whole", wanted)
    return took


def once_more(handbook):
    """Compactions behind one that was made, behind edits, and of a journal that is in use or damaged."""
    put(handbook.journal, handbook.large)
    handbook.compact("behind the kills")
    scene.check("it gives the same edits", handbook.is_small(got(handbook.journal)))
    scene.check("no other file is left", os.listdir(scene.scratch) == ["journal"], os.listdir(scene.scratch))
    handbook.compact("twice")
    scene.check("a second compaction changes no edit", handbook.is_small(got(handbook.journal)))
    if server := handbook.started("in use"):
        handbook.compact("in use", 2, "docs_server: journal in use\n")
        scene.ends(server, "in use")
    handbook.edit(50, "edits behind it")
    wanted = handbook.replies("edits behind it")
    handbook.compact("again")
    handbook.same("again", wanted)
    damaged = handbook.front()[:-1]
    put(handbook.journal, damaged)
    handbook.compact("a damaged journal", 2, f"docs_server: journal record {len(read(handbook.large)[0]) + 1}\n")
    scene.check("a damaged journal is as it was", got(handbook.journal) == damaged)


def main():
    handbook = Handbook()
    handbook.compact("no journal yet", 2, "docs_server: cannot open journal\n")
    plain = handbook.replies("the configuration alone") or []
    handbook.edit(300, "edits")
    handbook.move("moves")
    wanted = handbook.replies("before")
    scene.check("edits are seen", sum(reply not in plain for reply in wanted or []) > 20)
    scene.check("aliases are seen", any(reply[2][0] == 301 for reply in wanted or []))
    took = compacted(handbook, wanted)
    all_killed(handbook, wanted, took)
    scene.check("it is shorter", len(read(handbook.small)[1]) < len(handbook.front()))
    all_stopped(handbook, wanted)
    once_more(handbook)


scene.run(main)
