"""Stops `listen --journal` at each call that it makes for its journal, one after another (strace): by SIGKILL before the call is made, and
by a failure of it and of all like it that follow, EIO and ENOSPC. A client sends edits one at a time over a journal that has some, with
a last record that was torn, and its reserve. After each stop the program is started again without hindrance, and the site is to be that
of the answered edits, or of these and the one that was under way. A failure at the start is told, with status 2; one behind it ends the
program as `cannot write`, and nothing is answered after it. That the reserve isn't grown for want of room, ENOSPC, ends nothing; nor does
it that the journal's header isn't read once more, which the door for monitors tells.

    python3 scripts/listen/points.py PROGRAM

Builds nothing. Needs python3, and strace, which it has installed where it lacks, with the right to trace a program. A minute.
"""
import os, re, sys
sys.path.insert(1, os.path.dirname(__file__) + "/../lib")
from scene import OWNER, Client, Refused, Scene, got, page_of, put
from journals import RESERVE, SPARE, is_opened, read, written

scene = Scene(seconds=500, needs=["strace"])
CALLS = ("openat", "flock", "pread64", "pwrite64", "write", "fsync", "fdatasync", "ftruncate")
EDITS = [("PUT", "a.md", "One " + "x" * 5_000), ("PUT", "b.md", "Two"), ("DELETE", "old.md", ""), ("PUT", "a.md", "Three"),
         ("DELETE", "b.md", "")]
FIRST = {"old.md": "Old.", "c.md": "Kept."}
# a kill before a call is one behind the call before
WAYS = {"killed": "signal=SIGKILL", "EIO": "error=EIO", "ENOSPC": "error=ENOSPC"}
# these read the journal's header for the door
UNNEEDED = {("openat", 2), ("pread64", 2)}
PATHS = ("a.md", "b.md", "c.md", "old.md", "torn.md")
JOURNAL = "journal"


def place():
    """The journal by its whole name, as strace looks for it."""
    return f"{scene.scratch}/{JOURNAL}"


def states():
    """The site before the first edit, and behind each."""
    found = [dict(FIRST)]
    for method, path, text in EDITS:
        found.append({**found[-1], path: text})
        if method == "DELETE":
            del found[-1][path]
    return found


def begin():
    """A journal of two records, and a third one behind a closed gate, of which a part is there, over its reserve."""
    texts = [b"put old.md - Old.\n", b"put c.md - Kept.\n"]
    whole = written(texts)
    put(JOURNAL, whole + written([*texts, b"put torn.md - Torn.\n"])[len(whole):][:50] + bytes(RESERVE + SPARE - 50))


def found():
    """The pages that a start without hindrance has."""
    server = scene.listen("site.toml", journal=place())
    client = Client(server.port, "tok")
    pages = {path: client.ask("/page/" + path)[2] for path in PATHS}
    client.close()
    scene.check("the end", server.end() == 0)
    return {path: body for path, body in pages.items() if body != b"404 Not Found\n"}


def sent(server):
    """How many edits are answered, before one isn't."""
    try:
        client = Client(server.port, "tok")
        for number, (method, path, text) in enumerate(EDITS):
            code = client.ask("/page/" + path, method, text.encode())[0]
            scene.check(f"{method} {path}", code in (201, 204), code)
    except OSError:
        return number
    return len(EDITS)


def untold(said):
    """What was printed, but for that a record was torn."""
    return re.sub(r"(?m)^docs_server: record 3 was torn; .*\n", "", said)


def is_right(way, status, said, is_told):
    """Whether a program that was stopped ended as it should: with status 2, where that was told, or killed."""
    return is_told if status == 2 else way == "killed" and status == -9 and not said


def run(way, call, number, name):
    """A run with the call stopped: how many edits were answered, and whether it went on to its end."""
    before = ("strace", "-f", "-o", "calls", "-P", place(), "-e", f"trace={call}", "-e", f"inject={call}:{WAYS[way]}:when={number}")
    try:
        server = scene.listen("site.toml", journal=place(), before=before)
    except Refused as fault:
        said = untold(fault.said)
        scene.check(f"{name}: how the start ends", is_right(way, fault.status, said, said.startswith("docs_server: ")), fault)
        return 0, False
    answered = sent(server)
    over = answered == len(EDITS) and not server.ends(0.3)
    status = server.end() if over else server.ends(10) and server.process.returncode
    if not over:
        server.close()
        said = untold(server.said())
        right = is_right(way, status, said, said == "docs_server: cannot write\n")
        scene.check(f"{name}: how it ends", right, f"{status} {said!r}")
    return answered, over


def stopped(way, call, number):
    """One run with the call of this name and number stopped, and a start behind it. Whether there was such a call."""
    begin()
    name = f"{way} at {call} {number}"
    answered, over = run(way, call, number, name)
    hit = b"(INJECTED)" in (text := got("calls")) or b"killed by SIGKILL" in text
    is_passed = answered == len(EDITS) and (way == "ENOSPC" or (call, number) in UNNEEDED)
    scene.check(f"{name}: only a call that is stopped stops it", over != hit or way == "killed" or is_passed, hit)
    try:
        pages = found()
        at = [number for number, state in enumerate(states()) if pages == {path: page_of(path, text) for path, text in state.items()}]
        scene.check(f"{name}: the site behind it", at and at[0] in (answered, answered + 1), f"{at}, {answered} answered: {sorted(pages)}")
        scene.check(f"{name}: its journal is whole", is_opened(left := got(JOURNAL), read(left)[1]))
    except Refused as fault:
        scene.check(f"{name}: the start behind it", False, fault)
    return hit


def main():
    put("site.toml", OWNER)
    for way in WAYS:
        counts = {}
        for call in CALLS:
            while stopped(way, call, counts.get(call, 0) + 1):
                counts[call] = counts.get(call, 0) + 1
        print(f"{way} at each of " + ", ".join(f"{count} {call}" for call, count in counts.items()), flush=True)
        scene.check(f"{way}: there were two writes and two syncs for each edit", sum(counts.values()) >= 3 + 4 * len(EDITS), counts)


scene.run(main)
