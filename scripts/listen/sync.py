"""Watches the calls that `listen --journal` makes of the system (strace) while two clients edit, and checks their order: behind each edit a
record is written and synced, then its gate is opened and synced, and only then is a reply to an edit sent. Zeros that the journal grows by
are written and synced between turns. A kill can't show this: what was written stays, synced or not.

    python3 scripts/listen/sync.py PROGRAM

Builds nothing. Needs python3, and strace, which it has installed where it lacks, with the right to trace a program. Some seconds.
"""
import os, re, sys
sys.path.insert(1, os.path.dirname(__file__) + "/../lib")
from scene import OWNER, Client, Scene, got, put
from journals import read

scene = Scene(seconds=120, needs=["strace"])
CALLS = "trace=openat,pwrite64,write,writev,fsync,fdatasync,ftruncate,sendto,sendmsg"
ROUNDS = 50


def edited():
    """How many edits were sent, of which each has its reply: two at once, which may come to one turn or to two, and one alone."""
    server = scene.listen("site.toml", journal="journal", before=("strace", "-f", "-s", "24", "-x", "-o", "calls", "-e", CALLS))
    first, second = Client(server.port, "tok"), Client(server.port, "tok")
    for number in range(ROUNDS):
        for client, name in ((first, "a"), (second, "b")):
            client.send(f"/page/{name}{number}.md", "PUT", b"text " * number * 100)
        for client in (first, second):
            scene.check("a PUT", client.reply()[0] == 201)
        scene.check("a DELETE", first.ask(f"/page/a{number}.md", "DELETE")[0] == 204)
        scene.check("a GET", first.ask(f"/page/b{number}.md")[0] == 200)
    scene.check("the end", server.end() == 0)
    return 3 * ROUNDS


class Calls:
    """The calls that were made, in their order: what was done for the journal since the last reply to an edit."""

    def __init__(self, edits):
        self.edits, self.journal, self.steps, self.records, self.replies = edits, None, [], 0, 0

    def made(self, name, words):
        if name == "openat" and '"journal.new"' in words and "O_RDWR" in words:
            self.journal = re.search(r"= (\d+)$", words)[1]
        elif name in ("pwrite64", "write", "writev") and words.startswith(f"{self.journal},"):
            text = words.removeprefix(f"{self.journal}, ")
            self.steps.append("gate" if text.startswith('"\\xff", 1,') else "zeros" if text.startswith('"\\x00') else "record")
        elif name in ("fsync", "fdatasync") and words.startswith(f"{self.journal})"):
            self.steps.append("sync")
        elif re.search(r'"\\x48\\x54\\x54\\x50\\x2f\\x31\\x2e\\x31\\x20\\x32\\x30[14]|"HTTP/1.1 20[14]', words):
            self.replied()
        elif name == "write" and "listening" in words:
            self.steps = []

    def replied(self):
        """A reply to an edit: what was done before it is whole records, each synced. Zeros were written and synced before them."""
        while self.steps[:1] == ["zeros"]:
            last = self.steps.index("sync") if "sync" in self.steps else 0
            scene.check("zeros are synced", last > 0 and set(self.steps[:last]) == {"zeros"}, self.steps)
            self.steps = self.steps[last + 1:]
        count = len(self.steps) // 4
        scene.check("before a reply", self.steps == ["record", "sync", "gate", "sync"] * count, self.steps)
        self.records, self.replies, self.steps = self.records + count, self.replies + 1, []
        before = sum(self.edits[:self.records])
        scene.check("an edit is on the disk before its reply", self.replies <= before, f"{self.replies} {before}")


def main():
    put("site.toml", OWNER)
    sent = edited()
    edits = [text.count(b"\n") for text in read(got("journal"))[0]]
    calls = Calls(edits)
    for line in got("calls").decode().splitlines():
        if call := re.match(r"\d+ +(\w+)\((.*)", line):
            calls.made(*call.groups())
    scene.check("the journal was opened", calls.journal is not None)
    scene.check("each edit has a reply", calls.replies == sent, f"{calls.replies} of {sent}")
    scene.check("no record is left", calls.records == len(edits) and sum(edits) == sent, f"{calls.records} {len(edits)} {sum(edits)}")
    print(f"{calls.replies} replies to edits, behind {calls.records} records, each written, synced, opened and synced")


scene.run(main)
