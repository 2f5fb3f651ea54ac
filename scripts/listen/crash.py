"""Kills `listen --journal` with SIGKILL at random moments, while clients send it edits, and starts it again over the same journal. After
each start every page is asked for, and is to be as it was after some number of its client's edits, in their order: at least those that
were answered, at most those that were sent. So no answered edit is lost, and a text is whole: the old one or the new one. What was torn
is kept in `journal.torn`, and is never of an answered edit. At the end the journal is read apart from the program, and ends in zeros.

Four clients send PUTs, with texts of 1 byte to 200 kB, and DELETEs, up to eight at once on one connection, each to pages of its own
(scripts/lib/writers.py). Now and then the program is killed while it starts, and the first start has no journal yet.

    python3 scripts/listen/crash.py PROGRAM [COUNT [SEED]]

Builds nothing. Needs python3. 200 kills, which is what COUNT is if left out, take some minutes. The journal is written in a folder of
TMPDIR: a kill leaves what was written, whether it was synced or not, so what a sync does isn't tried here.
"""
import os, random, subprocess, sys, threading, time
sys.path.insert(1, os.path.dirname(__file__) + "/../lib")
from scene import HOST, OWNER, Client, Refused, Scene, free_port, got, page_of, put, start
from journals import is_opened, read
from writers import Writer, kept_marks

scene = Scene(seconds=60, seconds_each=6, numbers=(200, 1))
WRITERS = 4


class Run:
    """All starts over one journal."""

    def __init__(self, seed):
        self.chance = random.Random(seed)
        self.writers = [Writer(number, seed) for number in range(WRITERS)]
        self.made, self.early, self.took = 0, 0, []

    def ask_all(self, port, name):
        """Each client's pages are those of one of its states."""
        client = Client(port, "tok")
        for writer in self.writers:
            scene.check(f"{name}: replies to client {writer.number}", writer.fault is None, writer.fault)
            made, wrong = writer.find(client)
            scene.check(f"{name}: edits of client {writer.number}", made is not None, wrong)
            self.made += made or 0
        scene.check(f"{name}: the page of the configuration", client.ask("/page/a.md")[2] == page_of("a.md", "Hello"))
        client.close()

    def killed_early(self):
        """The program, killed while it starts."""
        words = [scene.program, "listen", "site.toml", f"{HOST}:{free_port()}", "--journal", "journal"]
        process = start(words, stdin=subprocess.PIPE, stdout=subprocess.DEVNULL, stderr=subprocess.DEVNULL)
        time.sleep(self.chance.random() * 0.03)
        process.kill()
        process.wait()
        process.stdin.close()
        self.early += 1

    def begun(self, name):
        """The program over the journal, with the pages that it is to have; none where it doesn't start."""
        then = time.monotonic()
        try:
            server = scene.listen("site.toml", journal="journal")
        except Refused as refused:
            scene.check(f"{name}: the start", False, refused)
            return None
        self.took.append(time.monotonic() - then)
        self.ask_all(server.port, name)
        return server

    def killed(self, server):
        """The program, killed while all clients send edits."""
        threads = [threading.Thread(target=writer.run, args=(server.port,)) for writer in self.writers]
        for thread in threads:
            thread.start()
        time.sleep(self.chance.random() * 0.2)
        server.kill()
        for thread in threads:
            thread.join()

    def kills(self, count):
        """So many starts and kills; none behind a start that fails."""
        for number in range(1, count + 1):
            while self.chance.random() < 0.2:
                self.killed_early()
            if not (server := self.begun(f"start {number}")):
                return
            self.killed(server)
        if server := self.begun("the last start"):
            scene.ends(server, "the last start")


def kept(run):
    """What was torn is of no answered edit, and the journal is whole. What is told of both."""
    torn = got("journal.torn") if os.path.exists("journal.torn") else b""
    answered, marks = kept_marks(torn, run.writers)
    scene.check("what was torn is of no answered edit", not answered, answered[:3])
    journal = got("journal")
    texts, front = read(journal)
    scene.check("the journal ends in zeros", is_opened(journal, front))
    return (f"journal {len(front) / 1e6:.1f} MB of {len(texts):,} records, and {len(journal) - len(front):,} zeros; "
            f"{len(torn):,} bytes torn, of {len(marks)} edits and more")


def main():
    count, seed = scene.numbers
    put("site.toml", OWNER + '[[page]]\npath = "a.md"\ntext = "Hello"\n')
    run = Run(seed)
    run.kills(count)
    sent, answered = (sum(of) for of in zip(*((writer.sent, writer.answered) for writer in run.writers)))
    print(f"seed {seed}: {len(run.took)} starts, each but the last ended by a kill under edits, and {run.early} kills during a start; "
          f"{answered} edits were answered, and of {sent - answered} others {run.made} were made; {kept(run)}; "
          f"slowest start {max(run.took, default=0):.2f} s")


scene.run(main)
