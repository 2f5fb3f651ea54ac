"""Runs `listen --journal` on a disk of which a sync fails (EIO): an edit that meets it isn't answered, and the program ends as `cannot
write`. A start on that disk has what was answered, or says `cannot use journal`. Once the disk takes bytes again, with what the system
still has in memory of the file, a start has what was answered, takes further edits, and all of that is on the disk when it is taken away
and mounted again: so nothing is built on bytes that a failed sync left in memory alone.

The disk is an ext4 in a file on a tmpfs, by a loop device: where that tmpfs is full and a page of the file isn't there yet, the page can't
be written, while ext4 has room. Pages of zeros are made such ones again before. Each request of the device is one page: of a longer one
whose first page can be written the loop driver says that all of it was. Where the machine lets no such device be mounted, the script
says so, and ends with status 0. (A device of dmsetup that errs would do the same; few machines have one.)

    python3 scripts/listen/failing_disk.py PROGRAM [ROUNDS]

Builds nothing. Needs python3, and to try it the right to mount (root), mkfs.ext4 and fallocate. 12 rounds take half a minute.
"""
import os, shutil, subprocess, sys
sys.path.insert(1, os.path.dirname(__file__) + "/../lib")
from scene import OWNER, Client, Refused, Scene, got, page_of, put
from disk import Hog, run
from journals import is_opened, read

scene = Scene(seconds=120, seconds_each=20, numbers=(12,))
JOURNAL = "disk/journal"


class Disk:
    """A disk that fails while the one below it is full."""

    def __init__(self):
        os.environ["PATH"] += ":/usr/sbin:/sbin"
        self.below, self.device = Hog("below/other"), None
        os.mkdir("below")
        os.mkdir("disk")

    def make(self):
        """Whether it could be made."""
        if run(["mount", "-t", "tmpfs", "-o", "size=110m", "none", "below"]):
            return False
        with open("below/image", "wb") as file:
            file.truncate(100 << 20)
        words = ["mkfs.ext4", "-q", "-F", "-m", "0", "-b", "4096", "-O", "^has_journal", "-E", "lazy_itable_init=0", "below/image"]
        if not all(map(shutil.which, ("mkfs.ext4", "fallocate", "losetup"))) or run(words):
            return False
        made = subprocess.run(["losetup", "--find", "--show", "below/image"], capture_output=True, text=True)
        if made.returncode:
            return False
        self.device = made.stdout.strip()
        try:
            put(f"/sys/block/{os.path.basename(self.device)}/queue/max_sectors_kb", "4")
        except OSError:
            return False
        return self.mount()

    def mount(self):
        return not run(["mount", self.device, "disk"])

    def again(self):
        """It is taken away and mounted again: what isn't on it is forgotten."""
        scene.check("it can be taken away", not run(["umount", "disk"]))
        scene.check("it can be mounted again", self.mount())

    def fails(self):
        """From now on no block that has only zeros can be written."""
        os.sync()
        run(["fallocate", "--dig-holes", "below/image"])
        self.below.fill()

    def works(self):
        self.below.go()

    def end(self):
        self.below.go()
        run(["umount", "-l", "disk"])
        if self.device:
            run(["losetup", "--detach", self.device])
        run(["umount", "-l", "below"])


def asked(server, pages, name):
    """The pages are these, and no others."""
    client = Client(server.port, "tok")
    for number in range(3 * scene.numbers[0]):
        path = f"{number}.md"
        found = client.ask("/page/" + path)[::2]
        wanted = (200, page_of(path, pages[path])) if path in pages else (404, b"404 Not Found\n")
        scene.check(f"{name}: {path}", found == wanted, (found[0], found[1][:60]))
    client.close()


def text_of(number):
    """Some are short, others take blocks of their own."""
    return f"{number} " + "x" * (10, 3_000, 30_000, 300_000)[number % 4]


def edited(server, number, pages):
    """Whether a PUT is answered."""
    client, path, text = Client(server.port, "tok"), f"{number}.md", text_of(number)
    try:
        code = client.ask("/page/" + path, "PUT", text.encode())[0]
    except OSError:
        return False
    finally:
        client.close()
    scene.check(f"a PUT of {path}", code == 201, code)
    pages[path] = text
    return True


def failed(disk, server, first, pages):
    """Edits while the disk fails, up to one that isn't answered. How many were."""
    disk.fails()
    for number in range(first, first + 2):
        if not edited(server, number, pages):
            scene.check("the program ends", server.ends(10))
            server.close()
            said = server.said().splitlines()[-1:]
            scene.check("cannot write", (server.process.returncode, said) == (2, ["docs_server: cannot write"]), server.said())
            return number - first
    scene.ends(server, "no edit met a block that can't be written")
    return 2


def restarted(name):
    try:
        return scene.listen("site.toml", journal=JOURNAL)
    except Refused as fault:
        scene.check(f"{name}: refused", (fault.status, fault.said.splitlines()[-1:]) == (2, ["docs_server: cannot use journal"]), fault)
        return None


def one_round(disk, number, pages):
    """What comes of one failure: how often an edit met it, and how often a start on the failing disk was refused."""
    first = 3 * number
    server = scene.listen("site.toml", journal=JOURNAL)
    asked(server, pages, f"round {number}")
    answered = failed(disk, server, first, pages)
    server = restarted(f"round {number}, on the failing disk")
    refused = server is None
    if server:
        asked(server, pages, f"round {number}, on the failing disk")
        server.kill()
    disk.works()
    server = scene.listen("site.toml", journal=JOURNAL)
    asked(server, pages, f"round {number}, on the disk that works again")
    scene.check("a further edit is answered", edited(server, first + 2, pages))
    server.kill()
    disk.again()
    journal = got(JOURNAL)
    scene.check("the journal on the disk is whole", is_opened(journal, read(journal)[1]))
    return answered < 2, refused


def main():
    disk = Disk()
    try:
        if not disk.make():
            scene.told = None
            return print("no loop device can be mounted here: a sync that fails wasn't tried")
        put("site.toml", OWNER)
        scene.ends(scene.listen("site.toml", journal=JOURNAL), "the first start")
        put(JOURNAL, got(JOURNAL) + bytes(8 << 20))
        pages = {}
        rounds = [one_round(disk, number, pages) for number in range(scene.numbers[0])]
        met, refused = (sum(of) for of in zip(*rounds))
        scene.check("edits met it", met > 0)
        print(f"{len(rounds)} rounds: in {met} an edit met a block that can't be written, and {refused} starts on that disk were refused")
    finally:
        disk.end()


scene.run(main)
