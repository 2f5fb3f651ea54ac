"""Small disks for scripts that fill them: an ext4 on a loop device where the machine lets one be made by mount, else one in memory."""
import errno, os, shutil, subprocess, sys, threading

MOUNTED = []


def mount(place, megabytes):
    """A disk of so many megabytes at a new folder of the current one. What it is; None where the machine lets none be made."""
    os.mkdir(place)
    for told, words in ((f"ext4 of {megabytes} MB on a loop device", on_loop(f"{place}.image", megabytes)),
                        (f"tmpfs of {megabytes} MB", ["mount", "-t", "tmpfs", "-o", f"size={megabytes}m", "none", place])):
        if words and not run([*words, place] if "loop" in words else words):
            MOUNTED.append(os.path.abspath(place))
            return told
    return None


def on_loop(image, megabytes):
    """An ext4 in a file, and how it is mounted; nothing where it can't be made."""
    os.environ["PATH"] += ":/usr/sbin:/sbin"
    with open(image, "wb") as file:
        file.truncate(megabytes << 20)
    if not shutil.which("mkfs.ext4") or run(["mkfs.ext4", "-q", "-F", "-m", "0", image]):
        return None
    return ["mount", "-o", "loop", image]


def run(words):
    return subprocess.run(words, stdout=subprocess.DEVNULL, stderr=subprocess.DEVNULL).returncode


def unmount():
    """Takes all of them away."""
    while MOUNTED:
        run(["umount", "-l", MOUNTED.pop()])


def as_root_of_its_own():
    """The script once more with names of users of its own, who may mount: it ends so. Where that was done already, it says so and ends."""
    if "UNSHARED" in os.environ:
        sys.exit("no disk can be mounted")
    words = ["unshare", "--user", "--map-root-user", "--mount", sys.executable, *sys.argv]
    sys.exit(subprocess.run(words, env={**os.environ, "UNSHARED": "yes"}).returncode)


class Hog:
    """Another file on a disk, which takes all of its room, and what is let go of it, until it goes."""

    def __init__(self, name):
        self.name, self.goes = name, threading.Event()
        self.thread = None

    def fill(self):
        """Takes all room now, and keeps at it."""
        if self.thread is None:
            self.goes.clear()
            self.take()
            self.thread = threading.Thread(target=self.keep_at_it)
            self.thread.start()

    def keep_at_it(self):
        while not self.goes.wait(0.005):
            self.take()

    def take(self):
        with open(self.name, "ab", buffering=0) as file:
            for size in (1 << 20, 1 << 14, 1 << 10):
                while wrote(file, size):
                    pass

    def go(self):
        """The file goes."""
        self.goes.set()
        if self.thread:
            self.thread.join()
            self.thread = None
            os.remove(self.name)


def wrote(file, size):
    """Whether something could be written."""
    try:
        return file.write(bytes(size)) > 0
    except OSError as fault:
        if fault.errno not in (errno.ENOSPC, errno.EDQUOT):
            raise
        return False
