"""What the scripts share that drive a program: a scratch folder, a limit of time, the server under `listen`, a client of its HTTP bytes,
and the tally of the cases. Loopback alone.

    scene = Scene(seconds=120, needs=["strace"])    how long it may take, and which programs of Debian it needs
    scene.run(main)                                 makes the cases, which call `scene.check`, tells their tally, and ends the script
"""
import os, re, resource, select, shutil, signal, socket, subprocess, sys, tempfile, time

HOST = "127.0.0.1"
TOP = os.path.dirname(os.path.dirname(os.path.dirname(os.path.abspath(__file__))))
# a configuration's one reader, who sees and writes all
OWNER = '[[reader]]\ntoken = "tok"\nowner = true\n'
STARTED = []
# the outside models, which some scripts import
sys.path.append(TOP + "/scripts/oracles")


# ---- a run of a script

class Scene:
    """One run of a script, whose words are PROGRAM and then numbers. While it runs the current folder is the scratch folder, or the
    repository's top. It is stopped with status 124 after so many seconds, and so many more for each of its first number. Its last line
    is `told`, where that isn't None."""

    def __init__(self, seconds, seconds_each=0, numbers=(), needs=(), at_top=False, told="{right} of {all} as expected"):
        self.limit, self.needs, self.at_top, self.told = (seconds, seconds_each), needs, at_top, told
        self.numbers, self.program, self.scratch = numbers, None, None
        self.right, self.wrong = 0, 0

    def run(self, cases):
        """Makes the cases, tells how many were right, and ends the script: with status 1 where one was wrong."""
        self.program, self.numbers = words_given(self.numbers)
        needs(*self.needs)
        # so they aren't ignored by what is started either, as they are by what nohup runs
        for number in (signal.SIGHUP, signal.SIGINT, signal.SIGTERM):
            signal.signal(number, lambda number, _: sys.exit(128 + number))
        signal.signal(signal.SIGALRM, lambda *_: sys.exit(124))
        signal.alarm(self.limit[0] + self.limit[1] * self.numbers[0] if self.numbers else self.limit[0])
        self.scratch = tempfile.mkdtemp()
        try:
            os.chdir(TOP if self.at_top else self.scratch)
            cases()
            if self.told:
                print(self.told.format(right=self.right, wrong=self.wrong, all=self.right + self.wrong), flush=True)
        finally:
            self.leave()
        sys.exit(1 if self.wrong else 0)

    def check(self, name, holds, detail=""):
        """A case, and whether it is as expected. The first ones that aren't are told."""
        if holds:
            self.right += 1
        else:
            self.wrong += 1
            if self.wrong <= 20:
                print(f"wrong: {name}" + (f": {detail}" if detail != "" else ""), flush=True)
        return holds

    def leave(self):
        """Ends what still runs, by all means, and removes the scratch folder."""
        signal.signal(signal.SIGALRM, signal.SIG_DFL)
        signal.alarm(10)
        for process in STARTED:
            if process.poll() is None:
                process.kill()
                process.wait()
        os.chdir("/")
        shutil.rmtree(self.scratch, ignore_errors=True)

    def listen(self, config, **given):
        return Server(self.program, config, **given)

    def ends(self, server, name):
        """A case: the server ends in order, and has printed nothing on standard error but that it began a journal, or kept what was torn."""
        status = server.end()
        said = re.sub(r"(?m)^docs_server: (new journal|record \d+ was torn;) .*\n", "", server.said())
        return self.check(f"{name}: the end", status == 0 and not said, f"{status} {said}")


def words_given(numbers):
    """The program that a script's first word names, and the numbers behind it; those that are left out are as given."""
    words = sys.argv[1:]
    if not 1 <= len(words) <= 1 + len(numbers):
        sys.exit("usage: " + re.search(r"(?m)^ +(python3 .*)$", sys.modules["__main__"].__doc__)[1])
    return os.path.realpath(words[0]), [*map(int, words[1:]), *numbers[len(words) - 1:]]


def needs(*commands):
    """Programs of Debian, each COMMAND or COMMAND=PACKAGE: one that lacks is installed, or ends the script with status 1."""
    os.environ["PATH"] += ":/usr/sbin"
    if commands and subprocess.run([TOP + "/scripts/gate/needs.sh", *commands]).returncode:
        sys.exit(1)


def allow_files(count):
    """So many files may be open at once, or the script ends."""
    try:
        resource.setrlimit(resource.RLIMIT_NOFILE, (count, count))
    except (OSError, ValueError):
        sys.exit(f"fewer than {count:,} files may be open")


# ---- files, ports, processes

def put(name, content):
    """Writes a file, and the folders above it where they aren't there."""
    os.makedirs(os.path.dirname(name) or ".", exist_ok=True)
    with open(name, "wb") as out:
        out.write(content if isinstance(content, bytes) else content.encode())


def got(name):
    with open(name, "rb") as file:
        return file.read()


def read_by_all(name):
    """A configuration's text without what `listen` alone reads, its pages for people and its folders, so that it answers every request as other commands do."""
    return re.sub(r"(?m)^\[(browse|\[folder\])\]\n(?:(?!\[).*\n)*", "", got(name).decode())


def free_port():
    with socket.socket() as probe:
        probe.bind((HOST, 0))
        return probe.getsockname()[1]


def listens(port):
    try:
        socket.create_connection((HOST, port), timeout=1).close()
        return True
    except OSError:
        return False


def until(holds, seconds, pause=0.02):
    """Whether something comes to hold within so many seconds."""
    end = time.monotonic() + seconds
    while not holds():
        if time.monotonic() > end:
            return False
        time.sleep(pause)
    return True


def start(words, **given):
    """A process, which is killed where the script ends before it does. Its standard input is empty where nothing else is said."""
    STARTED.append(subprocess.Popen(words, **{"stdin": subprocess.DEVNULL, **given}))
    return STARTED[-1]


def stop(process):
    """Ends a process by SIGTERM."""
    process.send_signal(signal.SIGTERM)
    process.wait(timeout=10)


def used(pid):
    """The processor time of a process so far, in its own code and in the kernel, in microseconds."""
    with open(f"/proc/{pid}/stat") as stat:
        fields = stat.read().rpartition(")")[2].split()
    tick = 1_000_000 / os.sysconf("SC_CLK_TCK")
    return int(fields[11]) * tick, int(fields[12]) * tick


# ---- the server

class Refused(Exception):
    """The program ended in place of listening: its status, and what it printed on standard error."""

    def __init__(self, status, said):
        super().__init__(f"status {status}, {said!r}")
        self.status, self.said = status, said


class Server:
    """`listen`, once it has told that it listens. Its standard input is a pipe, whose closing ends it."""

    def __init__(self, program, config, port=0, journal=None, options=(), before=(), wait=30):
        self.port = port or free_port()
        words = [*before, program, "listen", config, f"{HOST}:{self.port}"]
        words += ["--journal", journal] if journal else []
        self.error = tempfile.TemporaryFile()
        self.process = start([*words, *options], stdin=subprocess.PIPE, stdout=subprocess.PIPE, stderr=self.error)
        self.pid = self.process.pid
        line = self.process.stdout.readline() if select.select([self.process.stdout], [], [], wait)[0] else b""
        if line != f"listening {HOST}:{self.port}\n".encode():
            if line or self.process.poll() is None and not self.ends(5):
                self.kill()
                raise Refused(None, f"it told {line!r}")
            status = self.process.wait()
            self.close()
            raise Refused(status, self.said())

    def ends(self, seconds):
        """Whether the program ends by itself within so many seconds."""
        try:
            self.process.wait(timeout=seconds)
        except subprocess.TimeoutExpired:
            return False
        return True

    def said(self):
        # read in place: the program writes where this file stands, while it runs
        return os.pread(self.error.fileno(), os.fstat(self.error.fileno()).st_size, 0).decode(errors="replace")

    def close(self):
        for pipe in (self.process.stdin, self.process.stdout):
            try:
                pipe.close()
            except OSError:
                pass

    def end(self):
        """An orderly end: its standard input is closed. The status, or None where it hadn't ended after 10 seconds."""
        self.process.stdin.close()
        if not self.ends(10):
            self.kill()
            return None
        self.close()
        return self.process.returncode

    def kill(self, number=signal.SIGKILL):
        self.process.send_signal(number)
        self.process.wait()
        self.close()

    def resident(self):
        """Its resident size in kB."""
        with open(f"/proc/{self.pid}/status") as lines:
            return next(int(line.split()[1]) for line in lines if line.startswith("VmRSS:"))

    def used(self):
        return used(self.pid)


# ---- a client

def request(token, target, method="GET", body=b"", fields=""):
    """The bytes of a request."""
    length = f"Content-Length: {len(body)}\r\n" if body or method == "PUT" else ""
    return f"{method} {target} HTTP/1.1\r\nHost: docs\r\nAuthorization: Bearer {token}\r\n{fields}{length}\r\n".encode() + body


class Client:
    """A connection that is kept. A call raises OSError where the connection ends or says nothing for too long."""

    def __init__(self, port, token="", timeout=20):
        self.token, self.left = token, b""
        self.socket = socket.create_connection((HOST, port), timeout=timeout)
        self.socket.setsockopt(socket.IPPROTO_TCP, socket.TCP_NODELAY, 1)

    def send(self, target, method="GET", body=b"", fields=""):
        self.socket.sendall(request(self.token, target, method, body, fields))

    def reply(self, method="GET"):
        """The next reply, whole: its code, its head and its body."""
        while b"\r\n\r\n" not in self.left:
            self.more()
        head, _, self.left = self.left.partition(b"\r\n\r\n")
        code, length = int(head[9:12]), 0
        for field in head.split(b"\r\n")[1:]:
            name, _, value = field.partition(b":")
            if name.lower() == b"content-length" and method != "HEAD":
                length = int(value)
        while len(self.left) < length:
            self.more()
        body, self.left = self.left[:length], self.left[length:]
        return code, head, body

    def more(self):
        got = self.socket.recv(262_144)
        if not got:
            raise ConnectionError("the connection ended")
        self.left += got

    def ask(self, target, method="GET", body=b"", fields=""):
        self.send(target, method, body, fields)
        return self.reply(method)

    def close(self):
        self.socket.close()


def page_of(path, line):
    """The body of a page whose text is one line without marks."""
    return f"<!DOCTYPE html>\n<title>{path}</title>\n<p>{line}</p>\n".encode()
