"""What ends `listen`, and what doesn't: its standard input as a pipe (closed at once, closed later, written to), as a file, /dev/null, a
terminal or a socket, also one that hangs up, or closed; signals; peers that are silent, a server that is stopped for a while, and one
without memory; standard output that takes nothing; fewer files than connections. Each time a client asks beside it, and a program that
goes on is ended in the end.

    python3 scripts/listen/ends.py PROGRAM

Builds nothing. Needs python3. Some seconds.
"""
import os, pty, resource, signal, socket, subprocess, sys, time
sys.path.insert(1, os.path.dirname(__file__) + "/../lib")
from scene import HOST, OWNER, Client, Scene, free_port, page_of, put, start, until

scene = Scene(seconds=120)
SITE = OWNER + '[[page]]\npath = "a.md"\ntext = "Hello"\n'


class Started:
    """The program with this standard input, whether it listens or not."""

    def __init__(self, stdin, stdout=subprocess.DEVNULL, before=None):
        self.port = free_port()
        self.process = start([scene.program, "listen", "site.toml", f"{HOST}:{self.port}"], stdin=stdin, stdout=stdout,
                             stderr=subprocess.PIPE, preexec_fn=before)

    def answers(self):
        """Whether a client is answered."""
        try:
            client = Client(self.port, "tok", timeout=5)
            reply = client.ask("/page/a.md")
            client.close()
            return reply[2] == page_of("a.md", "Hello")
        except OSError:
            return False

    def ended(self, seconds=3):
        """The status that it ended with by itself, and what it printed."""
        try:
            return self.process.wait(timeout=seconds), self.process.stderr.read().decode()
        except subprocess.TimeoutExpired:
            self.process.kill()
            return "it went on", self.process.communicate()[1].decode()


def goes_on(name, started, ends=None, said=""):
    """It answers, also a while later; then it is killed, or ended by a call."""
    scene.check(f"{name}: it answers", until(started.answers, 10))
    time.sleep(0.7)
    scene.check(f"{name}: it goes on", started.answers() and started.process.poll() is None, started.process.poll())
    if ends:
        ends()
        found = started.ended()
        scene.check(f"{name}: it ends", found == (0, said), found)
    else:
        started.process.kill()
        started.process.communicate()


def pipes():
    """Standard input as a pipe: closed later, written to, and closed at first."""
    for name, sent in (("a pipe", 0), ("a pipe that is written to", 100)):
        back, front = os.pipe()
        started = Started(back)
        os.close(back)
        os.write(front, b"quit\n" * sent)
        goes_on(name, started, lambda: os.close(front), "unknown line\n" * sent)
    back, front = os.pipe()
    os.close(front)
    started = Started(back)
    os.close(back)
    scene.check("a pipe that is closed at first", (found := started.ended()) == (0, ""), found)


def other_inputs():
    goes_on("/dev/null", Started(subprocess.DEVNULL))
    with open("site.toml") as file:
        goes_on("a file", Started(file))
    _, its_end = pty.openpty()
    goes_on("a terminal", Started(its_end))
    for name, (ours, its_end) in (("a terminal", pty.openpty()), ("a socket", [end.detach() for end in socket.socketpair()])):
        started = Started(its_end)
        os.close(its_end)
        scene.check(f"{name} that hangs up: it answers", until(started.answers, 10))
        os.close(ours)
        goes_on(f"{name} that has hung up", started)
    goes_on("closed", Started(None, before=lambda: os.close(0)))
    started = Started(None, None, before=lambda: [os.close(number) for number in (0, 1, 2)])
    scene.check("all three closed: there is nowhere to tell the address", (found := started.ended()) == (2, ""), found)


def signals():
    for number, status in ((signal.SIGTERM, -15), (signal.SIGINT, -2), (signal.SIGHUP, -1)):
        started = Started(subprocess.DEVNULL)
        scene.check(f"{number.name}: it answers", until(started.answers, 10))
        started.process.send_signal(number)
        scene.check(f"{number.name} ends it at once", (found := started.ended()) == (status, ""), found)
    started = Started(subprocess.DEVNULL)
    scene.check("SIGSTOP: it answers", until(started.answers, 10))
    started.process.send_signal(signal.SIGSTOP)
    time.sleep(0.7)
    started.process.send_signal(signal.SIGCONT)
    goes_on("SIGCONT", started)


def silence():
    """A silent peer is let go after `idle_seconds`, and not behind a while in which the server doesn't run."""
    put("idle.toml", "[listen]\nidle_seconds = 1\n" + SITE)
    server = scene.listen("idle.toml")
    client = Client(server.port, "tok")
    scene.check("one who asks is answered", client.ask("/page/a.md")[0] == 200)
    asked = time.monotonic()
    scene.check("one who is silent", client.socket.recv(1) == b"")
    took = time.monotonic() - asked
    scene.check("is let go after a second", 0.9 < took < 2, took)
    client = Client(server.port, "tok")
    client.ask("/page/a.md")
    server.process.send_signal(signal.SIGSTOP)
    time.sleep(3)
    server.process.send_signal(signal.SIGCONT)
    time.sleep(0.1)
    scene.check("a long stop silences nobody", client.ask("/page/a.md")[0] == 200)
    scene.ends(server, "silence")


def starved():
    """One for whose reply there is no memory: the server goes on without spinning, and answers once there is some, or lets it go."""
    put("large.toml", "[listen]\nidle_seconds = 2\n" + SITE + "".join(
        f'[[page]]\npath = "{number:04}{"x" * 150}.md"\ntext = "# {"h" * 300}"\n' for number in range(4_000)))
    for name, more in (("for a second", True), ("for long", False)):
        server = scene.listen("large.toml")
        Client(server.port, "tok").ask("/page/a.md")
        with open(f"/proc/{server.pid}/status") as lines:
            size = next(int(line.split()[1]) * 1024 for line in lines if line.startswith("VmSize:"))
        resource.prlimit(server.pid, resource.RLIMIT_AS, (size + 200_000, resource.RLIM_INFINITY))
        client, before, asked = Client(server.port, "tok"), sum(server.used()), time.monotonic()
        client.send("/contents")
        time.sleep(1)
        scene.check(f"no memory {name}: others are answered", Client(server.port, "tok").ask("/page/a.md")[0] == 200)
        scene.check(f"no memory {name}: it doesn't spin", (took := sum(server.used()) - before) < 500_000, took)
        if more:
            resource.prlimit(server.pid, resource.RLIMIT_AS, (resource.RLIM_INFINITY, resource.RLIM_INFINITY))
        try:
            found = client.reply()[0]
        except OSError:
            found = None
        took = time.monotonic() - asked
        scene.check(f"no memory {name}: it is answered or let go", found == 200 and took < 2 if more else found is None and 1.9 < took < 4,
                    f"{found} after {took}")
        scene.ends(server, f"no memory {name}")


def full_output():
    with open("/dev/full", "w") as full:
        found = Started(subprocess.DEVNULL, full).ended()
    scene.check("an output that is full", found == (2, "docs_server: cannot write\n"), found)


def is_served(client):
    return client.reply()[2] == page_of("a.md", "Hello")


def few_files():
    """30 files, and 40 clients at once."""
    started = Started(subprocess.DEVNULL, before=lambda: resource.setrlimit(resource.RLIMIT_NOFILE, (30, 30)))
    scene.check("30 files: it answers", until(started.answers, 10))
    clients = [Client(started.port, "tok", timeout=1) for _ in range(40)]
    served = []
    for client in clients:
        client.send("/page/a.md")
    for client in clients:
        try:
            served.append(is_served(client))
        except OSError:
            break
    scene.check("30 files: as many as there are files for are served", 15 < len(served) < 30 and all(served), len(served))
    for client in clients[:len(served)]:
        client.close()
    late = clients[len(served):]
    for client in late:
        client.socket.settimeout(5)
    scene.check("30 files: the others are, once these have gone", all(map(is_served, late)))
    started.process.kill()
    started.process.communicate()


def main():
    put("site.toml", "[listen]\nconnections = 100\n" + SITE)
    pipes()
    other_inputs()
    signals()
    silence()
    starved()
    full_output()
    few_files()


scene.run(main)
