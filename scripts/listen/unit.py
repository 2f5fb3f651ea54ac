"""Runs the command of site/docs_server.service as systemd would, apart from systemd: a SIGTERM to its shell ends the program in order, with
what was sent answered and status 0; another start has the edits; a fault of the program is the shell's status. Where systemd-analyze
is there, the unit is checked by it too.

    python3 scripts/listen/unit.py PROGRAM

Builds nothing. Needs python3. Some seconds.
"""
import os, re, shutil, subprocess, sys
sys.path.insert(1, os.path.dirname(__file__) + "/../lib")
from scene import OWNER, Client, Scene, free_port, listens, page_of, put, start, until

scene = Scene(seconds=120, at_top=True)
UNIT = "site/docs_server.service"


def command_at(port):
    """The unit's command, with another port."""
    with open(UNIT) as unit:
        command = re.search(r"(?ms)^ExecStart=/bin/sh -c '(.*?)'$", unit.read())[1].replace("\\\n", " ").replace("$$", "$")
    scene.check("the address stands in the unit", "127.0.0.1:8080" in command)
    return command.replace("127.0.0.1:8080", f"127.0.0.1:{port}")


class Unit:
    """The command, with a folder for its run as systemd makes it."""

    def __init__(self, command):
        scratch = scene.scratch
        shutil.rmtree(f"{scratch}/run", ignore_errors=True)
        os.mkdir(f"{scratch}/run")
        words = {"RUNTIME_DIRECTORY": f"{scratch}/run", "STATE_DIRECTORY": f"{scratch}/state", "PATH": f"{scratch}/bin:/usr/bin:/bin"}
        self.shell = start(["/bin/sh", "-c", command], cwd=f"{scratch}/site", env=words, stdout=subprocess.DEVNULL,
                           stderr=subprocess.PIPE, start_new_session=True)

    def server(self):
        """The program's number, once its shell has started it."""
        with open(f"/proc/{self.shell.pid}/task/{self.shell.pid}/children") as children:
            found = children.read().split()
        return int(found[0]) if found else None

    def ends(self, seconds):
        """The status of the shell, and what was printed."""
        try:
            said = self.shell.communicate(timeout=seconds)[1].decode()
        except subprocess.TimeoutExpired:
            os.killpg(self.shell.pid, 9)
            return None, "it went on"
        return self.shell.returncode, said


def ended_in_order(command, port):
    unit = Unit(command)
    scene.check("it listens", until(lambda: listens(port), 20))
    client = Client(port, "tok")
    scene.check("a PUT", client.ask("/page/a.md", "PUT", b"Kept.")[0] == 201)
    scene.check("the shell's program is the server", until(unit.server, 5))
    unit.shell.terminate()
    found = unit.ends(10)
    scene.check("SIGTERM to the shell ends it in order", found == (0, f"docs_server: new journal {scene.scratch}/state/journal\n"), found)


def killed(command, port):
    unit = Unit(command)
    scene.check("it listens again", until(lambda: listens(port), 20))
    scene.check("the edit is there", Client(port, "tok").ask("/page/a.md")[2] == page_of("a.md", "Kept."))
    os.kill(unit.server(), 9)
    status, _ = unit.ends(10)
    scene.check("a kill of the program is a failure of the unit", status == 137, status)


def reloaded(command, port):
    """The unit's reload: other readers are taken, and a bad configuration is refused before the server is asked."""
    unit, site = Unit(command), f"{scene.scratch}/site/site.toml"
    scene.check("it listens once more", until(lambda: listens(port), 20))
    with open(UNIT) as file:
        asks = re.search(r"(?m)^ExecReload=(.*)$", file.read())[1].replace("$$", "$")
    words = {"RUNTIME_DIRECTORY": f"{scene.scratch}/run", "PATH": f"{scene.scratch}/bin:/usr/bin:/bin"}

    def reload():
        return subprocess.run(asks, shell=True, cwd=f"{scene.scratch}/site", env=words, stdout=subprocess.DEVNULL).returncode == 0

    put(site, OWNER + OWNER.replace('"tok"', '"tak"'))
    scene.check("a reload", reload() and until(lambda: Client(port, "tak").ask("/page/a.md")[0] == 200, 10))
    put(site, OWNER + "[[reader]]\n")
    scene.check("a bad configuration", not reload() and Client(port, "tak").ask("/page/a.md")[0] == 200)
    put(site, OWNER)
    unit.shell.terminate()
    found = unit.ends(10)
    scene.check("what was told", found == (0, "reload: 2 readers, 0 pages put, 0 removed (record 1)\n"), found)


def damaged(command):
    put(f"{scene.scratch}/state/journal", "no journal")
    found = Unit(command).ends(10)
    scene.check("a damaged journal is a failure of the unit", found == (2, "docs_server: no journal\n"), found)


def verified():
    """What systemd says of the unit, where it is there."""
    if not shutil.which("systemd-analyze"):
        return print("systemd-analyze isn't there: the unit's other lines are not checked")
    copy = f"{scene.scratch}/docs_server.service"
    shutil.copyfile(UNIT, copy)
    checked = subprocess.run(["systemd-analyze", "verify", copy], capture_output=True, text=True, timeout=60)
    return scene.check("systemd-analyze", checked.returncode == 0 and "docs_server.service:" not in checked.stderr, checked.stderr)


def main():
    port = free_port()
    command = command_at(port)
    for name in ("bin", "state"):
        os.mkdir(f"{scene.scratch}/{name}")
    os.symlink(scene.program, f"{scene.scratch}/bin/docs_server")
    put(f"{scene.scratch}/site/site.toml", OWNER)
    ended_in_order(command, port)
    killed(command, port)
    reloaded(command, port)
    damaged(command)
    verified()


scene.run(main)
