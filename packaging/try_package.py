"""Tries the Debian package of the program, as packaging/make_package.py makes it of PROGRAM:

- made twice, elsewhere and with other settings, it has the same bytes; its files, their rights, sums and texts; no token that anybody
  knows stands in it; its manual page, its scripts, and what lintian and systemd-analyze say;
- installed in a Debian system without a service manager, and in one that systemd has booted: its files, user, token and journal;
- started there, it shows a page for the token, and nothing without it; what the service may do; edits are kept over a stop, a kill, an
  upgrade, a compaction, a removal and an installation anew, and are gone behind a purge; another address and the log by a drop-in;
  settings that were changed here stay, and dpkg asks where a package has others;
- a bad configuration and a lost journal are failures of the unit.

    [ROOT=FOLDER] python3 packaging/try_package.py PROGRAM

FOLDER is a Debian system with systemd, dbus and sse4.2-support in a folder, which isn't changed; by itself debootstrap makes one, which
takes a minute and a network. Builds nothing. Needs root, python3, binutils, and what it has installed where it lacks: curl, man, groff,
mandoc, shellcheck, lintian, debootstrap. Three minutes more.
"""
import glob, hashlib, os, re, resource, stat, subprocess, sys
HERE = os.path.dirname(os.path.abspath(__file__))
sys.path.insert(1, os.path.dirname(HERE) + "/scripts/lib")
from scene import TOP, Scene, got, put, start, until

scene = Scene(seconds=600, at_top=True, needs=["curl", "man=man-db", "groff", "mandoc", "shellcheck", "lintian", "debootstrap"])
INCLUDED = "systemd,systemd-sysv,dbus,sse4.2-support"
READERS, SITE, JOURNAL = "/etc/docs-server/readers.toml", "/etc/docs-server/site.toml", "/var/lib/docs-server/journal"
KNOWN = ("tok-owner", "tok-ann", "tok-bob", "tok-ben", "tok")
RUNS = ("usr/bin/docs_server", *(f"usr/libexec/docs-server/{it}" for it in ("join", "listen", "reload")))
PLAIN = {"PATH": "/usr/sbin:/usr/bin:/sbin:/bin", "LC_ALL": "C", "DEBIAN_FRONTEND": "noninteractive"}
TOKEN = re.compile(r'(?m)^token = "([0-9a-f]{48})"$')


def run(*words, seconds=120, **given):
    usual = {"stdin": subprocess.DEVNULL, "capture_output": True, "text": True, "errors": "replace", "timeout": seconds}
    return subprocess.run(words, **{**usual, **given})


def quiet(name, *words, **given):
    """A case: a command says nothing of its own, and ends well."""
    done = run(*words, **given)
    scene.check(name, done.returncode == 0 and not (done.stdout + done.stderr).strip(), (done.stdout + done.stderr)[-2000:])


# ---- the package, as a file

def made(folder, version, **settings):
    """The package, made in a folder, and its name."""
    os.makedirs(folder, exist_ok=True)
    words = (sys.executable, f"{HERE}/make_package.py", scene.program, folder, *([version] if version else []))
    done = run(*words, cwd=folder, env={**os.environ, **settings}, umask=0o027 if settings else 0o022)
    return done.stdout.strip() if done.returncode == 0 else f"none: {done.stderr}"


def check_made():
    """The package of a version, the next one, and that they depend on nothing but what they are made of."""
    first = made(f"{scene.scratch}/first", "0.1-1")
    again = made(f"{scene.scratch}/again", "0.1-1", TZ="Asia/Tokyo", LC_ALL="C.UTF-8", PYTHONHASHSEED="7")
    scene.check("the package is made", os.path.isfile(first), first)
    scene.check("twice the same bytes", got(first) == got(again))
    named = made(f"{scene.scratch}/named", None)
    if run("git", "status", "--porcelain", "--untracked-files=no").stdout:
        scene.check("no version by itself where files have been changed", named.startswith("none: make_package: commit first"), named)
    else:
        scene.check("a version by itself", re.search(r"/docs-server_[\d.]+\+git\d{12}\.[0-9a-f]{8}-\d+_amd64\.deb$", named), named)
    return first, made(f"{scene.scratch}/second", "0.2-1")


def unpacked(package):
    """What stands in the package: a folder with it."""
    folder = f"{scene.scratch}/unpacked"
    scene.check("it is unpacked", run("dpkg-deb", "--raw-extract", package, folder).returncode == 0)
    return folder


def check_files(package, folder):
    listed = run("dpkg-deb", "--contents", package).stdout.splitlines()
    owners = {tuple(line.split()[1:2]) for line in listed}
    scene.check("all belongs to root", owners == {("root/root",)}, owners)
    times = {tuple(line.split()[3:5]) for line in listed}
    scene.check("all of one time", len(times) == 1, times)
    paths = [os.path.relpath(path, folder) for path in glob.glob(f"{folder}/**", recursive=True)]
    files = [path for path in paths if os.path.isfile(f"{folder}/{path}") and not path.startswith("DEBIAN")]
    for path in paths:
        runs = os.path.isdir(f"{folder}/{path}") or path in RUNS or path in ("DEBIAN/postinst", "DEBIAN/prerm", "DEBIAN/postrm")
        scene.check(f"rights of {path}", stat.S_IMODE(os.stat(f"{folder}/{path}").st_mode) == (0o755 if runs else 0o644))
    scene.check("the program is as it was given", got(f"{folder}/{RUNS[0]}") == got(scene.program))
    wanted = {"etc/docs-server/site.toml", *RUNS, "usr/lib/systemd/system/docs-server.service", "usr/lib/sysusers.d/docs-server.conf",
              "usr/share/man/man1/docs_server.1.gz", "usr/share/lintian/overrides/docs-server"}
    others = {path for path in files if not path.startswith("usr/share/doc/docs-server/")}
    scene.check("its files", others == wanted, others ^ wanted)
    sums = dict(reversed(line.split("  ")) for line in got(f"{folder}/DEBIAN/md5sums").decode().splitlines())
    found = {path: hashlib.md5(got(f"{folder}/{path}")).hexdigest() for path in files if not path.startswith("etc/")}
    scene.check("its sums", sums == found)
    scene.check("its conffile", got(f"{folder}/DEBIAN/conffiles") == b"/etc/docs-server/site.toml\n")
    for path in files:
        if not path.endswith((".md", ".gz")) and path not in RUNS[:1]:
            scene.check(f"no token in {path}", not re.search(rb'(?m)^\s*token = "[^"]|tok-(owner|ann|bob|ben)', got(f"{folder}/{path}")))


def check_texts(package, folder):
    page = f"{folder}/usr/share/man/man1/docs_server.1.gz"
    unzipped = f"{scene.scratch}/docs_server.1"
    put(unzipped, run("zcat", page, text=False, errors=None).stdout)
    done = run("man", "--warnings", "-l", page, env={**os.environ, "MANWIDTH": "80", "LC_ALL": "C.UTF-8"})
    scene.check("man shows its page", done.returncode == 0 and not done.stderr and "DOCS_SERVER(1)" in done.stdout, done.stderr)
    quiet("groff", "groff", "-man", "-Tutf8", "-ww", "-z", unzipped)
    quiet("mandoc", "mandoc", "-Tlint", "-Wwarning", unzipped)
    scripts = [f"{folder}/DEBIAN/{name}" for name in ("postinst", "prerm", "postrm")] + [f"{folder}/{RUNS[1]}", f"{HERE}/boot.sh"]
    quiet("shellcheck", "shellcheck", *scripts)
    done = run("lintian", "--allow-root", "--fail-on", "error,warning", "--pedantic", "--display-info", package)
    scene.check("lintian", done.returncode == 0 and not re.search("(?m)^[EW]:", done.stdout), done.stdout)
    print("lintian's lesser words:", *(re.findall(r"(?m)^[IP]: docs-server: (\S+)", done.stdout) or ["none"]), flush=True)


def check_commands(folder):
    """The program knows each command of the page's synopsis: it misses the file that is named, or ends well."""
    wide = {**os.environ, "MANWIDTH": "200", "LC_ALL": "C.UTF-8"}
    page = run("man", "-l", f"{folder}/usr/share/man/man1/docs_server.1.gz", env=wide).stdout
    commands = re.findall(r"(?m)^ +docs_server (.*)$", page[page.index("SYNOPSIS"):page.index("DESCRIPTION")])
    scene.check("the page has commands", len(commands) > 2, commands)
    given = {"CONFIG": "none", "FILE": "none", "ADDR": "127.0.0.1:0", "TOKEN": "none", "COUNT": "1", "TURNS": "1"}
    for command in commands:
        words = [given.get(word, word) for word in re.sub(r"[][]", "", command).split()]
        done = run(scene.program, *words, cwd=scene.scratch)
        is_known = done.returncode == 0 or done.stderr == "docs_server: cannot read none\n"
        scene.check(f"a command of the page: {command}", is_known, done.stderr)


def check_example(folder):
    """The example site shows its public pages to guests, and opens to no token that this repository has."""
    site = f"{folder}/usr/share/doc/docs-server/example"
    os.chdir(site)
    server = scene.listen("site.toml")
    base = f"http://127.0.0.1:{server.port}"
    scene.check("example: a guest's page", asked(f"{base}/", "-L", "-H", "Accept: text/html")[0] == 200)
    scene.check("example: a picture", asked(f"{base}/page/office/rooms.svg")[0] == 200)
    hidden = [asked(f"{base}/page/{path}") for path in ("ops/database.md", "never.md")]
    scene.check("example: a hidden page", hidden[0] == hidden[1] and hidden[0][0] == 404, hidden)
    scene.check("example: known tokens", {asked(f"{base}/page/index.md", "-u", f"x:{token}")[0] for token in KNOWN} == {401})
    os.chdir(TOP)
    scene.ends(server, "example")


def asked(address, *words, inside=()):
    """A request by curl: the code, and the body."""
    done = run(*inside, "curl", "-s", "--max-time", "10", "-w", "\n%{http_code}", *words, address)
    body, _, code = done.stdout.rpartition("\n")
    return int(code or 0), body


# ---- a Debian system

def root_made():
    """A Debian system in a folder: the one that is named, or a new one."""
    if os.environ.get("ROOT"):
        return os.path.realpath(os.environ["ROOT"])
    folder = f"{scene.scratch}/debian"
    done = run("debootstrap", "--variant=minbase", f"--include={INCLUDED}", "bookworm", folder, seconds=400)
    return folder if scene.check("debootstrap makes a system", done.returncode == 0, done.stdout[-1000:]) else None


def check_chroot(root, package):
    """Installed where no service manager runs, as in an image that is built: twice, which gives two tokens and two journals."""
    found = []
    for number in range(2):
        room = f"{scene.scratch}/image{number}"
        for name in ("upper", "work", "root"):
            os.makedirs(f"{room}/{name}")
        command = (f"mount -t overlay overlay -o lowerdir={root},upperdir={room}/upper,workdir={room}/work {room}/root && "
                   f"mount -t proc proc {room}/root/proc && mount --bind /dev {room}/root/dev && cp {package} {room}/root/p.deb && "
                   f"chroot {room}/root dpkg --install /p.deb")
        done = run("unshare", "--mount", "--net", "sh", "-c", command, env=PLAIN)
        scene.check("installed without a service manager", done.returncode == 0, done.stdout + done.stderr)
        scene.check("no token is printed", not re.search("[0-9a-f]{32}", done.stdout + done.stderr), done.stderr)
        readers = f"{room}/upper{READERS}"
        found.append((TOKEN.findall(got(readers).decode()), got(f"{room}/upper{JOURNAL}")[:512]) if os.path.exists(readers) else ([], b""))
    scene.check("each has a token", all(len(tokens) == 1 for tokens, _ in found), found)
    scene.check("and another one, and another journal", found[0][0] != found[1][0] and found[0][1] != found[1][1])


class Machine:
    """A booted Debian system, and what is done in it."""

    def __init__(self, root):
        mounted = re.findall(r"(?m)^\S+ (\S+) cgroup2 ", got("/proc/self/mounts").decode())
        self.group = f"{mounted[0]}/docs-server-{os.getpid()}"
        os.mkdir(self.group)
        words = ["unshare", "--mount", "--pid", "--fork", "--kill-child", "--uts", "--ipc", "--net", "--cgroup",
                 f"{HERE}/boot.sh", root, f"{scene.scratch}/machine"]
        self.process = start(words, stdout=subprocess.DEVNULL, stderr=subprocess.DEVNULL, preexec_fn=self.enter)
        self.port = 8080
        self.inside = None

    def enter(self):
        with open(f"{self.group}/cgroup.procs", "w") as file:
            file.write("0")

    def boots(self):
        """Whether it runs in the end."""
        def is_up():
            with open(f"/proc/{self.process.pid}/task/{self.process.pid}/children") as children:
                found = children.read().split()
            self.inside = ["nsenter", "-t", found[0]] if found else None
            return found and self.sh("systemctl is-system-running").stdout.strip() in ("running", "degraded")
        return until(is_up, 60, 0.3)

    def sh(self, command):
        """A shell's line, by its root."""
        return run(*self.inside, "-a", "sh", "-c", command, env=PLAIN)

    def says(self, name, command, wanted=None):
        """A case: a line goes well, and prints what is wanted, where something is."""
        done = self.sh(command)
        is_right = done.returncode == 0 and (wanted is None or done.stdout.strip() == wanted)
        return scene.check(name, is_right, f"{command}: {done.returncode} {done.stdout[-500:]}{done.stderr[-1500:]}")

    def fails(self, name, command, said=""):
        done = self.sh(command)
        told = done.stdout + done.stderr
        return scene.check(name, done.returncode != 0 and said in told, f"{done.returncode} {told}")

    def has(self, path):
        return self.sh(f"cat {path}").stdout

    def puts(self, path, content):
        self.sh(f"mkdir -p {os.path.dirname(path)}")
        given = {"stdin": None, "input": content, "text": False, "errors": None, "env": PLAIN}
        run(*self.inside, "-a", "sh", "-c", f"cat > {path}", **given)

    def takes(self, package, name):
        """A package of this machine, under a name of its root's."""
        self.puts(f"/root/{name}", got(package))

    def asked(self, target, *words):
        return asked(f"http://127.0.0.1:{self.port}{target}", *words, inside=(*self.inside, "-n"))

    def listens(self):
        return until(lambda: self.asked("/")[0], 10, 0.05)

    def shows(self, name):
        return self.sh(f"systemctl show docs-server -P {name}").stdout.strip()

    def ends(self):
        self.process.kill()
        self.process.wait()
        until(self.is_gone, 10, 0.1)

    def is_gone(self):
        """Whether its group of processes could be removed, which goes once they have ended."""
        try:
            for folder, _, _ in os.walk(self.group, topdown=False):
                os.rmdir(folder)
        except OSError:
            return False
        return True


# ---- what is done in it

def check_installed(machine, package):
    """The first installation: what is there, and whose it is."""
    machine.takes(package, "first.deb")
    machine.says("apt installs it", "apt-get install --yes /root/first.deb")
    told = machine.sh(f"stat -c '%U:%G %a %n' /etc/docs-server {SITE} {READERS} /var/lib/docs-server {JOURNAL}").stdout.splitlines()
    wanted = ["root:root 755 /etc/docs-server", f"root:root 644 {SITE}", f"root:docs-server 640 {READERS}",
              "docs-server:docs-server 700 /var/lib/docs-server", f"docs-server:docs-server 600 {JOURNAL}"]
    scene.check("its files", told == wanted, told)
    user = re.search(r"(?m)^docs-server:[^:]*:\d+:\d+:docs_server:/nonexistent:/usr/sbin/nologin$", machine.has("/etc/passwd"))
    scene.check("its user", user)
    other = "setpriv --reuid=nobody --regid=nogroup --clear-groups"
    machine.fails("others can't read the readers", f"{other} cat {READERS}", "Permission denied")
    scene.check("it is neither started nor enabled", machine.sh("systemctl is-active docs-server").stdout == "inactive\n"
                and machine.sh("systemctl is-enabled docs-server").stdout == "disabled\n")
    tokens = TOKEN.findall(machine.has(READERS))
    scene.check("a token", len(tokens) == 1, tokens)
    logs = machine.sh("cat /var/log/apt/* /var/log/dpkg.log; journalctl --no-pager").stdout
    scene.check("no log has it", tokens and tokens[0] not in logs and "docs-server" in logs)
    checked = machine.sh("systemd-analyze verify --man=no docs-server.service")
    scene.check("systemd-analyze verify", checked.returncode == 0 and not checked.stderr.strip(), checked.stderr)
    print("systemd-analyze security:", machine.sh("systemd-analyze security --no-pager docs-server | tail -1").stdout.strip(), flush=True)
    return tokens[0] if tokens else "none"


def check_started(machine, token):
    machine.says("it starts", "systemctl start docs-server")
    scene.check("it listens", machine.listens())
    login, page = ("-u", f"x:{token}"), "/page/index.md"
    found = machine.asked(page, "-H", f"Authorization: Bearer {token}")
    scene.check("the token's page", found[0] == 200 and '<h1 id="handbook">' in found[1], found)
    scene.check("a browser's page", machine.asked("/", *login, "-L", "-H", "Accept: text/html")[0] == 200)
    scene.check("nothing without it", {machine.asked(page)[0], *(machine.asked(page, "-u", f"x:{it}")[0] for it in KNOWN)} == {401})
    program = machine.sh("pgrep -x docs_server").stdout.strip() or machine.sh(
        "cat /proc/$(systemctl show docs-server -P MainPID)/task/*/children").stdout.strip()
    status = dict(re.findall(r"(?m)^(\w+):\s+(.*)$", machine.has(f"/proc/{program}/status")))
    user = machine.sh("id -u docs-server").stdout.strip()
    found = status.get("Uid", "").split(), status.get("CapEff"), status.get("CapBnd"), status.get("NoNewPrivs"), status.get("Seccomp")
    scene.check("what the program may do", found == ([user] * 4, "0" * 16, "0" * 16, "1", "2"), found)
    scene.check("no token stands in its command", token not in machine.has(f"/proc/{program}/cmdline"))
    # without a right of its own systemd sets no more than what this machine gives
    most = min(65536, resource.getrlimit(resource.RLIMIT_NOFILE)[1])
    scene.check("the limit of files", re.search(rf"(?m)^Max open files +{most} ", machine.has(f"/proc/{program}/limits")))
    machine.sh("mkdir -p /home/docs; touch /tmp/docs")
    machine.says("it sees nothing of /home and /tmp", f"nsenter -t {program} -m ls -A /home /tmp", "/home:\n\n/tmp:")
    machine.fails("it writes nothing in /etc", f"nsenter -t {program} -m touch /etc/docs-server/new", "Read-only file system")
    joined = "/run/docs-server /run/docs-server/site.toml"
    machine.says("its joined configuration", f"stat -c '%U %a' {joined}", "docs-server 700\ndocs-server 600")
    scene.check("an edit", machine.asked("/page/kept.md", *login, "-X", "PUT", "-d", "Kept.")[0] == 201)


def kept(machine, token, name):
    """A case: it listens, for the token, and has the edit."""
    found = machine.listens() and machine.asked("/page/kept.md", "-u", f"x:{token}")
    scene.check(f"the edit, {name}", found and found[0] == 200 and "<p>Kept.</p>" in found[1], found)


def check_runs(machine, token):
    """A stop in order, a kill, and a drop-in."""
    machine.says("it stops", "systemctl stop docs-server")
    scene.check("in order", (machine.shows("Result"), machine.shows("ExecMainStatus")) == ("success", "0"))
    machine.says("it starts again", "systemctl start docs-server")
    kept(machine, token, "after a stop")
    before = machine.shows("NRestarts")
    machine.sh("kill -9 $(cat /proc/$(systemctl show docs-server -P MainPID)/task/*/children)")
    scene.check("a kill is followed by a start", until(lambda: machine.shows("NRestarts") != before and machine.asked("/")[0], 15, 0.1))
    kept(machine, token, "after a kill")
    machine.puts("/srv/docs/start.md", b"# Start\n")
    machine.sh(f"printf '[[folder]]\\npath = \"/srv/docs\"\\ngroups = [\"staff\"]\\n' >> {SITE}")
    machine.says("a folder", "systemctl restart docs-server")
    found = machine.listens() and machine.asked("/page/start.md", "-u", f"x:{token}")
    scene.check("a folder's page", found and found[0] == 200 and '<h1 id="start">' in found[1], found)
    machine.puts("/etc/systemd/system/docs-server.service.d/override.conf",
                 b"[Service]\nEnvironment=ADDRESS=127.0.0.1:8081\nEnvironment=OPTIONS=--log\n")
    machine.says("a drop-in", "systemctl daemon-reload && systemctl restart docs-server")
    machine.port = 8081
    kept(machine, token, "at another address")
    machine.sh("sleep 0.2; journalctl --flush")
    told = machine.sh("journalctl -u docs-server --no-pager").stdout
    scene.check("and the log", re.search(r"docs_server\[\d+\]: \d+ GET /page/kept\.md 200 ", told))
    machine.sh("rm -r /etc/systemd/system/docs-server.service.d")
    machine.says("without it", "systemctl daemon-reload && systemctl restart docs-server")
    machine.port = 8080
    kept(machine, token, "at the first address")


def check_upgraded(machine, token, package):
    machine.takes(package, "second.deb")
    machine.sh(f"echo '# changed here' >> {SITE}")
    before = machine.shows("MainPID"), machine.has(READERS)
    machine.says("an upgrade", "apt-get install --yes /root/second.deb")
    scene.check("it runs, and anew", machine.shows("MainPID") not in (before[0], "0"))
    scene.check("the readers are as they were", machine.has(READERS) == before[1])
    scene.check("a change of the settings stays", machine.has(SITE).endswith("# changed here\n"))
    machine.says("the version", "dpkg-query -W -f '${Version}' docs-server", "0.2-1")
    kept(machine, token, "after an upgrade")


def check_asked(machine, token, folder):
    """A package with other settings, where these have been changed here too: dpkg asks, and what is here may stay."""
    control = got(f"{folder}/DEBIAN/control").decode()
    put(f"{folder}/DEBIAN/control", control.replace("Version: 0.1-1", "Version: 0.3-1"))
    put(f"{folder}{SITE}", got(f"{folder}{SITE}") + b"# changed there\n")
    package = f"{scene.scratch}/third.deb"
    scene.check("a package with other settings", run("dpkg-deb", "--root-owner-group", "--build", folder, package).returncode == 0)
    machine.takes(package, "third.deb")
    machine.fails("dpkg asks", "dpkg --install /root/third.deb < /dev/null", "conffile prompt")
    machine.says("what is here stays", "dpkg --force-confold --configure docs-server")
    found = machine.has(SITE).splitlines()[-1], machine.has(f"{SITE}.dpkg-dist").splitlines()[-1]
    scene.check("and the other one stands beside it", found == ("# changed here", "# changed there"), found)
    kept(machine, token, "after dpkg has asked")


def check_compacted(machine, token):
    """The lines of README.Debian that write the journal anew, as they stand there."""
    lines = re.search(r"(?m)^    systemctl stop docs-server\n(?:    .*\n)+", got(f"{HERE}/debian/README.Debian").decode())
    machine.says("a compaction", f"set -e\n{lines[0]}")
    kept(machine, token, "after a compaction")
    machine.says("folders tells", "cd /etc/docs-server && docs_server folders site.toml", "1 pages, 0 media, 0 bad")


def check_faults(machine, token):
    """A bad configuration, and a journal that is lost."""
    machine.sh(f"cp {SITE} /root/site.toml; echo '[broken' >> {SITE}; systemctl restart docs-server")
    scene.check("a bad configuration fails", until(lambda: machine.shows("ActiveState") == "failed", 30, 0.3))
    scene.check("and is told", "docs_server: config" in machine.sh("journalctl -u docs-server --no-pager").stdout)
    machine.says("the good one starts", f"cp /root/site.toml {SITE} && systemctl reset-failed docs-server && systemctl start docs-server")
    kept(machine, token, "after a bad configuration")
    machine.says("it stops", f"systemctl stop docs-server && mv {JOURNAL} /root/journal")
    machine.fails("no start without a journal", "systemctl start docs-server", "Assertion failed")
    machine.fails("and none is begun", f"test -e {JOURNAL}")
    lines = re.search(r"(?m)^    : \| runuser (?:.*\n)+?(?=\n|\Z)", got(f"{HERE}/debian/README.Debian").decode())
    machine.says("another one is begun by hand", f"{lines[0]} systemctl start docs-server")
    scene.check("it has no edit", machine.listens() and machine.asked("/page/kept.md", "-u", f"x:{token}")[0] == 404)
    machine.says("the old one is put back", f"systemctl stop docs-server && mv /root/journal {JOURNAL} && systemctl start docs-server")
    kept(machine, token, "after the journal was put back")


def check_removed(machine, token):
    """A removal, an installation anew, a purge, and an installation behind it."""
    before = machine.has(READERS)
    machine.says("it is enabled", "systemctl enable docs-server")
    machine.says("a removal", "apt-get remove --yes docs-server")
    scene.check("it is stopped", not machine.asked("/")[0])
    machine.fails("the program is gone", "test -e /usr/bin/docs_server -o -e /usr/libexec/docs-server")
    machine.says("settings, readers and journal stay", f"test -e {SITE} -a -e {READERS} -a -e {JOURNAL}")
    machine.says("an installation anew", "apt-get install --yes /root/third.deb && systemctl start docs-server")
    scene.check("the token is the same", machine.has(READERS) == before)
    kept(machine, token, "after a removal")
    machine.says("a purge", "apt-get purge --yes docs-server")
    machine.says("nothing is left", "find /etc /run /usr /var/lib -path '*docs-server*' ! -path '/var/lib/dpkg/*'", "")
    machine.says("nor of dpkg's own", "find /var/lib/dpkg/info -name 'docs-server*'", "")
    scene.check("but the user", "docs-server:" in machine.has("/etc/passwd"))
    machine.says("another installation", "apt-get install --yes /root/first.deb && systemctl start docs-server")
    found = TOKEN.findall(machine.has(READERS))
    scene.check("another token", len(found) == 1 and found[0] != token)
    scene.check("and no edit", machine.listens() and machine.asked("/page/kept.md", "-u", f"x:{found[0]}")[0] == 404)


def check_machine(root, first, second, folder):
    machine = Machine(root)
    try:
        if not scene.check("a Debian system boots", machine.boots()):
            return
        token = check_installed(machine, first)
        for part, *given in ((check_started,), (check_runs,), (check_upgraded, second), (check_asked, folder), (check_compacted,),
                             (check_faults,), (check_removed,)):
            # more starts in a minute than the unit has it
            machine.sh("systemctl reset-failed docs-server")
            part(machine, token, *given)
    finally:
        machine.ends()


def main():
    first, second = check_made()
    folder = unpacked(first)
    check_files(first, folder)
    check_texts(first, folder)
    check_commands(folder)
    check_example(folder)
    try:
        root = root_made()
        if root:
            check_chroot(root, first)
            check_machine(root, first, second, folder)
    finally:
        # it has so many files that what removes the scratch folder would be late
        run("rm", "-rf", "--one-file-system", f"{scene.scratch}/debian")


scene.run(main)
