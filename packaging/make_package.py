"""Makes the Debian package of the program: docs-server_VERSION_amd64.deb, in the current folder or in FOLDER.

    python3 packaging/make_package.py PROGRAM [FOLDER [VERSION]]

PROGRAM is what `rt ci` leaves at crates/docs_server/out/docs_server; it goes into the package byte for byte, with its symbols, so that it
can be compared with a build of one's own. VERSION is by itself that of packaging/debian/changelog with the time and the short hash of the
commit, for which nothing that git knows may have been changed.

By one python3 and dpkg-deb the same program and the same commit give the same bytes: each file has the commit's time, or
SOURCE_DATE_EPOCH where that is set. The maintainer is DEBFULLNAME and DEBEMAIL where these are set, else the commit's author. Builds
nothing else. Needs python3, git, dpkg-deb and readelf. A second.
"""
import datetime, email.utils, gzip, hashlib, os, re, subprocess, sys, tempfile

HERE = os.path.dirname(os.path.abspath(__file__))
TOP = os.path.dirname(HERE)
NAME = "docs-server"
DOCUMENTS = ("RUNNING.md", "SITE.md", "HTTP.md", "EDITING.md", "COMMONMARK.md", "PROMISES.md")
CONFFILES = ("etc/docs-server/site.toml",)
HEAD = """\
# The handbook of a small company, as a site to try docs_server with. Run it in this folder: the names of files are opened as they are
# written here. It has no reader. Who comes with a browser sees the pages of the group `public`; for readers of the groups `staff` and
# `ops`, and for an owner, add tables with tokens of your own (openssl rand -hex 24):
#
# [[reader]]
# token = ""
# groups = ["staff"]
"""


def said(*words, **given):
    return subprocess.run(words, check=True, capture_output=True, text=True, **given).stdout.strip()


def read(path):
    with open(path, encoding="utf-8") as file:
        return file.read()


def moment(seconds):
    return datetime.datetime.fromtimestamp(seconds, datetime.timezone.utc)


# ---- what the package is called, and what it was made of

class Origin:
    """The commit, the version that it gives, and the time that all files have."""

    def __init__(self, version):
        self.commit, seconds = said("git", "log", "-1", "--format=%H %ct", cwd=TOP).split()
        self.time = int(os.environ.get("SOURCE_DATE_EPOCH", seconds))
        base, revision = re.match(r"docs-server \(([^-)]+)-([^)]+)\) ", read(f"{HERE}/debian/changelog")).groups()
        made = moment(int(seconds)).strftime("%Y%m%d%H%M")
        if not version and said("git", "status", "--porcelain", "--untracked-files=no", cwd=TOP):
            sys.exit("make_package: commit first, or give a VERSION")
        self.version = version or f"{base}+git{made}.{self.commit[:8]}-{revision}"
        if not re.fullmatch(r"[0-9][0-9A-Za-z.+~]*-[0-9A-Za-z.+~]+", self.version):
            sys.exit(f"make_package: {self.version} is no version with a revision, as 0.1-1")
        name, mail = said("git", "log", "-1", "--format=%an%n%ae", cwd=TOP).split("\n")
        self.maintainer = f"{os.environ.get('DEBFULLNAME', name)} <{os.environ.get('DEBEMAIL', mail)}>"


def libc_of(program):
    """The least libc6 that the program is linked with. It needs no other library."""
    told = said("readelf", "-W", "--file-header", "--dynamic", "--version-info", program, env={**os.environ, "LC_ALL": "C"})
    needed = re.findall(r"\(NEEDED\).*\[(.*)\]", told)
    if "X86-64" not in told or needed != ["libc.so.6"]:
        sys.exit(f"make_package: {program} is no program of x86-64 that needs libc.so.6 alone: {needed}")
    numbers = [[int(part) for part in it.split(".")] for it in re.findall(r"Name: GLIBC_([\d.]+)", told)]
    return f"libc6 (>= {'.'.join(map(str, max(numbers)))})"


# ---- its files

def filled(text, words):
    """A template's text with the words between @ replaced."""
    return re.sub("@([A-Z]+)@", lambda found: words[found[1]], text)


def packed(text):
    return gzip.compress(text.encode(), 9, mtime=0)


def changelog(origin):
    """The changelog, whose first entry is of this version, maintainer and commit."""
    text, date = read(f"{HERE}/debian/changelog"), email.utils.format_datetime(moment(origin.time))
    text = re.sub(r"\(.*?\)", f"({origin.version})", text, count=1)
    text = text.replace("\n\n -- ", f"\n  * Made of commit {origin.commit}.\n\n -- ", 1)
    return filled(text, {"MAINTAINER": origin.maintainer, "DATE": date})


def example():
    """The configuration in site/, without its readers, whose tokens all know, and by names of files from the folder that it stands in."""
    text = re.sub(r"\A(#.*\n)+", HEAD, read(f"{TOP}/site/config.toml"))
    text = re.sub(r"(?m)^\[\[reader\]\]\n(?:\w.*\n)+\n?", "", text)
    text = re.sub(r'(?m)^(file|path) = "site/', r'\1 = "', text)
    if re.search(r'tok-|"site/', text):
        sys.exit("make_package: site/config.toml has another form")
    return text


def files_of(program, origin, words):
    """What the package has: the path of each file, with its bytes and whether it may be run."""
    documents, found = f"usr/share/doc/{NAME}", {}

    def put(path, content, runs=False):
        found[path] = (content if isinstance(content, bytes) else content.encode(), runs)

    with open(program, "rb") as file:
        put("usr/bin/docs_server", file.read(), True)
    for name in ("join", "listen", "reload"):
        put(f"usr/libexec/docs-server/{name}", read(f"{HERE}/{name}"), True)
    put(f"usr/lib/systemd/system/{NAME}.service", read(f"{HERE}/{NAME}.service"))
    put(f"usr/lib/sysusers.d/{NAME}.conf", read(f"{HERE}/{NAME}.sysusers"))
    put("etc/docs-server/site.toml", read(f"{HERE}/site.toml"))
    put("usr/share/man/man1/docs_server.1.gz", packed(filled(read(f"{HERE}/docs_server.1"), words)))
    put(f"usr/share/lintian/overrides/{NAME}", read(f"{HERE}/debian/lintian-overrides"))
    put(f"{documents}/copyright", read(f"{HERE}/debian/copyright"))
    put(f"{documents}/changelog.Debian.gz", packed(changelog(origin)))
    put(f"{documents}/README.Debian", read(f"{HERE}/debian/README.Debian"))
    for name in DOCUMENTS:
        put(f"{documents}/{name}", read(f"{TOP}/docs/{name}"))
    for name in ("nginx.conf.template", "haproxy.cfg.template"):
        put(f"{documents}/examples/{name}", read(f"{TOP}/site/{name}"))
    put(f"{documents}/example/site.toml", example())
    for path in said("git", "ls-files", "site/pages", "site/office", cwd=TOP).split("\n"):
        put(f"{documents}/example/{path.removeprefix('site/')}", read(f"{TOP}/{path}"))
    return found


def folders_of(paths):
    return sorted({path[:at.start()] for path in paths for at in re.finditer("/", path)})


def control_of(files, words):
    """The files of DEBIAN/: the path of each, with its text and whether it may be run."""
    size = sum(-(-len(content) // 1024) for content, _ in files.values()) + len(folders_of(files))
    sums = [f"{hashlib.md5(files[path][0]).hexdigest()}  {path}\n" for path in sorted(files) if path not in CONFFILES]
    found = {"control": (filled(read(f"{HERE}/debian/control"), {**words, "SIZE": str(size)}), False), "md5sums": ("".join(sums), False),
             "conffiles": ("".join(f"/{path}\n" for path in CONFFILES), False)}
    for name in ("postinst", "prerm", "postrm"):
        found[name] = (read(f"{HERE}/debian/{name}"), True)
    return {f"DEBIAN/{name}": (text.encode(), runs) for name, (text, runs) in found.items()}


def lay_out(room, files, time):
    """The files in a folder, with their rights and all of one time."""
    for folder in folders_of(files):
        os.mkdir(f"{room}/{folder}")
        os.chmod(f"{room}/{folder}", 0o755)
    for path, (content, runs) in files.items():
        with open(f"{room}/{path}", "wb") as file:
            file.write(content)
        os.chmod(f"{room}/{path}", 0o755 if runs else 0o644)
    for path in [*files, *reversed(folders_of(files)), "."]:
        os.utime(f"{room}/{path}", (time, time))


def main():
    if not 2 <= len(sys.argv) <= 4:
        sys.exit("usage: " + re.search(r"(?m)^ +(python3 .*)$", __doc__)[1])
    program, folder, version = os.path.abspath(sys.argv[1]), *(sys.argv[2:] + [".", None][len(sys.argv) - 2:])
    origin = Origin(version)
    words = {"VERSION": origin.version, "MAINTAINER": origin.maintainer, "LIBC": libc_of(program),
             "DATE": moment(origin.time).strftime("%Y-%m-%d")}
    files = files_of(program, origin, words)
    package = f"{folder}/{NAME}_{origin.version}_amd64.deb"
    with tempfile.TemporaryDirectory() as room:
        os.chmod(room, 0o755)
        lay_out(room, {**control_of(files, words), **files}, origin.time)
        # one thread and the packer named: what they are by themselves is another thing on another machine
        env = {**os.environ, "SOURCE_DATE_EPOCH": str(origin.time), "DPKG_DEB_THREADS_MAX": "1", "TZ": "UTC", "LC_ALL": "C"}
        said("dpkg-deb", "--root-owner-group", "-Zxz", "-z6", "--build", room, package, env=env)
    print(package)


main()
