"""Serves a real manual from its folder, with all extensions and its media, and looks at it with a browser: the Markdown of podman, of
Debian's source package libpod, of some 340 files with tables, pictures, READMEs, and links of all kinds.

- Each file that ends in `.md` is a page or told as passed over; each picture of the folder comes with its own bytes.
- In chromium: the pictures of a page are shown in their own size or the page's, and the cells of each table stand in lines and columns.
- A picture that the reader may not see is its alt text: its address is answered as that of no picture, byte for byte.
- `/broken` lists what is broken: for each page the links without an address and those whose anchor the page that they lead to hasn't,
  and behind them, by number and path, the pictures whose source leads to no medium that is served; as a parser of HTML finds them in the
  pages that were served, and no others.

    python3 scripts/site/manual.py PROGRAM

Builds nothing. Needs python3, chromium, which it has installed where it lacks, and Debian's archive, which it asks by apt-get. Two minutes.
The screenshots stay in a folder which it names, to be looked at.
"""
import html.parser, os, re, subprocess, sys, tarfile, tempfile, urllib.parse
sys.path.insert(1, os.path.dirname(__file__) + "/../lib")
from looking import Look
from scene import Client, Scene, got, put

scene = Scene(seconds=600, needs=["chromium"])
PACKAGE, SUITE = "libpod", "bookworm"
# the pages that are looked at, with a picture or with a table
PICTURES = "docs/tutorials/basic_networking.md"
TABLES = ("commands-demo.md", "docs/kubernetes_support.md")


# ---- the manual

def fetch():
    """The folder of the package's source, as Debian's archive has it."""
    os.makedirs("apt/lists/partial")
    put("apt/sources", f"deb-src http://deb.debian.org/debian {SUITE} main\n")
    words = ["apt-get", "-qq", "-o", f"Dir::Etc::sourcelist={scene.scratch}/apt/sources", "-o", "Dir::Etc::sourceparts=-",
             "-o", f"Dir::State::lists={scene.scratch}/apt/lists", "-o", "APT::Sandbox::User=root"]
    subprocess.run([*words, "update"], check=True)
    subprocess.run([*words, "source", "--download-only", PACKAGE], check=True)
    [archive] = [name for name in os.listdir() if ".orig.tar." in name]
    with tarfile.open(archive) as packed:
        packed.extractall("manual", filter="data")
    [inner] = os.listdir("manual")
    return f"manual/{inner}"


def files(folder, *ends):
    """The names of a folder's files that end so, as the server takes them: none behind a name with a point at its front."""
    for above, folders, names in os.walk(folder):
        folders[:] = [name for name in folders if not name.startswith(".") and not os.path.islink(f"{above}/{name}")]
        for name in names:
            if not name.startswith(".") and name.lower().endswith(ends) and not os.path.islink(f"{above}/{name}"):
                yield os.path.relpath(f"{above}/{name}", folder)


def config(folder):
    """All of the manual for Ann, but the folder of its logo, which is Bob's."""
    return f"""[browse]
title = "podman"
login = "basic"
[markdown]
tables = true
strikethrough = true
tasks = true
bare_links = true
check_images = true
front_matter = "title"
skip_bom = true
[[reader]]
token = "tok-ann"
groups = ["users"]
[[reader]]
token = "tok-bob"
groups = ["artists"]
[[page]]
path = "logo.md"
groups = ["users", "artists"]
text = "# Logo\\n\\n![the seals](logo/podman-logo.png)\\n\\n![no seals](logo/none.png)\\n"
[[folder]]
path = "{folder}"
groups = ["users"]
except = ["logo", "vendor"]
media = true
names = "nfc"
readme = true
on_bad = "skip"
[[folder]]
path = "{folder}/logo"
prefix = "logo"
groups = ["artists"]
media = true
"""


# ---- what was served

class Page(html.parser.HTMLParser):
    """The anchors, the addresses of links (None for one without), and the sources of pictures of a page."""

    def __init__(self, text):
        super().__init__()
        self.anchors, self.links, self.pictures, self.depth = set(), [], [], 0
        self.feed(text)

    def handle_starttag(self, tag, attributes):
        given = dict(attributes)
        if re.fullmatch("h[1-6]", tag) and "id" in given:
            self.anchors.add(given["id"])
        if tag == "a" and given.get("class") == "missing":
            self.links.append(None)
        elif tag == "a" and "href" in given:
            self.links.append(given["href"])
        elif tag == "img" and "src" in given:
            self.pictures.append(given["src"])


def address(path):
    return "/page/" + urllib.parse.quote(path, safe="-._~/")


def served(client, paths):
    """Each page as the reader of this connection is answered, by its path."""
    found = {}
    for path in paths:
        code, _, body = client.ask(address(path))
        if code == 200:
            found[path] = Page(body.decode())
    return found


def is_broken(pages, link):
    """Whether a link of a page leads nowhere, or to a page without its anchor."""
    if link is None:
        return True
    target, _, anchor = link.partition("#")
    page = pages.get(urllib.parse.unquote(target[len("/page/"):])) if target.startswith("/page/") else None
    return page is not None and anchor != "" and urllib.parse.unquote(anchor) not in page.anchors


def without_picture(client, path, source):
    """The path that the source of a picture of a page writes, where no medium is served at it, or `-` where it writes none; None for others."""
    target = urllib.parse.urlsplit(urllib.parse.urljoin(f"http://site/{urllib.parse.quote(path)}", source))
    if target.netloc != "site":
        return None
    try:
        written = urllib.parse.unquote(target.path[1:], errors="strict")
    except UnicodeDecodeError:
        return "-"
    code, head, _ = client.ask(address(written))
    return None if code == 200 and b"Content-Type: text/html" not in head else written


def check_files(client, folder, server):
    """Each page is served or told, and each picture comes as it is. The paths of the pages."""
    told = re.findall(r"(?m)^docs_server: passed over (.*): [^:]*$", server.said())
    paths = [name for name in sorted(files(folder, ".md")) if not name.startswith(("logo/", "vendor/"))]
    stand = [f"{name[:-9]}index.md" if name.endswith("README.md") and f"{name[:-9]}index.md" not in paths else name
             for name in paths if f"{folder}/{name}" not in told]
    wrong = [name for name in stand if client.ask(address(name))[0] != 200]
    scene.check(f"{len(stand)} pages, {len(told)} passed over", len(stand) > 300 and not wrong, wrong[:3])
    pictures = [name for name in files(folder, ".png", ".svg", ".jpg") if not name.startswith(("logo/", "vendor/"))]
    wrong = [name for name in pictures if client.ask(address(name))[2] != got(f"{folder}/{name}")]
    scene.check(f"{len(pictures)} pictures", len(pictures) >= 10 and not wrong, wrong[:3])
    return stand


def check_broken(client, folder, paths):
    """`/broken` has as many rows of each page as a parser finds broken links in it, and behind them its pictures that show nothing."""
    pages = served(client, [*paths, "logo.md"])
    told, pictures = {}, {}
    for row in client.ask("/broken")[2].decode().splitlines():
        path, place, reason, target = row.split("\t")
        scene.check("pictures stand behind links", reason == "image" or path not in pictures, row)
        (pictures if reason == "image" else told).setdefault(path, []).append((int(place), target))
    # links in raw HTML aren't links of Markdown: their addresses never lead into the site, since they are as their page has them
    counts = [(path, sum(is_broken(pages, link) for link in page.links), len(told.get(path, []))) for path, page in pages.items()]
    wrong = [each for each in counts if each[1] != each[2]]
    scene.check(f"{sum(map(len, told.values()))} broken links", sum(map(len, told.values())) > 20 and not wrong, wrong[:5])
    check_images(client, folder, pages, pictures)


def check_images(client, folder, pages, told):
    """The pictures that are told are those that a parser finds, but for pages with pictures in raw HTML, which are no images of Markdown:
    of these they are among them, and in their order."""
    wrong, alike = [], 0
    for path, page in pages.items():
        found = [(place, without_picture(client, path, source)) for place, source in enumerate(page.pictures, 1)]
        wanted, rows = [each for each in found if each[1] is not None], told.get(path, [])
        if has_raw_pictures(folder, path):
            left = iter(target for _, target in wanted)
            wrong += [] if all(target in left for _, target in rows) else [(path, wanted, rows)]
        else:
            alike += len(rows)
            wrong += [] if wanted == rows else [(path, wanted, rows)]
    scene.check(f"{sum(map(len, told.values()))} pictures that show nothing", alike >= 2 and not wrong, wrong[:5])
    scene.check("the hidden and the absent one", told.get("logo.md") == [(1, "logo/podman-logo.png"), (2, "logo/none.png")], told.get("logo.md"))


def has_raw_pictures(folder, path):
    """Whether a tag of a picture stands in the source of a page."""
    names = [f"{folder}/{path}", f"{folder}/{path[:-8]}README.md"]
    return any(b"<img" in got(name).lower() for name in names if os.path.isfile(name))


def check_hidden(client):
    """To whom it is hidden the logo is as a picture that doesn't exist."""
    hidden, none = client.ask("/page/logo/podman-logo.png"), client.ask("/page/logo/none.png")
    scene.check("a hidden picture", hidden[0] == 404 and hidden == none, (hidden[:2], none[:2]))


# ---- in the browser

def box(window, node):
    """The left, upper, right and lower ends of what is shown of a node."""
    quad = window.ask("DOM.getContentQuads", nodeId=node)["quads"][0]
    return min(quad[::2]), min(quad[1::2]), max(quad[::2]), max(quad[1::2])


def check_pictures(look, window):
    window.go(look.base + address(PICTURES))
    sources = [given["src"] for given in window.attributes("article img") if "://" not in given["src"]]
    scene.check(f"{PICTURES}: pictures", len(sources) >= 3, sources)
    for node, source in zip(window.nodes("article img:not([src*=\"://\"])"), sources):
        reply = window.replies.get(urllib.parse.urljoin(look.base + address(PICTURES), source), {})
        left, top, right, low = box(window, node)
        scene.check(f"{source} is shown", reply.get("status") == 200 and right - left > 100 and low - top > 50, (reply.get("status"), right - left))
    scene.check(f"{PICTURES}: the width", window.width() <= 1280, window.width())
    look.picture(window, "pictures", whole=True)


def check_tables(look, window, path):
    """The cells of each row begin where those of the header do, and all cells of a row at one height."""
    window.go(look.base + address(path))
    tables = window.nodes("article table")
    scene.check(f"{path}: tables", tables)
    uneven = []
    for table in tables:
        rows = window.ask("DOM.querySelectorAll", nodeId=table, selector="tr")["nodeIds"]
        ends = []
        for row in rows[:40]:
            cells = [box(window, node) for node in window.ask("DOM.querySelectorAll", nodeId=row, selector="th, td")["nodeIds"]]
            ends.append([round(cell[0]) for cell in cells])
            if len({round(cell[1]) for cell in cells}) != 1:
                uneven.append(("a row", cells[:3]))
        if any(each != ends[0] for each in ends) or len(rows) < 2:
            uneven.append(("columns", ends[:2]))
    scene.check(f"{path}: cells line up", not uneven, uneven[:3])
    look.picture(window, path.replace("/", "-")[:-3])


def check_alternative(look, window):
    window.go(f"{look.base}/page/logo.md")
    shown = [name for role, name, _ in window.roles() if role == "image"]
    scene.check("hidden and absent pictures are their texts", shown == ["the seals", "no seals"], shown)
    sizes = {round(low - top) for _, top, _, low in (box(window, node) for node in window.nodes("article img"))}
    scene.check("both are a line high", len(sizes) == 1 and max(sizes) < 40, sizes)
    look.picture(window, "hidden")


def cases():
    folder = fetch()
    put("config.toml", config(folder))
    server = scene.listen("config.toml")
    client = Client(server.port, "tok-ann")
    paths = check_files(client, folder, server)
    check_broken(client, folder, paths)
    check_hidden(client)
    pictures = tempfile.mkdtemp(prefix="manual-")
    print(f"screenshots in {pictures}", flush=True)
    look = Look(scene, server, pictures, "podman")
    window = look.browser.window()
    window.asked_to_sign_in(("Ann", "tok-ann"))
    window.go(f"{look.base}/login")
    window.as_ever()
    check_pictures(look, window)
    for path in TABLES:
        check_tables(look, window, path)
    check_alternative(look, window)
    look.browser.end()
    scene.check("the end", server.end() == 0)


scene.run(cases)
