"""What the scripts share that look at the pages for people in a browser: the windows of a site, with their pictures, widths, colours and
landmarks; another site, which counts what it is asked; and HTML that tries all that HTML can do by itself."""
import http.server, re, tempfile, threading
from chromium import Chromium
from scene import HOST

SCREENS = ((1280, 900, False), (390, 844, True), (320, 640, True))


# ---- another site

class Elsewhere(http.server.BaseHTTPRequestHandler):
    """Another site: its pages by their paths, empty where there are none, and the paths that it was asked for."""
    asked, pages = [], {}

    def do_GET(self):
        self.asked.append(self.path)
        content = self.pages.get(self.path, "").encode()
        self.send_response(200)
        self.send_header("Content-Type", "text/html; charset=utf-8")
        self.send_header("Content-Length", str(len(content)))
        self.end_headers()
        self.wfile.write(content)

    do_POST = do_GET

    def log_message(self, *_):
        pass


def elsewhere():
    """The port of another site."""
    other = http.server.ThreadingHTTPServer((HOST, 0), Elsewhere)
    threading.Thread(target=other.serve_forever, daemon=True).start()
    return other.server_port


def hostile(address):
    """HTML that would act by itself. Whatever runs asks another site at this address, calls alert, or changes the title."""
    act = f"document.title='RAN';alert(1);new Image().src='{address}/ran'"
    return f"""# Hostile

<h2 id="hostile-words" style="color:rgb(1,2,3)">Kiwis by a hostile page</h2>

<script>{act}</script>

<div><img src="/no/such/picture" onerror="{act}"><svg onload="{act}"></svg>
<details open ontoggle="{act}"><summary>s</summary></details>
<input autofocus onfocus="{act}" id="in"><body onload="{act}">
<math><mtext><img src=x onerror="{act}"></mtext></math></div>

<p><a id="js" href="javascript:{act}">a script's address</a> <a id="ping" href="#hostile" ping="{address}/ping">a ping</a></p>

[a script's address in a link](javascript:alert(1))

<div><style>main {{ display: none }} body {{ background: rgb(1,2,3) !important }} @import "{address}/import.css";</style>
<link rel="stylesheet" href="{address}/style.css"><link rel="stylesheet" href="data:text/css,main%7Bdisplay:none%7D">
<link rel="prefetch" href="{address}/prefetch"><link rel="preload" as="image" href="{address}/preload">
<link rel="icon" href="{address}/icon"></div>

<div><iframe src="{address}/frame"></iframe>
<IFrame srcdoc="<script>top.{act.split(";")[0]}</script><form action='/search'></form>"></IFrame>
<frameset><frame src="{address}/oldframe"></frameset><object data="{address}/object"></object><embed src="{address}/embed">
<video autoplay src="{address}/video"></video><audio autoplay src="{address}/audio"></audio><img src="{address}/picture"></div>

<div><meta http-equiv="refresh" content="0;url={address}/refresh"><meta http-equiv="set-cookie" content="a=b">
<base href="{address}/base/"></div>

<div><form action="{address}/form" method="post"><input name="word" value="x"><button id="send">Send</button></form>
<FORM id="own" action="/sent" method="post"></FORM><button id="own-button" form="own">Own</button>
<button id="other" formaction="{address}/button" formmethod="post">Other</button>
<input type="image" id="image" alt="image" formaction="{address}/image"></div>

<a href="guide/parts.md" id="inside">inside</a>

<div><img alt='open' src='https://{HOST}:1/?
"""


# ---- colours

def luminance(colour):
    parts = [int(part) / 255 for part in re.findall(r"\d+", colour)[:3]]
    return sum(weight * (part / 12.92 if part <= 0.04045 else ((part + 0.055) / 1.055) ** 2.4)
               for weight, part in zip((0.2126, 0.7152, 0.0722), parts))


def contrast(one, other):
    low, high = sorted((luminance(one), luminance(other)))
    return (high + 0.05) / (low + 0.05)


def ground(window, selectors):
    """The colour behind a node: that of the first of these, from the inside, that has one."""
    for selector in selectors:
        colour = window.style(window.node(selector))["background-color"]
        if not colour.endswith(", 0)"):
            return colour
    return "rgb(255, 255, 255)"


# ---- windows

class Look:
    """The windows of a site, what is checked of them, and the folder that their pictures go to."""

    def __init__(self, scene, server, folder, title, **given):
        self.scene, self.check, self.folder, self.title = scene, scene.check, folder, title
        self.base = f"http://{HOST}:{server.port}"
        self.browser = Chromium(tempfile.mkdtemp(dir=scene.scratch), **given)

    def picture(self, window, name, whole=False):
        window.picture(f"{self.folder}/{name}.png", whole)

    def at(self, window, name, path, title, heading=None, scripts=0):
        """The window stands at this path, and the page has this title, one heading of level 1, and so many scripts."""
        headings = window.texts("main h1")
        self.check(f"{name}: the path", window.path() == path, window.path())
        self.check(f"{name}: the title", window.title() == f"{title} · {self.title}", window.title())
        self.check(f"{name}: the heading", headings == [heading or title], headings)
        self.check(f"{name}: scripts", len(window.nodes("script")) == scripts)

    def fits(self, window, name, colours, whole=False):
        """On each screen, light and dark, nothing can be moved sideways, and these texts stand out from their grounds."""
        for width, height, phone in SCREENS:
            for dark in (False, True):
                window.looks(width, height, dark, phone)
                kind = f"{name} {width}{' dark' if dark else ''}"
                self.check(f"{kind}: the width", window.width() <= width, window.width())
                for text, *behind in colours if width != 390 else ():
                    for node in window.nodes(text)[:1]:
                        found = contrast(window.style(node)["color"], ground(window, [text, *behind, "body"]))
                        self.check(f"{kind}: {text} stands out", found >= 4.5, f"{found:.2f}")
                if dark:
                    self.check(f"{kind}: is dark", luminance(ground(window, ["body"])) < 0.1)
                self.picture(window, kind.replace(" ", "-"), whole)
        window.looks()

    def landmarks(self, window, name, wanted, headings=1):
        """These landmarks are there, and so many headings of level 1; the whole tree."""
        roles = window.roles()
        for role in wanted:
            self.check(f"{name}: {role}", role in {each[0] for each in roles}, sorted({each[0] for each in roles}))
        main = [each for each in roles if each[0] == "heading" and each[2] == 1]
        self.check(f"{name}: one heading of level 1", len(main) == headings, main)
        return roles
