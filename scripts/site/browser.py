"""Looks at the pages for people with a browser: chromium, driven by scripts/site/chromium.py, over a site that `listen` serves.

- A guest sees what is public, is asked to sign in, also behind a wrong password, and as a reader sees more; a hidden page and an absent
  one are the same document to the guest.
- Navigation, the folders above a page, contents in parts, a search by a prefix, backlinks, broken links, 404 and 401.
- On screens of 1280, 390 and 320 pixels, light and dark: nothing can be moved sideways, and every text stands out from its ground
  (4.5 to 1, WCAG's bound AA). Landmarks, one heading of level 1, and the link that skips to the content, by the accessibility tree.
- What README.md says of site/try.toml: a link of the front page leads nowhere, until Ann has signed in.
- A page whose own HTML tries all that HTML can do by itself (scripts, styles, frames, forms, refreshes, addresses of other sites) does
  none of it, at its address and where Back shows its plain form, which a picture of another page has brought into the browser's cache.
- A page whose own HTML tries all that could cover the bar (pictures drawn beyond their frame, the sheet's classes, popovers, dialogs)
  covers none of it.

    python3 scripts/site/browser.py PROGRAM

Builds nothing. Needs python3, and chromium, which it has installed where it lacks. Some minutes. The screenshots stay in a folder which it
names, to be looked at.
"""
import json, os, re, sys, tempfile
sys.path.insert(1, os.path.dirname(__file__) + "/../lib")
from chromium import Failed
from looking import Elsewhere, Look, elsewhere, hostile
from scene import HOST, TOP, Client, Scene, put

scene = Scene(seconds=600, needs=["chromium"])
TITLE = "Our \"blue\" handbook"
LONG = "deep-" * 29 + "end.md"
PASSWORD, WRONG = ("Ann", "tok-ann"), ("Ann", "tok-an")


# ---- the site

def covering():
    """HTML that would stand over the bar: what is drawn beyond its frame, a class of the sheet's, a popover, and dialogs."""
    picture = "<svg width='1400' height='900'><rect width='1400' height='900' fill='red'/></svg>"
    return f"""# Covering

<div><svg width="9" height="9" overflow="visible"><rect x="-2000" y="-2000" width="6000" height="6000" fill="red"/></svg>
<div id="skipped" class="skip" tabindex="0"><svg width="900" height="40"><rect width="900" height="40" fill="red"/></svg></div>
<button id="pop" popovertarget="popped">Pop</button> <div id="popped" class="frame bare" popover>{picture}</div>
<button id="ask" commandfor="asked" command="show-modal">Ask</button> <dialog id="asked">{picture}</dialog>
<dialog id="open" open>{picture}</dialog><body class="over frame bare pager" hidden></div>
"""


def pages(address):
    """Paths, groups and texts. Another site has this address."""
    public, staff = ["public", "staff"], ["staff"]
    yield "index.md", public, ("# Welcome\n\nThis is the front. Read [the guide](guide/), see [the rota](rota.md), or look at\n"
                               "[what others wrote](https://commonmark.org).\n\n## Every day\n\nA `code`, *words*, **strong** ones.\n\n"
                               "> A quotation of some words.\n\n```\na line of code that is far too long for a small screen, and can't be "
                               "broken anywhere, since it is code\n```\n\n## Around\n\n1. One\n2. Two\n\n" + "Many words. " * 60 + "\n")
    yield "rota.md", staff, "# Rota\n\nAnn, then Ben. Back to the [front](/).\n"
    yield "guide/index.md", public, "# The guide\n\nIts [parts](parts.md), and [more](more/a.md).\n"
    yield "guide/parts.md", public, ("# Parts\n\n" + "Words that come before. " * 6 + "Three kiwis & two plums lie here.\n\n"
                                     "## First\n\nKiwi.\n\n### Deeper\n\nText.\n\n#### Too deep\n\n## Second & last\n\n" + "w" * 300 + "\n")
    yield "guide/more/a.md", public, "No heading stands here.\n"
    yield "kiwi-growers.md", staff, "# Growers\n\nNothing of the fruit.\n"
    yield "broken.md", staff, "# Broken\n\n[a](none.md) [b](guide/parts.md#never) [c](x%00y.md) [d](" + "long-" * 30 + "name.md)\n"
    yield f"{LONG}", staff, "# " + "Longwordwithoutaspace" * 12 + "\n\nText. See [parts](guide/parts.md).\n"
    yield "wide.md", staff, ("# Wide\n\n<table><tr>" + "<td>cell-of-a-table</td>" * 20 + "</tr></table>\n\n<pre>" + "x" * 400 + "</pre>\n\n"
                             "`" + "y" * 300 + "`\n\n<img alt=\"\" src=\"data:image/svg+xml,%3Csvg xmlns='http://www.w3.org/2000/svg' "
                             "width='3000' height='20'/%3E\">\n")
    yield "hostile.md", staff, hostile(address)
    yield "covering.md", staff, covering()
    yield "pictures.md", staff, '# Pictures\n\n<img src="/page/hostile.md" alt="a page as a picture">\n'
    for number in range(230):
        yield f"many/page-{number:03}.md", staff, f"# Page {number}\n\n[Parts](../guide/parts.md), twice: [parts](../guide/parts.md).\n"


def config(address, browse):
    rows = [f"[[page]]\npath = {json.dumps(path)}\ngroups = {json.dumps(groups)}\ntext = {json.dumps(text)}\n"
            for path, groups, text in pages(address)]
    return f'{browse}\n[[reader]]\ntoken = "tok-ann"\ngroups = ["staff"]\n' + "".join(rows)


COLOURS = (("main p",), ("main p a",), ("a.missing",), (".path",), ("header a.site", "body > header"), ("header nav a", "body > header"),
           ("header button",), ("header input",), ("aside h2",), (".tree .up a",), (".tree [aria-current]",), ("body > footer code",),
           ("mark",), (".crumbs a",), ("thead th",), ("blockquote p", "blockquote"), ("main pre code", "main pre"))


# ---- the cases

def check_guest(look, guest):
    """Who comes without a login: what is public, the way to sign in, and nothing that tells of what is hidden."""
    base = look.base
    guest.go(base + "/")
    look.at(guest, "the front", "/page/index.md", "Welcome")
    sheet = base + guest.attributes("link[rel=stylesheet]")[0]["href"]
    scene.check("the style sheet", guest.replies.get(sheet, {}).get("status") == 200, list(guest.replies))
    scene.check("it counts", guest.style(guest.node("body > header"))["display"] == "flex")
    missing = guest.attributes("main a.missing")
    scene.check("a hidden page's link has no address", missing == [{"class": "missing"}], missing)
    scene.check("it reads as it was written", guest.texts("main a.missing") == ["the rota"])
    scene.check("a way to sign in", guest.texts("header nav a") == ["Contents", "Broken links", "Sign in"], guest.texts("header nav a"))
    scene.check("navigation has what is public", guest.texts(".tree a") == ["Home", "The guide"], guest.texts(".tree a"))
    look.picture(guest, "guest")
    documents = []
    for path in ("/page/rota.md", "/page/never.md", "/contents/many/", "/backlinks/rota.md", "/nothing"):
        guest.go(base + path)
        look.at(guest, f"guest at {path}", path, "Not found")
        documents.append(guest.source())
    scene.check("hidden and absent are one document", len(set(documents)) == 1)
    guest.go(base + "/search?q=kiw")
    scene.check("a search finds what is public", guest.texts(".hits > li > a") == ["Parts"], guest.texts(".hits > li > a"))
    guest.go(base + "/broken")
    scene.check("broken links of what is public", guest.texts(".broken tbody code") == ["rota.md"], guest.texts(".broken tbody code"))


def check_sign_in(look, guest):
    """The browser is asked at /sign-in, once more behind a wrong password, and not again from then on."""
    guest.go(look.base + "/")
    guest.asked_to_sign_in(WRONG, PASSWORD)
    guest.click(guest.node("header nav a", "Sign in"))
    scene.check("two prompts, with the title", guest.prompts == [("basic", TITLE)] * 2, guest.prompts)
    look.at(guest, "signed in", "/page/index.md", "Welcome")
    guest.as_ever()
    guest.go(look.base + "/")
    scene.check("no way to sign in any more", guest.texts("header nav a") == ["Contents", "Broken links"], guest.texts("header nav a"))
    guest.click(guest.node("main a", "the rota"))
    look.at(guest, "the link leads somewhere now", "/page/rota.md", "Rota")
    other = look.browser.window()
    other.go(look.base + "/")
    scene.check("other people's windows aren't signed in", "Sign in" in other.texts("header nav a"), other.texts("header nav a"))


def check_navigation(look, ann):
    """Folders, the page that stands for one, the folders above a page, and lists in parts."""
    base = look.base
    ann.go(base + "/")
    ann.click(ann.node(".tree .dir a", "The guide"))
    look.at(ann, "a folder's page", "/page/guide/index.md", "The guide")
    scene.check("the folders above", ann.texts(".crumbs a") == ["Home", "The guide"], ann.texts(".crumbs a"))
    scene.check("where it is", [each.get("aria-current") for each in ann.attributes(".tree .top a")] == ["page"])
    scene.check("what stands in it", ann.texts(".tree li a") == ["more", "Parts"], ann.texts(".tree li a"))
    ann.click(ann.node(".tree .dir a", "more"))
    look.at(ann, "a folder without one", "/contents/guide/more/", "more")
    ann.click(ann.node(".list a", "a.md"))
    look.at(ann, "a page without a heading", "/page/guide/more/a.md", "guide/more/a.md")
    ann.click(ann.node(".crumbs a", "The guide"))
    look.at(ann, "up by the folders", "/page/guide/index.md", "The guide")
    ann.click(ann.node("main a", "parts"))
    look.at(ann, "a page", "/page/guide/parts.md", "Parts")
    listed = ann.texts("aside li.h2 a, aside li.h3 a")
    scene.check("its headings", listed == ["First", "Deeper", "Second & last"], listed)
    ann.go(base + "/page/many/page-100.md")
    shown = ann.texts(".tree li a")
    scene.check("navigation around a page", shown == [f"Page {number}" for number in range(70, 160)], (shown[:1], shown[-1:]))
    ann.click(ann.node(".tree .all a"))
    look.at(ann, "all of a folder", "/contents/many/", "many")
    scene.check("the first part of it", len(ann.nodes(".list li")) == 200)
    ann.click(ann.node(".pager a", "More"))
    scene.check("the second one", ann.texts(".list li a") == [f"Page {number}" for number in range(200, 230)], ann.texts(".list li a")[:2])
    ann.click(ann.node(".pager a", "From the start"))
    look.at(ann, "the first again", "/contents/many/", "many")


def check_lists(look, ann):
    """The search, backlinks and broken links."""
    ann.go(look.base + "/")
    ann.type(ann.node("header input"), "kiw")
    ann.loaded(lambda: ann.press("Enter"))
    look.at(ann, "a search", "/search?q=kiw", "Search")
    scene.check("the word stays in the form", [each.get("value") for each in ann.attributes("form.ask input")] == ["kiw"])
    scene.check("who has it in the path comes first", ann.texts(".hits > li > a") == ["Growers", "Parts"], ann.texts(".hits > li > a"))
    scene.check("how many", ann.texts(".found") == ["2 pages found."], ann.texts(".found"))
    scene.check("marked words", ann.texts(".hits li:nth-child(2) mark") == ["kiwis"], ann.texts(".hits li:nth-child(2) p"))
    scene.check("a snippet that is cut", ann.texts(".hits li:nth-child(2) p")[0].startswith("…"), ann.texts(".hits li:nth-child(2) p"))
    ann.go(look.base + "/search?q=%21")
    look.at(ann, "a search without words", "/search?q=%21", "Search")
    scene.check("says so", "This one has none." in ann.source())
    ann.go(look.base + "/page/guide/parts.md")
    ann.click(ann.node("aside a", "All that link here"))
    look.at(ann, "backlinks", "/backlinks/guide/parts.md", "Pages that link to Parts")
    scene.check("with counts", ann.texts(".list li")[3].endswith("many/page-000.md 2 links"), ann.texts(".list li")[:3])
    scene.check("200 at a time", len(ann.nodes(".list li")) == 200 and ann.texts(".pager a") == ["More"], ann.texts(".pager a"))
    ann.click(ann.node("header nav a", "Broken links"))
    look.at(ann, "broken links", "/broken", "Broken links")
    rows = [tuple(text) for text in zip(ann.texts(".broken td:nth-child(2)"), ann.texts(".broken td:nth-child(3)"))]
    wanted = [("none.md", "no such page"), ("guide/parts.md#never", "no such heading"), ("–", "no path of a page")]
    scene.check("what is wrong with each", rows[:3] == wanted, rows)


def check_looks(look, ann):
    """Widths, colours and landmarks of each kind of page."""
    kinds = {"front": "/page/index.md", "page": "/page/guide/parts.md", "wide": "/page/wide.md", "long": f"/page/{LONG}",
             "folder": "/contents/guide/", "contents": "/contents", "backlinks": "/backlinks/guide/parts.md", "broken": "/broken",
             "search": "/search?q=kiw", "absent": "/page/never.md"}
    placed = ("front", "page", "wide", "long", "folder")
    for name, path in kinds.items():
        ann.go(look.base + path)
        look.fits(ann, name, COLOURS)
        roles = look.landmarks(ann, name, ["banner", "search", "navigation", "main"] + ["contentinfo"] * (name in placed))
        if name == "page":
            names = [each[1] for each in roles if each[0] == "navigation"]
            scene.check("navigations have names", sorted(names) == ["Folders", "Pages", "Site"], names)
            scene.check("what stands beside", ("complementary", "About this page") in [each[:2] for each in roles])
    ann.go(look.base + "/page/index.md")
    ann.press("Tab")
    scene.check("the first link skips to the content", ann.texts(":focus") == ["Skip to content"], ann.texts(":focus"))
    look.picture(ann, "skip")
    ann.quietly(lambda: ann.press("Enter"))
    scene.check("and does", ann.path() == "/page/index.md#.main", ann.path())
    ann.looks(390, 844, phone=True)
    ann.click(ann.node("header a.menu"), quiet=True)
    scene.check("on a small screen a link leads to the navigation", ann.path() == "/page/index.md#.pages", ann.path())
    look.picture(ann, "menu-390")
    ann.looks()


def nothing_ran(name, window, asked, path):
    """Neither a script nor a refresh, a frame, a form or a foreign address did anything."""
    scene.check(f"{name}: no script ran", "RAN" not in window.title() and not window.dialogs, (window.title(), window.dialogs))
    scene.check(f"{name}: nobody else was asked", Elsewhere.asked == [], Elsewhere.asked)
    strange = [each for each in asked if each[0] != "GET" or not re.match(r"(http://[^/]*/(page/|style|search|no/|favicon)|data:)", each[1])
               and each != ("GET", f"https://{HOST}:1/?%3C!--")]
    scene.check(f"{name}: nothing else was asked for", not strange, strange)
    scene.check(f"{name}: it stands where it stood", window.path().split("#")[0] == path, window.path())


def check_hostile(look, ann):
    """A page whose own HTML tries to act."""
    path = "/page/hostile.md"
    ann.requests.clear()
    opened = set(look.browser.opened)
    ann.go(look.base + path)
    ann.quietly(lambda: None, 2)
    nothing_ran("hostile", ann, ann.requests, path)
    scene.check("no frames", not ann.nodes("iframe, frame, main form"), ann.texts("iframe, frame, main form"))
    scene.check("what would be a frame is text", "<iframe src=" in ann.text_of(ann.node("main")))
    for selector, name, forbidden in (("main", "display", "none"), ("#hostile-words", "color", "rgb(1, 2, 3)"),
                                      ("body", "background-color", "rgb(1, 2, 3)")):
        scene.check(f"no style of its own: {name} of {selector}", ann.style(ann.node(selector))[name] != forbidden)
    for clicked in ("#js", "#ping", "#send", "#own-button", "#other", "#image"):
        for node in ann.nodes(clicked)[:1]:
            ann.click(node, quiet=True)
        nothing_ran(f"hostile, {clicked} clicked", ann, ann.requests, path)
    look.picture(ann, "hostile")
    scene.check("navigation stands behind it", ann.texts(".tree .top a") == ["Home"], ann.texts(".tree a")[:2])
    scene.check("no address took what follows", not [each for each in ann.requests if "tree" in each[1] or "Pages" in each[1]])
    ann.type(ann.node("header input"), "rota")
    ann.loaded(lambda: ann.press("Enter"))
    look.at(ann, "its search form still works", "/search?q=rota", "Search")
    ann.go(look.base + path)
    ann.click(ann.node("#inside"))
    scene.check("a link in its HTML goes by no base", ann.path() == "/page/guide/parts.md" and not Elsewhere.asked, ann.path())
    scene.check("no window was opened", look.browser.opened == opened)


def bar_is_seen(name, window):
    """What is met at some places of the bar is of the bar, which begins the page and is as wide as the window."""
    bar = window.nodes("body > :first-child + header, body > :first-child + header *")
    box = window.ask("DOM.getBoxModel", nodeId=bar[0])["model"]
    scene.check(f"{name}: the bar stands above all", box["border"][:2] == [0, 0] and box["width"] == 1280, box)
    met = [(x, y) for x in (30, 400, 640, 1250) for y in (5, 30, 50) if window.node_at(x, y) not in bar]
    scene.check(f"{name}: nothing covers the bar", not met, met)


def check_covering(look, ann):
    """A page whose own HTML tries to stand over the bar."""
    ann.go(look.base + "/page/covering.md")
    bar_is_seen("covering", ann)
    ann.quietly(lambda: ann.ask("DOM.focus", nodeId=ann.node("#skipped")))
    scene.check("what would be over the bar has the focus", len(ann.nodes("#skipped:focus")) == 1)
    bar_is_seen("covering, with the focus", ann)
    ann.click(ann.node("#pop"), quiet=True)
    bar_is_seen("covering, with a popover", ann)
    look.picture(ann, "covering")
    ann.click(ann.node("#ask"), quiet=True)
    scene.check("the dialog is asked for", len(ann.nodes("dialog:modal")) == 1)
    shown = [ann.style(node)["display"] for node in ann.nodes("[popover], dialog")]
    scene.check("neither popover nor dialogs are shown", shown == ["none"] * 3, shown)
    look.picture(ann, "covering-dialog")
    ann.go(look.base + "/page/index.md")
    ann.press("Tab")
    skip = ann.node("body > .skip:focus")
    scene.check("the link that skips to the content stands over the bar", ann.node_at(30, 30) == skip)


def check_plain(look, ann):
    """The plain form of a hostile page as a document: where Back may show what a picture has brought into the browser's cache, and where
    the browser is made to ask as for a picture."""
    path = "/page/hostile.md"
    ann.go(look.base + path)
    ann.go(look.base + "/page/pictures.md")
    ann.quietly(lambda: None)
    shown = [each for each in ann.requests if each[1].endswith(path)]
    scene.check("the picture was asked for", len(shown) >= 2, shown)
    ann.requests.clear()
    ann.back()
    ann.quietly(lambda: None, 2)
    nothing_ran("back", ann, ann.requests, path)
    look.picture(ann, "back")
    ann.asks_for("image/avif,image/webp,*/*;q=0.8")
    ann.requests.clear()
    ann.go(look.base + path)
    ann.quietly(lambda: None, 2)
    scene.check("the plain form stands there", not ann.nodes(".tree") and ann.title() == "Hostile", ann.title())
    nothing_ran("plain", ann, ann.requests, path)
    look.picture(ann, "plain")
    ann.as_ever()


def check_heads(port):
    """No HTML goes out without the policy, in whatever form."""
    for token, fields in (("tok-ann", "Accept: text/html\r\n"), ("tok-ann", "Accept: */*\r\n"), ("tok-none", "Accept: text/html\r\n")):
        client = Client(port, token)
        for target in ("/", "/page/index.md", "/page/hostile.md", "/page/never.md", "/contents", "/broken", "/search?q=kiw", "/search?q="):
            _, head, _ = client.ask(target, fields=fields)
            is_html, policies = b"Content-Type: text/html" in head, head.count(b"\r\nContent-Security-Policy: default-src 'none'; ")
            scene.check(f"{target} {fields.strip()}: a policy where it is HTML", policies == is_html, head)
        client.close()


def check_readme(folder):
    """The site that README.md has one begin with."""
    server = scene.listen(f"{TOP}/site/try.toml")
    look = Look(scene, server, folder, TITLE)
    guest = look.browser.window()
    guest.looks()
    guest.go(look.base)
    look.picture(guest, "readme-guest")
    scene.check("README: the front page", guest.title() == "Handbook · Handbook", guest.title())
    scene.check("README: its second link leads nowhere", guest.texts("main a.missing") == ["salaries"], guest.texts("main a"))
    guest.asked_to_sign_in(("anybody", "tok-ann"))
    guest.click(guest.node("header nav a", "Sign in"))
    guest.as_ever()
    guest.click(guest.node("main a", "salaries"))
    scene.check("README: as Ann it leads to a page", guest.title() == "Salaries · Handbook", guest.title())
    client = Client(server.port, "tok-ben")
    body = client.ask("/page/index.md", fields="Accept: */*\r\n")[2]
    links = b'<a href="/page/holidays.md">holidays</a>, and about <a class="missing">salaries</a>'
    scene.check("README: Ben's plain page", links in body, body)
    client.close()
    look.picture(guest, "readme-ann")
    look.browser.end()
    scene.ends(server, "README")


def check_closed(address, folder):
    """Without guests and logins a browser is told that it isn't signed in, and nothing of the site."""
    put("closed.toml", config(address, f"[browse]\ntitle = {json.dumps(TITLE)}\n"))
    server = scene.listen("closed.toml")
    look = Look(scene, server, folder, TITLE)
    window = look.browser.window()
    window.looks()
    window.go(look.base + "/page/rota.md")
    look.at(window, "not signed in", "/page/rota.md", "Not signed in")
    scene.check("no navigation", not window.nodes("nav, header"))
    look.fits(window, "closed", COLOURS)
    look.landmarks(window, "closed", ["main"])
    look.browser.end()
    scene.ends(server, "without guests")


def main():
    address = f"http://{HOST}:{elsewhere()}"
    put("site.toml", config(address, f"[browse]\ntitle = {json.dumps(TITLE)}\nguest = [\"public\"]\nlogin = \"basic\"\n"))
    server = scene.listen("site.toml")
    look = Look(scene, server, tempfile.mkdtemp(prefix="browser-"), TITLE)
    print(f"{look.browser.version}: screenshots in {look.folder}", flush=True)
    check_heads(server.port)
    person = look.browser.window()
    person.looks()
    for check in (check_guest, check_sign_in, check_navigation, check_lists, check_looks, check_hostile, check_covering, check_plain):
        try:
            check(look, person)
        except Failed as failed:
            scene.check(check.__name__, False, failed)
    look.browser.end()
    scene.ends(server, "the end")
    check_readme(look.folder)
    check_closed(address, look.folder)


scene.run(main)
