"""Edits pages with a browser: chromium, driven by scripts/site/chromium.py, over a site that `listen` serves with guests and a login.

- An owner signs in, types by keys and saves; two tabs of theirs and a program meet on one page: what was typed stays, both texts are
  shown, and nothing is taken away that its writer wasn't shown. A page that moved or went meanwhile; moves, new pages, removals, groups.
- Back, a reload, no network and no scripts lose nothing and send nothing. A reader who is no owner, and a guest, can't edit.
- Texts, paths and previews that try all that HTML can do by itself do none of it.
- Another site's forms and scripts, in a browser that is signed in as an owner, change nothing, and the form isn't shown in its frame.
- On screens of 1280, 390 and 320 pixels, light and dark, nothing can be moved sideways and every text stands out from its ground;
  landmarks, headings and labels, by the accessibility tree.
- A server that starts on the journal has what was saved; one whose configuration has `editing = false` has no form.

    python3 scripts/site/editing.py PROGRAM

Builds nothing. Needs python3, and chromium, which it has installed where it lacks. Some minutes. The screenshots stay in a folder which it
names, to be looked at.
"""
import base64, hashlib, json, os, re, sys, tempfile, urllib.parse
sys.path.insert(1, os.path.dirname(__file__) + "/../lib")
from chromium import Failed
from editors import BOTH, Log, Program, Tab, beside, field, quoted, tag_of
from foreign import check_other_site
from looking import Elsewhere, Look, elsewhere, hostile
from scene import HOST, Scene, put

scene = Scene(seconds=900, needs=["chromium"])
TITLE = "Our \"blue\" handbook"
OWNER, READER = "tok-owner", "tok-reader"
KEPT = "What you typed is kept."
ANOTHER, GONE = f"Not done: the page is another one now. {KEPT}", f"Not done: the page is gone. {KEPT}"
MOST = 1_048_576
# what the policies of the form and of a preview hold, but for the digest of the form's script
FORM = ("default-src 'none'; script-src 'sha256-{}'; style-src 'self'; img-src 'self' https: data:; connect-src 'self'; "
        "form-action 'self'; base-uri 'none'; frame-ancestors 'none'")
PREVIEW = ("default-src 'none'; style-src 'self'; img-src 'self' https: data:; form-action 'none'; base-uri 'none'; "
           "frame-ancestors 'none'; sandbox")
SITE = f"""[browse]
title = {json.dumps(TITLE)}
guest = ["public"]
login = "basic"

[[reader]]
token = "{OWNER}"
owner = true

[[reader]]
token = "{READER}"
groups = ["staff"]

[[page]]
path = "index.md"
groups = ["staff", "public"]
text = "# Welcome\\n\\nRead [the guide](guide/), or what [never was](guide/never.md).\\n"

[[page]]
path = "guide/index.md"
groups = ["staff", "public"]
text = "# The guide\\n\\nIts [parts](parts.md).\\n"

[[page]]
path = "guide/parts.md"
groups = ["staff"]
text = "# Parts\\n\\nMany.\\n"
"""


# ---- the cases

def check_heads(program):
    """The form and a preview have one policy each, and the form's script is the one that its policy names."""
    for target in ("/edit/index.md", "/edit/never.md", "/edit/", "/edit/guide/"):
        code, head, body = program.ask(target, fields="Accept: text/html\r\n")
        scripts = re.findall(rb"<script[^>]*>(.*?)</script>", body, re.S)
        digest = base64.b64encode(hashlib.sha256(scripts[0] if scripts else b"").digest()).decode()
        scene.check(f"{target}: one script", (code, len(scripts)) == (200, 1), (code, len(scripts)))
        scene.check(f"{target}: its policy", field(head, "Content-Security-Policy") == FORM.format(digest), head)
        scene.check(f"{target}: kept by nobody", field(head, "Cache-Control") == "private, no-cache", head)
    code, head, body = program.ask("/preview/index.md", "POST", b"# Other\n", "Content-Type: text/markdown\r\n")
    scene.check("a preview", code == 200 and b"<h1 id=\"other\">Other</h1>" in body and b"<script" not in body, body)
    scene.check("a preview's policy", field(head, "Content-Security-Policy") == PREVIEW, head)


def check_signing_in(look, owner, program):
    """Who isn't signed in is asked for a login at the form; whoever cancels sees none."""
    base = look.base
    owner.go(base + "/page/index.md")
    scene.check("a guest has no tools", not owner.nodes(".tools"))
    owner.asked_to_sign_in()
    owner.go(base + "/edit/index.md")
    look.at(owner, "cancelled", "/edit/index.md", "Not signed in")
    owner.asked_to_sign_in(("Ann", OWNER))
    owner.go(base + "/edit/index.md")
    scene.check("one prompt, with the title", owner.prompts == [("basic", TITLE)], owner.prompts)
    look.at(owner, "signed in", "/edit/index.md", "Edit index.md", "index.md", scripts=1)
    # the login of a folder is that of the folder alone (RFC 7617, section 2.2): elsewhere the browser is a guest until it asks
    owner.go(base + "/page/guide/parts.md")
    look.at(owner, "signed in at the form alone", "/page/guide/parts.md", "Not found")
    owner.asked_to_sign_in()
    owner.click(owner.node("header nav a", "Sign in"))
    scene.check("signed in everywhere, without another prompt", owner.prompts == [], owner.prompts)
    owner.as_ever()
    for path, wanted in (("/page/guide/parts.md", ["Edit", "New page"]), ("/contents/guide/", ["New page"]), ("/contents", ["New page"]),
                         ("/broken", []), ("/search?q=parts", []), ("/page/guide/never.md", [])):
        owner.go(base + path)
        scene.check(f"an owner's tools at {path}", owner.texts(".tools a") == wanted * 2, owner.texts(".tools a"))
    owner.go(base + "/page/guide/parts.md")
    owner.click(owner.node(".tools a", "Edit"))
    look.at(owner, "by the tools", "/edit/guide/parts.md", "Edit guide/parts.md", "guide/parts.md", scripts=1)


def check_reader(look, owner, program):
    """A reader who is no owner has no tools, and is told the same of all pages."""
    reader = look.browser.window()
    reader.looks()
    reader.asked_to_sign_in(("Ben", READER))
    reader.go(look.base + "/sign-in")
    reader.as_ever()
    reader.go(look.base + "/page/guide/parts.md")
    scene.check("a reader sees the page, and no tools", reader.texts("main h1") == ["Parts"] and not reader.nodes(".tools"))
    documents = []
    for path in ("/edit/guide/parts.md", "/edit/never.md", "/edit/", "/edit/guide/", "/edit/a//b"):
        reader.go(look.base + path)
        look.at(reader, f"a reader at {path}", path, "Not allowed")
        documents.append(reader.source())
    scene.check("all of it is one document", len(set(documents)) == 1)
    look.picture(reader, "reader")
    reader.go(look.base + "/source/guide/parts.md")
    scene.check("nor the source", "403 Forbidden" in reader.source() and "Many" not in reader.source(), reader.source())


def check_saves(look, owner, program):
    """What is typed by keys is saved, and the page shows it."""
    first, more = "# Typed\n\nOnce.\n", "\nTwice: <b>bold</b> & \"quoted\", äöü €.\n"
    program.puts("typed.md", first)
    tab = Tab(look, owner, "typed.md")
    tab.has("as it came", first)
    scene.check("nothing is said", tab.said() == "" and not tab.is_shown("#other") and tab.is_shown("#stands"), tab.said())
    scene.check("all buttons are there", not [each for each in owner.attributes("main button") if "disabled" in each])
    tab.adds(more)
    tab.says("a save", "Saved.", "Save")
    program.stands("a save", "typed.md", first + more)
    look.picture(owner, "saved", whole=True)
    tab.adds("More.\n")
    tab.says("a second save", "Saved.", "Save")
    program.stands("a second save", "typed.md", first + more + "More.\n")
    tab.adds("Unsaved.\n")
    owner.dialogs.clear()
    owner.agrees = False
    owner.click(owner.node("main a", "The page"), quiet=True)
    scene.check("who leaves unsaved text is asked, and may stay", owner.dialogs == ["beforeunload"] and owner.path() == "/edit/typed.md",
                (owner.dialogs, owner.path()))
    owner.agrees = True
    tab.has("who stays", first + more + "More.\nUnsaved.\n")
    owner.online(False)
    tab.says("without a network", f"Not done: no answer came. {KEPT}", "Save")
    owner.online(True)
    tab.says("with it again", "Saved.", "Save")
    owner.dialogs.clear()
    owner.click(owner.node("main a", "The page"))
    scene.check("what is saved may be left", owner.dialogs == [], owner.dialogs)
    look.at(owner, "the page", "/page/typed.md", "Typed")
    shown = ["Once.", "Twice: bold & \"quoted\", äöü €. More. Unsaved."]
    scene.check("the page shows it", owner.texts("main p") == shown, owner.texts("main p"))


def check_conflicts(look, owner, program):
    """Two tabs and a program on one page. Nobody takes away what they weren't shown."""
    program.puts("both.md", "Before.\n")
    one, other = Tab(look, owner, "both.md"), Tab(look, beside(look, owner), "both.md")
    one.writes("By one.\n")
    one.says("one", "Saved.", "Save")
    other.writes("By the other.\n", "staff")
    other.says("the other, too late", ANOTHER, "Save")
    other.has("the other, too late", "By the other.\n", "staff")
    other.shows("the other, too late", "By one.\n")
    program.stands("the other, too late", "both.md", "By one.\n")
    look.picture(other.window, "conflict", whole=True)
    other.says("in its place", "Saved.", "Save mine in its place")
    scene.check("in its place: nothing beside", not other.is_shown("#other"))
    program.stands("in its place", "both.md", "By the other.\n", "staff")
    one.adds("Again.\n")
    one.says("one, too late", ANOTHER, "Save")
    one.shows("one, too late", "By the other.\n", "staff")
    one.says("taken", "This is the page as it stands.", "Take it in place of mine")
    one.has("taken", "By the other.\n", "staff")
    program.stands("taken", "both.md", "By the other.\n", "staff")
    one.adds("And one.\n")
    one.says("behind that", "Saved.", "Save")
    program.stands("behind that", "both.md", "By the other.\nAnd one.\n", "staff")
    other.writes("Mine.\n")
    other.says("once more", ANOTHER, "Save")
    program.puts("both.md", "By a third.\n", "")
    other.says("a third between", ANOTHER, "Save mine in its place")
    other.shows("a third between", "By a third.\n", "")
    other.has("a third between", "Mine.\n", "staff")
    program.stands("a third between", "both.md", "By a third.\n", "")
    program.edits("/groups/both.md?groups=staff")
    other.says("groups alone between", ANOTHER, "Save mine in its place")
    other.shows("groups alone between", "By a third.\n", "staff")
    other.says("at last", "Saved.", "Save mine in its place")
    program.stands("at last", "both.md", "Mine.\n", "staff")
    one.says("a move of another page", ANOTHER, "Move")
    one.shows("a move of another page", "Mine.\n", "staff")
    one.window.dialogs.clear()
    one.says("a removal of another page", ANOTHER, "Delete this page")
    program.stands("neither moved nor removed", "both.md", "Mine.\n", "staff")
    other.close()


def check_moved_meanwhile(look, owner, program):
    """A page that moved while it was edited is saved where it stands now; one that went is made anew, or not."""
    program.puts("moving.md", "Here.\n")
    tab = Tab(look, owner, "moving.md")
    program.moves("moving.md", "new place/später.md")
    tab.writes("There.\n")
    tab.says("a page that moved", f"Not done: the page stands at new place/später.md now. {KEPT}", "Save")
    tab.shows("a page that moved", "Here.\n")
    tab.says("where it stands now", "Saved.", "Save mine in its place")
    program.stands("where it stands now", "new place/später.md", "There.\n")
    program.absent("the old path is an alias", "moving.md", 301)
    tab.adds("More.\n")
    tab.says("again there", "Saved.", "Save")
    program.stands("again there", "new place/später.md", "There.\nMore.\n")
    program.puts("going.md", "Here.\n")
    tab = Tab(look, owner, "going.md")
    program.removes("going.md")
    tab.writes("Still here.\n")
    tab.says("a page that is gone", GONE, "Save")
    tab.shows("a page that is gone", "", "")
    tab.has("a page that is gone", "Still here.\n")
    program.puts("going.md", "Another.\n")
    tab.says("made by a third", ANOTHER, "Save mine in its place")
    tab.shows("made by a third", "Another.\n")
    program.removes("going.md")
    tab.says("gone again", GONE, "Save mine in its place")
    tab.says("made anew", "Saved.", "Save mine in its place")
    program.stands("made anew", "going.md", "Still here.\n")
    program.removes("going.md")
    tab.says("gone once more", GONE, "Save")
    tab.says("let go", "This is the page as it stands.", "Take it in place of mine")
    tab.has("let go", "", "")
    program.absent("let go", "going.md")


def check_moves(look, owner, program):
    """Moves by the form: onto a page, to no path, and to one with a space and an umlaut."""
    program.puts("from.md", "# A page\n")
    program.puts("taken.md", "Taken.\n")
    tab = Tab(look, owner, "from.md")
    scene.check("the path stands in the form", owner.value("#to") == "from.md", owner.value("#to"))
    for goal, words in (("taken.md", "Conflict: a page stands at to"), ("from.md", "Conflict: a page stands at to"),
                        ("a/../b.md", "Bad Request: to is no path of a page"), ("", "Bad Request: to is no path of a page")):
        owner.write(owner.node("#to"), goal)
        tab.says(f"a move to '{goal}'", f"Not done: {words}. {KEPT}", "Move")
    look.picture(owner, "move-refused", whole=True)
    program.stands("not moved", "from.md", "# A page\n")
    program.stands("not taken", "taken.md", "Taken.\n")
    goal = "späte Seiten/a & b.md"
    owner.write(owner.node("#to"), goal)
    tab.adds("Unsaved.\n")
    tab.says("with unsaved text", "Save first.", "Move")
    program.stands("with unsaved text", "from.md", "# A page\n")
    tab.says("saved first", "Saved.", "Save")
    tab.leaves_by("Move")
    look.at(owner, "moved", "/edit/" + quoted(goal), f"Edit {goal}", goal, scripts=1)
    program.stands("moved", goal, "# A page\nUnsaved.\n")
    program.absent("moved: an alias", "from.md", 301)
    tab.adds("Behind.\n")
    tab.says("behind a move", "Saved.", "Save")
    program.stands("behind a move", goal, "# A page\nUnsaved.\nBehind.\n")
    owner.go(look.base + "/edit/from.md")
    scene.check("the form of an alias", owner.path() == "/edit/" + quoted(goal), owner.path())


def check_new(look, owner, program):
    """Pages that are begun: by `/edit/`, by a folder's link, by a link that is broken, and where there is none."""
    base = look.base
    owner.go(base + "/contents")
    owner.click(owner.node(".tools a", "New page"))
    look.at(owner, "a new page", "/edit/", "New page", scripts=1)
    look.picture(owner, "new")
    owner.click(owner.node("main button", "Begin"), quiet=True)
    scene.check("without a path nothing happens", owner.path() == "/edit/", owner.path())
    owner.write(owner.node("#path"), "made by/hand & foot.md")
    owner.loaded(lambda: owner.press("Enter"))
    look.at(owner, "begun", "/edit/made%20by/hand%20%26%20foot.md", "Edit made by/hand & foot.md", "made by/hand & foot.md", scripts=1)
    tab = Tab(look, owner, "made by/hand & foot.md")
    tab.has("a new page", "", "")
    scene.check("nothing stands there to move", not tab.is_shown("#stands"))
    tab.writes("# By hand\n")
    tab.says("a new page", "Saved.", "Save")
    scene.check("it stands now", tab.is_shown("#stands"))
    program.stands("a new page", "made by/hand & foot.md", "# By hand\n", "")
    tab.writes("# By hand\n", "staff")
    tab.says("for a group", "Saved.", "Save")
    program.stands("for a group", "made by/hand & foot.md", "# By hand\n", "staff")
    owner.go(base + "/contents/guide/")
    owner.click(owner.node(".tools a", "New page"))
    look.at(owner, "in a folder", "/edit/guide/", "New page", scripts=1)
    scene.check("the folder stands in the form", owner.value("#path") == "guide/", owner.value("#path"))
    owner.go(base + "/page/made%20by/never.md")
    look.at(owner, "no page", "/page/made%20by/never.md", "Not found")
    owner.click(owner.node("main a", "New page"))
    look.at(owner, "begun where there is none", "/edit/made%20by/never.md", "Edit made by/never.md", "made by/never.md", scripts=1)
    tab, other = Tab(look, owner, "made by/never.md"), Tab(look, beside(look, owner), "made by/never.md")
    tab.writes("First.\n", "staff")
    tab.says("the first of two", "Saved.", "Save")
    other.writes("Second.\n")
    other.says("the second of two", ANOTHER, "Save")
    other.shows("the second of two", "First.\n", "staff")
    program.stands("the second of two", "made by/never.md", "First.\n", "staff")
    other.close()
    owner.go(base + "/broken")
    owner.click(owner.node(".broken a", "New page"))
    look.at(owner, "by a broken link", "/edit/guide/never.md", "Edit guide/never.md", "guide/never.md", scripts=1)
    for path in ("/edit/a//b.md", "/edit/a%3Fb.md", "/edit/..%2Fa.md", "/edit/a/%00/"):
        owner.go(base + path)
        look.at(owner, f"no path: {path}", path, "Not found")


def check_removal(look, owner, program):
    """A removal is asked about."""
    program.puts("last.md", "Last.\n")
    tab = Tab(look, owner, "last.md")
    owner.dialogs.clear()
    owner.agrees = False
    tab.says("a removal that isn't meant", "", "Delete this page")
    scene.check("it is asked about", owner.dialogs == ["Delete this page, with its aliases?"], owner.dialogs)
    program.stands("a removal that isn't meant", "last.md", "Last.\n")
    owner.agrees = True
    tab.leaves_by("Delete this page")
    look.at(owner, "removed", "/contents", "Contents")
    program.absent("removed", "last.md")


def check_groups(look, owner, program):
    """Groups that are none, and those that are kept."""
    program.puts("groups.md", "Text.\n")
    tab = Tab(look, owner, "groups.md")
    many = ",".join(f"g{number}" for number in range(33))
    for groups, words in (("Staff", "groups has a name that is none"), ("staff,,public", "groups has a name that is none"),
                          (many, "groups has more than 32 names")):
        tab.writes("Other.\n", groups)
        tab.says(f"groups {groups}", f"Not done: Bad Request: {words}. {KEPT}", "Save")
        tab.has(f"groups {groups}", "Other.\n", groups)
        look.picture(owner, "groups-refused", whole=True)
    program.stands("groups that are none", "groups.md", "Text.\n")
    tab.writes("Other.\n", " staff , ops ")
    tab.says("groups with spaces", "Saved.", "Save")
    program.stands("groups with spaces", "groups.md", "Other.\n", "ops,staff")
    tab.adds("More.\n")
    tab.says("groups that stay", "Saved.", "Save")
    program.stands("groups that stay", "groups.md", "Other.\nMore.\n", "ops,staff")
    program.edits("/source/groups.md", text="By a program.\n")
    program.stands("a program that names none", "groups.md", "By a program.\n", "ops,staff")


def nothing_ran(name, window, path, asked):
    """Neither script nor refresh, frame, form or foreign address did anything, and all that was asked for is the site's own."""
    scene.check(f"{name}: no script ran", "RAN" not in window.title() and not window.dialogs, (window.title(), window.dialogs))
    scene.check(f"{name}: nobody else was asked", Elsewhere.asked == [], Elsewhere.asked)
    scene.check(f"{name}: it stands where it stood", window.path() == path, window.path())
    strange = [each for each in window.requests if not re.match(asked, " ".join(each))]
    scene.check(f"{name}: nothing else was asked for", not strange, strange)


def check_preview(look, owner, program, address):
    """A preview of a text that tries all that HTML can do. It has the style sheet, and does nothing."""
    program.puts("hostile.md", "Before.\n")
    program.puts("sheet.md", "main { display: none } body { background: rgb(1, 2, 3) !important }\n")
    tab = Tab(look, owner, "hostile.md")
    text = ('<p><a id="top" href="/page/index.md" target="_top">top</a> <a id="blank" href="/page/index.md" target="_blank">blank</a></p>'
            "\n\n[parts](guide/parts.md) and [nothing](never.md)\n\n"
            '<div><link rel="stylesheet" href="/source/sheet.md"><link rel="stylesheet" href="/page/sheet.md"></div>\n\n'
            + hostile(address))
    opened = set(look.browser.opened)
    asked = (r"POST http://[^/]*/preview/hostile\.md$|GET http://[^/]*/(style\.css\?|(source|page)/sheet\.md$|no/such/picture$|edit/x$)"
             rf"|GET (data:|https://{HOST}:1/)")
    owner.ask("DOM.focus", nodeId=owner.node("#text"))
    owner.press("Control+A")
    owner.ask("Input.insertText", text=text)
    owner.requests.clear()
    owner.dialogs.clear()
    tab.presses("Preview")
    scene.check("a preview is shown", owner.until(lambda: owner.nodes("article h1", frame="#shown")) and tab.is_shown("#shown"))
    owner.quietly(lambda: None, 2)
    nothing_ran("preview", owner, "/edit/hostile.md", asked)
    check_frame(look, owner)
    for clicked in ("#js", "#ping", "#send", "#own-button", "#other", "#image", "#top", "#blank", "#inside", "article > p > a[href]"):
        nodes = owner.nodes(clicked, frame="#shown")
        scene.check(f"preview: {clicked} is there", len(nodes) > 0)
        for node in nodes[:1]:
            owner.click(node, quiet=True)
        nothing_ran(f"preview, {clicked} clicked", owner, "/edit/hostile.md", asked)
        if not owner.nodes("article", frame="#shown"):
            tab.presses("Preview")
            owner.until(lambda: owner.nodes("article h1", frame="#shown"))
    scene.check("no window was opened", look.browser.opened == opened)
    scene.check("what was typed stays", owner.value("#text") == text)
    program.stands("a preview keeps nothing", "hostile.md", "Before.\n")
    tab.says("hostile text", "Saved.", "Save")
    program.stands("hostile text", "hostile.md", text)
    owner.requests.clear()
    owner.go(look.base + "/source/hostile.md")
    owner.quietly(lambda: None, 1)
    nothing_ran("the source", owner, "/source/hostile.md", r"GET http://[^/]*/(source/hostile.md|favicon.ico)$")
    scene.check("the source is shown as text", owner.texts("body > pre")[0].startswith("<p><a id=\"top\""), owner.texts("body > pre")[:1])
    Tab(look, owner, "hostile.md").has("hostile text, opened", text)
    nothing_ran("hostile text, opened", owner, "/edit/hostile.md",
                r"GET (http://[^/]*/(source/hostile.md|edit/hostile.md|style.css\?|favicon)|data:)")


def check_frame(look, owner):
    """The preview has the sheet's styles and none of its own, and no form."""
    node = owner.nodes(".frame.bare", frame="#shown")[0]
    scene.check("the preview has the style sheet", owner.style(node)["max-width"] == "704px", owner.style(node)["max-width"])
    for selector, name, forbidden in (("main", "display", "none"), ("#hostile-words", "color", "rgb(1, 2, 3)"),
                                      ("body", "background-color", "rgb(1, 2, 3)")):
        scene.check(f"no style of its own: {name} of {selector}", owner.style(owner.nodes(selector, frame="#shown")[0])[name] != forbidden)
    scene.check("no form and no frame", not owner.nodes("form, iframe, nav, header", frame="#shown"))
    links = [owner.ask("DOM.getAttributes", nodeId=node)["attributes"] for node in owner.nodes("article > p > a", frame="#shown")]
    scene.check("links as the page would have them", ["href", "/page/guide/parts.md"] in links and ["class", "missing"] in links, links)
    owner.ask("DOM.scrollIntoViewIfNeeded", nodeId=owner.node("#shown"))
    look.picture(owner, "preview-hostile")


def check_texts(look, owner, program):
    """Texts that would end their field, or that a field would change: what is opened and saved is what was there."""
    texts = ["</textarea><script>document.title='RAN';alert(1)</script>\n", "</TEXTAREA ><img src=x onerror=\"document.title='RAN'\">",
             "\n\n# Behind line ends\n", "\n", "", "&lt;b&gt; &amp; &#65; <!-- \n", "<plaintext>\n]]>\n\n\n",
             "a\u2028b\u00a0c\ufeffd \U0001f600 \ufffd\n"]
    for number, text in enumerate(texts):
        program.puts(f"texts/{number}.md", text)
        tab = Tab(look, owner, f"texts/{number}.md")
        owner.quietly(lambda: None, 0.2)
        tab.has(f"text {number}", text)
        scene.check(f"text {number}: nothing ran", "RAN" not in owner.title() and not owner.dialogs, (owner.title(), owner.dialogs))
        tab.presses("Preview")
        owner.until(lambda: owner.nodes("article", frame="#shown"))
        scene.check(f"text {number}: nothing ran in its preview", "RAN" not in owner.title() and not owner.dialogs)
        tab.adds(".")
        tab.says(f"text {number}", "Saved.", "Save")
        program.stands(f"text {number}", f"texts/{number}.md", text + ".")
    program.puts("texts/ends.md", "a\r\nb\rc\x00\n")
    tab = Tab(look, owner, "texts/ends.md")
    tab.has("other line ends", "a\nb\nc\ufffd\n")
    scene.check("other line ends: no change", owner.dialogs == [])
    program.stands("other line ends stay where nothing is saved", "texts/ends.md", "a\r\nb\rc\x00\n")


def check_paths(look, owner, program):
    """Paths that would end an attribute, or be taken for HTML."""
    for path in ("\"><script>document.title='RAN';alert(1)</script>.md", "'\"><img src=x onerror=alert(1)>.md", "&quot;&amp;&lt;b&gt;.md",
                 "<!--.md", "javascript:alert(1).md", "a+b=c&groups=public;d.md", "ﬁ ‮.md"):
        owner.dialogs.clear()
        program.puts(path, "Text.\n")
        tab = Tab(look, owner, path)
        owner.quietly(lambda: None, 0.2)
        scene.check(f"{path}: the heading", owner.texts("main h1") == [" ".join(path.split())], owner.texts("main h1"))
        scene.check(f"{path}: the title", owner.title() == " ".join(f"Edit {path} · {TITLE}".split()), owner.title())
        scene.check(f"{path}: the new path", owner.value("#to") == path, owner.value("#to"))
        tab.adds("More.\n")
        tab.says(path, "Saved.", "Save")
        program.stands(path, path, "Text.\nMore.\n")
        tab.presses("Preview")
        owner.until(lambda: owner.nodes("article", frame="#shown"))
        scene.check(f"{path}: its preview", owner.texts("article h1", frame="#shown") == [" ".join(path.split())])
        owner.write(owner.node("#to"), "moved/" + path)
        tab.leaves_by("Move")
        scene.check(f"{path}: moved", urllib.parse.unquote(owner.path()) == "/edit/moved/" + path, owner.path())
        program.stands(f"{path}, moved", "moved/" + path, "Text.\nMore.\n")
        owner.go(f"{look.base}/page/{quoted('never/' + path)}")
        found = owner.texts("main p code")
        scene.check(f"{path}: where there is none", found == ["never/" + " ".join(path.split())], found)
        owner.click(owner.node("main a", "New page"))
        scene.check(f"{path}: begun", owner.path() == "/edit/" + quoted("never/" + path), owner.path())
        scene.check(f"{path}: nothing ran", owner.title() == " ".join(f"Edit never/{path} · {TITLE}".split()) and not owner.dialogs,
                    (owner.title(), owner.dialogs))


def check_reload(look, owner, program):
    """A reload shows the new text beside the new tag, whatever was typed before."""
    program.puts("again.md", "Before.\n")
    tab = Tab(look, owner, "again.md")
    tab.writes("Typed.\n", "ops")
    program.puts("again.md", "Another.\n", "staff")
    owner.dialogs.clear()
    owner.reload()
    scene.check("a reload is asked about", owner.dialogs == ["beforeunload"], owner.dialogs)
    tab.has("reloaded", "Another.\n", "staff")
    found = owner.attributes("#edit")[0]["data-tag"]
    scene.check("reloaded: the tag", found == tag_of("Another.\n", "staff"), found)
    tab.adds("More.\n")
    tab.says("reloaded", "Saved.", "Save")
    program.stands("reloaded", "again.md", "Another.\nMore.\n", "staff")


def check_back(name, look, owner, program, remembers):
    """Back: the typed text beside its old tag, where the browser remembers the page; else a text beside its own tag. Either is a conflict,
    or what stands."""
    program.puts("back.md", "Before.\n")
    tab = Tab(look, owner, "back.md")
    tab.writes("Typed.\n", "ops")
    owner.click(owner.node("main a", "The page"))
    look.at(owner, f"{name}: left", "/page/back.md", "back.md")
    program.puts("back.md", "Another.\n", "staff")
    owner.back()
    scene.check(f"{name}: back", owner.path() == "/edit/back.md", owner.path())
    text, groups, tag = owner.value("#text"), owner.value("#groups"), owner.attributes("#edit")[0]["data-tag"]
    if remembers:
        wanted = "Typed.\n", "ops", tag_of("Before.\n", BOTH)
        scene.check(f"{name}: what was typed, beside its old tag", (text, groups, tag) == wanted, (text, groups, tag))
    else:
        scene.check(f"{name}: a text beside its own tag", tag == tag_of(text, groups), (text, groups, tag))
    tab.writes("Typed again.\n", "ops")
    tab.presses("Save")
    if tag == tag_of("Another.\n", "staff"):
        program.stands(f"{name}: it was the new one", "back.md", "Typed again.\n", "ops")
    else:
        tab.says(f"{name}: a conflict", ANOTHER)
        tab.shows(f"{name}: a conflict", "Another.\n", "staff")
        program.stands(f"{name}: a conflict", "back.md", "Another.\n", "staff")
    print(f"{name}: back showed {text!r} beside the tag of "
          f"{'the old text' if tag == tag_of('Before.' + chr(10), BOTH) else 'the new one'}", flush=True)


def check_no_scripts(look, owner, program, log):
    """Without scripts nothing is sent, and the source is a link."""
    program.puts("plain.md", "Plain.\n")
    mark = log.mark()
    owner.scripts(False)
    tab = Tab(look, owner, "plain.md")
    buttons = owner.attributes("main form button")
    scene.check("buttons do nothing", all("disabled" in each for each in buttons), buttons)
    owner.write(owner.node("#text"), "Typed.\n")
    for label in ("Save", "Preview", "Move", "Delete this page"):
        owner.click(owner.node("main button", label), quiet=True, seconds=0.2)
    for name in ("#groups", "#to"):
        owner.ask("DOM.focus", nodeId=owner.node(name))
        owner.press("Enter")
        owner.quietly(lambda: None, 0.2)
    tab.has("without scripts", "Typed.\n")
    scene.check("without scripts it stands where it stood", owner.path() == "/edit/plain.md", owner.path())
    look.picture(owner, "no-scripts", whole=True)
    owner.click(owner.node("main noscript a", "the source"))
    scene.check("the source", owner.path() == "/source/plain.md" and owner.texts("pre") == ["Plain."], (owner.path(), owner.texts("pre")))
    owner.go(look.base + "/edit/")
    owner.write(owner.node("#path"), "x.md")
    owner.press("Enter")
    owner.click(owner.node("main button", "Begin"), quiet=True)
    said = owner.text_of(owner.node("main noscript"))
    scene.check("nor is a page begun", owner.path() == "/edit/" and "behind /edit/ in the address" in said, (owner.path(), said))
    owner.scripts(True)
    asked = {(each[0], each[1]) for each in log.since(mark) if each[1] != "/favicon.ico"}
    wanted = {("GET", "/edit/plain.md"), ("GET", "/source/plain.md"), ("GET", "/edit/"), ("GET", "/style.css")}
    scene.check("nothing else was sent", asked | {("GET", "/style.css")} == wanted, asked)
    program.stands("without scripts", "plain.md", "Plain.\n")


def check_large(look, owner, program):
    """A page of nearly a million bytes is saved byte for byte; one that is too long isn't sent."""
    text = "".join(f"Line {number} of a long page, with <, & and ä.\n" for number in range(21_000))
    program.puts("large.md", text)
    tab = Tab(look, owner, "large.md")
    owner.ask("DOM.focus", nodeId=owner.node("#groups"))
    owner.press("End")
    owner.keys(",ops")
    tab.says("a large page", "Saved.", "Save")
    program.stands(f"a page of {len(text.encode())} bytes", "large.md", text, "ops," + BOTH)
    program.puts("larger.md", "a" * MOST)
    tab = Tab(look, owner, "larger.md")
    tab.says("as many bytes as there may be", "Saved.", "Save")
    owner.ask("DOM.focus", nodeId=owner.node("#text"))
    owner.press("End")
    owner.keys("b")
    tab.says("one more", f"Not done: the text has more than {MOST} bytes.", "Save")
    program.stands("one more", "larger.md", "a" * MOST)
    close_unsaved(owner, look)


def close_unsaved(window, look):
    """Leaves a page whose text isn't saved."""
    window.agrees = True
    window.go(look.base + "/contents")
    window.dialogs.clear()


COLOURS = (("main p",), ("main h1",), ("#text",), ("#groups",), ("#to",), ("#path",), ("#said",), ("main button",), ("main p a",),
           ("#other h2",), ("#theirs",), ("#their-groups",), (".over .tools a",), ("footer .tools a",))


def check_looks(look, owner, program):
    """Widths and colours, and the accessibility tree, of the form as it comes, in a conflict with a preview beside, and of a new page."""
    path = "guide/" + "long-" * 20 + "name.md"
    text = "# A heading\n\n" + "Many words. " * 30 + "\n\n" + "w" * 300 + "\n"
    program.puts(path, text)
    tab = Tab(look, owner, path)
    look.fits(owner, "form", COLOURS, whole=True)
    roles = look.landmarks(owner, "form", ["banner", "search", "navigation", "main", "contentinfo", "status"])
    named = {each[:2] for each in roles}
    for each in (("textbox", "Text"), ("textbox", "Groups"), ("textbox", "New path"), ("button", "Save"), ("button", "Preview"),
                 ("button", "Move"), ("button", "Delete this page"), ("link", "The page")):
        scene.check(f"form: {each[0]} {each[1]}", each in named, sorted(named))
    scene.check("form: nothing of a conflict", not [each for each in named if each[1] == "As it stands"])
    program.puts(path, text + "More.\n")
    tab.adds("Mine.\n")
    tab.says("looks", ANOTHER, "Save")
    tab.presses("Preview")
    owner.until(lambda: owner.nodes("article", frame="#shown"))
    tab.says("looks", ANOTHER, "Save")
    look.fits(owner, "conflict", COLOURS, whole=True)
    roles = look.landmarks(owner, "conflict", ["main", "status"])
    named = {each[:2] for each in roles}
    for each in (("heading", "As it stands"), ("textbox", "As it stands"), ("button", "Save mine in its place"),
                 ("button", "Take it in place of mine"), ("Iframe", "Preview")):
        scene.check(f"conflict: {each[0]} {each[1]}", each in named, sorted(named))
    unnamed = [each for each in roles if each[0] in ("textbox", "searchbox", "button", "link", "Iframe", "navigation") and not each[1]]
    scene.check("conflict: all have names", not unnamed, unnamed)
    close_unsaved(owner, look)
    owner.go(look.base + "/edit/guide/")
    look.fits(owner, "new", COLOURS, whole=True)
    roles = look.landmarks(owner, "new", ["banner", "search", "navigation", "main"])
    scene.check("new: its field", {("textbox", "Path"), ("button", "Begin")} <= {each[:2] for each in roles}, roles)


def check_off(folder):
    """Where the configuration says so, there is no form."""
    put("off.toml", SITE.replace('login = "basic"', 'login = "basic"\nediting = false'))
    server = scene.listen("off.toml")
    look = Look(scene, server, folder, TITLE)
    owner = look.browser.window()
    owner.looks()
    owner.asked_to_sign_in(("Ann", OWNER))
    owner.go(look.base + "/sign-in")
    owner.as_ever()
    for path, title in (("/edit/index.md", "Not found"), ("/edit/", "Not found"), ("/source/index.md", "Not found"),
                        ("/page/never.md", "Not found"), ("/page/guide/index.md", "The guide"), ("/broken", "Broken links")):
        owner.go(look.base + path)
        look.at(owner, f"off: {path}", path, title)
        scene.check(f"off: no tools at {path}", not owner.nodes(".tools, main a[href^='/edit']"))
    look.browser.end()
    scene.ends(server, "off")


def check_remembered(look, server, program):
    """A browser that keeps a page which is left as it was, for Back."""
    keeps = Look(scene, server, look.folder, TITLE, forgets_windows=False)
    owner = keeps.browser.window()
    owner.looks()
    owner.asked_to_sign_in(("Ann", OWNER))
    owner.go(keeps.base + "/sign-in")
    owner.as_ever()
    check_back("a browser that remembers", keeps, owner, program, True)
    keeps.browser.end()


def check_journal(program, server, log):
    """A server that starts on the journal has all of it."""
    before = program.all()
    log.since(0)
    status = server.end()
    scene.check("the end", status == 0, status)
    again = scene.listen("site.toml", journal="journal")
    after = Program(scene.check, again.port, OWNER).all()
    wrong = [path for path in {*before, *after} if before.get(path) != after.get(path)]
    scene.check("a start on the journal has what was saved", not wrong, wrong)
    print(f"{len(after)} pages stand", flush=True)
    scene.ends(again, "on the journal")


def main():
    port = elsewhere()
    address = f"http://{HOST}:{port}"
    put("site.toml", SITE)
    server = scene.listen("site.toml", journal="journal", options=["--log"])
    program, log = Program(scene.check, server.port, OWNER), Log(scene.check, server)
    look = Look(scene, server, tempfile.mkdtemp(prefix="editing-"), TITLE)
    print(f"{look.browser.version}: screenshots in {look.folder}", flush=True)
    check_heads(program)
    owner = look.browser.window()
    owner.looks()
    cases = [(check, ()) for check in (check_signing_in, check_reader, check_saves, check_conflicts, check_moved_meanwhile, check_moves,
                                       check_new, check_removal, check_groups)]
    cases += [(check_preview, (address,)), (check_texts, ()), (check_paths, ()), (check_reload, ())]
    cases += [(check_no_scripts, (log,)), (check_large, ()), (check_looks, ())]
    cases += [(check_other_site, (log, each)) for each in (address, f"http://localhost:{port}")]
    for check, more in cases:
        try:
            check(look, owner, program, *more)
        except Failed as failed:
            scene.check(check.__name__, False, failed)
    check_back("a browser that forgets", look, owner, program, False)
    look.browser.end()
    check_remembered(look, server, program)
    check_journal(program, server, log)
    check_off(look.folder)


scene.run(main)
