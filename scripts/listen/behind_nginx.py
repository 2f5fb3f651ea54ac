"""Serves the handbook in site/ by `listen` behind stock nginx, set up by site/nginx.conf.template: TLS, a login at the proxy, a bearer
token behind. curl, wget and chromium read it through nginx:

- each page of site/config.toml is there for the readers who may see it, with the bytes that the server sends, and for the others it is
  answered with the very bytes of a page that doesn't exist;
- wget and chromium follow the links, and find what curl finds;
- a PUT and a DELETE by the owner are seen by another reader at the next GET;
- chromium is shown the pages for people, and `/` leads it to the first one; each reply with HTML has one policy, and each one
  Cache-Control, with the table `[browse]` and without it;
- nobody gets in without the login, and a token of one's own doesn't go through;
- the server ends in order when the pipe on its standard input is closed.

    python3 scripts/listen/behind_nginx.py PROGRAM

Builds nothing. Needs python3, openssl, and nginx, curl, wget and chromium, which it has installed where they lack. Half a minute.
"""
import glob, os, re, sys, tomllib, urllib.parse
sys.path.insert(1, os.path.dirname(__file__) + "/../lib")
from proxies import Nginx, fields, keys, run
from scene import Client, Scene, put, read_by_all

scene = Scene(seconds=300, needs=["nginx=nginx-light", "curl", "wget", "chromium", "openssl"], at_top=True)
LINK = re.compile(r'href="(/page/[^"#]*)')
PERSON = ("--header", "Accept: text/html,*/*;q=0.8")


class Proxy(Nginx):
    """nginx in front of a server, and what wget and chromium read through it."""

    def browsed(self, who, target):
        """The document as chromium has it, once it is loaded."""
        address = self.base.replace("https://", f"https://{who}:secret-{who}@") + target
        done = run(scene, "chromium", "--headless=new", "--no-sandbox", "--disable-gpu", "--disable-dev-shm-usage",
                   "--ignore-certificate-errors", "--no-first-run", "--disable-background-networking", "--disable-component-update",
                   f"--user-data-dir={scene.scratch}/profile", "--virtual-time-budget=2000", "--dump-dom", address, seconds=60)
        return done.stdout.decode(errors="replace")

    def wget(self, who, target):
        """One document by wget."""
        words = ("wget", "-q", "-O", "-", "--ca-certificate=cert", f"--user={who}", f"--password=secret-{who}", self.base + target)
        return run(scene, *words).stdout

    def copied(self, who, target):
        """All that wget finds behind a page: a folder, and the targets of its files."""
        folder = f"{scene.scratch}/wget-{who}"
        run(scene, "wget", "--quiet", "--recursive", "--level=inf", "--execute", "robots=off", "--ca-certificate=cert",
            "--auth-no-challenge", f"--user={who}", f"--password=secret-{who}", "--no-host-directories", f"--directory-prefix={folder}",
            self.base + target)
        return folder, {"/" + os.path.relpath(os.path.join(at, name), folder) for at, _, names in os.walk(folder) for name in names}


def reached(fetch, links_of):
    """The pages that links lead to from the first one."""
    found, left = set(), ["/page/index.md"]
    while left:
        target = left.pop()
        if target not in found:
            found.add(target)
            left += links_of(fetch(target))
    return found


def of_folders(rows):
    """The pages of folders, as rows of the configuration's pages."""
    return [{"path": f"{row['prefix']}/{os.path.relpath(file, row['path'])}", "groups": row["groups"]}
            for row in rows for file in glob.glob(f"{row['path']}/**/*.md", recursive=True)]


def pages_seen(proxy, reader, pages, direct):
    """Every page that the reader may see, and none else; those that they may."""
    who, groups, seen = reader["token"].removeprefix("tok-"), reader.get("groups", []), set()
    absent = proxy.curl(who, "/page/never.md"), direct.ask("/page/never.md")
    for page in pages:
        target = "/page/" + urllib.parse.quote(page["path"])
        code, lines, body = proxy.curl(who, target)
        there = direct.ask(target)
        if who == "owner" or set(groups) & set(page["groups"]):
            seen.add(target)
            scene.check(f"{who} {target}", code == 200 and body == there[2] and body.startswith(b"<!DOCTYPE html>"), code)
        else:
            scene.check(f"{who} {target} is as if absent", 404 == code and (code, lines, body) == absent[0] and there == absent[1])
    return seen


def pages_walked(proxy, who, seen, direct):
    """The pages that links lead to, by curl and by wget."""
    walked = reached(lambda target: proxy.curl(who, target)[2].decode(), LINK.findall)
    scene.check(f"{who}: links lead to pages that they see", walked <= seen, walked - seen)
    folder, copied = proxy.copied(who, "/page/index.md")
    scene.check(f"{who}: wget follows the links", copied == walked, copied ^ walked)
    for target in copied & walked:
        with open(folder + target, "rb") as file:
            scene.check(f"{who} {target} by wget", file.read() == direct.ask(target)[2])
    return walked


def check_browser(proxy, who, seen, site):
    """The browser follows the links too, those of the navigation among them: the first page, and three that it goes to from there."""
    first = proxy.browsed(who, "/")
    links = sorted(set(LINK.findall(first)))
    scene.check(f"{who}: chromium has links to pages that they see", links and set(links) <= seen, links)
    for target in ["/page/index.md", *links[:3]]:
        title = re.search(r"<title>(.*?)</title>", proxy.curl(who, target)[2].decode())[1]
        shown = first if target == "/page/index.md" else proxy.browsed(who, target)
        scene.check(f"{who}: chromium at {target}", f"<title>{title} · {site}</title>" in shown)


def check_heads(name, curl, with_browse):
    """HTML that docs_server sends has one policy; every reply has one Cache-Control, which is docs_server's own where it has one."""
    for words in ((), PERSON):
        for target in ("/page/index.md", "/contents", "/broken", "/search?q=incident", "/page/never.md", "/", "/style.css"):
            code, lines, _ = curl("ann", target, *words)
            is_html = fields(lines, "Content-Type")[0].startswith("text/html")
            scene.check(f"{name}, {target} {words}: policies", len(fields(lines, "Content-Security-Policy")) == is_html, lines)
            sheet = with_browse and target == "/style.css"
            wanted = ["public, max-age=86400" if sheet else "private, no-cache"]
            scene.check(f"{name}, {target} {words}: Cache-Control", fields(lines, "Cache-Control") == wanted, lines)
            scene.check(f"{name}, {target} {words}: its type", not (words and with_browse) or is_html or sheet, (code, lines))


def check_plain():
    """The same proxy before a server without pages for people."""
    put(f"{scene.scratch}/plain.toml", read_by_all("site/config.toml"))
    server = scene.listen(f"{scene.scratch}/plain.toml")
    proxy = Proxy(scene, server.port)
    try:
        scene.check("nginx before a server without [browse]", proxy.begins())
        check_heads("without [browse]", proxy.curl, False)
    finally:
        proxy.ends()
    scene.ends(server, "the server without [browse]")


def check_edits(proxy):
    """What the owner writes the others see at their next GET."""
    curl, text = proxy.curl, "# Fresh\n\nBy the owner, with a [link](index.md).\n"
    code = curl("owner", "/page/fresh.md?groups=ops", "--request", "PUT", "--data-binary", text)[0]
    scene.check("a PUT by the owner", code == 201, code)
    body = curl("bob", "/page/fresh.md")[2]
    wanted = b'<h1 id="fresh">Fresh</h1>\n<p>By the owner, with a <a href="/page/index.md">link</a>.</p>\n'
    scene.check("the other reader sees it", body.endswith(wanted), body)
    scene.check("wget sees it", proxy.wget("bob", "/page/fresh.md") == body)
    scene.check("chromium sees it", '<h1 id="fresh">Fresh</h1>' in proxy.browsed("bob", "/page/fresh.md"))
    scene.check("one of another group doesn't", curl("ann", "/page/fresh.md") == curl("ann", "/page/never.md"))
    scene.check("a PUT by a reader is refused", curl("bob", "/page/fresh.md", "--request", "PUT", "--data-binary", "x")[0] == 403)
    scene.check("a second PUT", curl("owner", "/page/fresh.md?groups=ops", "--request", "PUT", "--data-binary", "Second.\n")[0] == 204)
    scene.check("is seen", b"<p>Second.</p>" in curl("bob", "/page/fresh.md")[2])
    scene.check("a DELETE", curl("owner", "/page/fresh.md", "--request", "DELETE")[0] == 204)
    scene.check("is seen too", curl("bob", "/page/fresh.md") == curl("bob", "/page/never.md"))
    put(f"{scene.scratch}/large", "a" * 2_097_152)
    scene.check("2 MiB are refused", curl("owner", "/page/large.md", "--request", "PUT", "--data-binary", "@large")[0] == 413)


def check_logins(curl):
    scene.check("without a login", curl("", "/page/index.md")[0] == 401)
    scene.check("with a wrong one", curl("", "/page/index.md", "--user", "ann:wrong")[0] == 401)
    scene.check("with a token of one's own", curl("", "/page/index.md", "--header", "Authorization: Bearer tok-owner")[0] == 401)
    scene.check("a login without a token", curl("eve", "/page/index.md")[0] == 401)
    code, lines, _ = curl("ann", "/", *PERSON)
    scene.check("the first page", (code, fields(lines, "Location")) == (301, ["/page/index.md"]), lines)
    scene.check("programs have none", curl("ann", "/")[0] == 404)


def main():
    keys(scene)
    with open("site/config.toml", "rb") as file:
        config = tomllib.load(file)
    server = scene.listen("site/config.toml")
    proxy = Proxy(scene, server.port)
    try:
        if not proxy.begins():
            sys.exit("nginx doesn't listen")
        check_logins(proxy.curl)
        for reader in config["reader"]:
            who, direct = reader["token"].removeprefix("tok-"), Client(server.port, reader["token"])
            seen = pages_seen(proxy, reader, config["page"] + of_folders(config["folder"]), direct)
            pages_walked(proxy, who, seen, direct)
            check_browser(proxy, who, seen, config["browse"]["title"])
            direct.close()
        check_heads("with [browse]", proxy.curl, True)
        check_edits(proxy)
    finally:
        proxy.ends()
    scene.ends(server, "the pipe closed")
    check_plain()


scene.run(main)
