"""Serves the handbook in site/ over loopback, and compares whole replies with those that docs/HTTP.md and docs/SITE.md ask for, written
here by hand. One process of curl for each reader, with all its requests over one kept connection.

    python3 scripts/site/serve_site.py PROGRAM [PORT]

Builds nothing: PROGRAM is crates/docs_server/out/docs_server, or any other build. Needs curl. Takes a few seconds, and listens at
127.0.0.1:PORT, 8350 if left out.
"""
import difflib, os, subprocess, sys
sys.path.insert(1, os.path.dirname(__file__) + "/../lib")
from scene import HOST, Scene, got, start

scene = Scene(seconds=120, numbers=(8350,), at_top=True, told=None)
CONFIG = "site/config.toml"
SHOWN, MISSING = '<a href="/page/ops/index.md">', '<a class="missing">'


# ---- the program, and its readers

class Serving:
    """`serve` for so many connections in so many passes, once it has told its address."""

    def __init__(self, count, turns):
        self.address, self.fault = f"{HOST}:{scene.numbers[0]}", scene.scratch + "/fault"
        with open(self.fault, "wb") as fault:
            words = [scene.program, "serve", CONFIG, self.address, str(count), str(turns)]
            self.process = start(words, stdout=subprocess.PIPE, stderr=fault)
        self.told = self.process.stdout.readline()
        if not self.told:
            sys.exit(f"it didn't begin: {got(self.fault).decode()}")

    def finish(self):
        """It ends by itself, with status 0, and has printed nothing else."""
        self.told += self.process.stdout.read()
        status = self.process.wait()
        scene.check("it ends", status == 0, f"status {status}: {got(self.fault)}")
        scene.check("it tells its address alone", self.told == f"listening {self.address}\n".encode(), self.told)
        scene.check("it prints no fault", got(self.fault) == b"", got(self.fault))

    def asks(self, who, *requests):
        """curl, which asks for one reader on one connection; a request is TARGET, or METHOD TARGET, or METHOD TARGET BODY."""
        words = []
        for request in requests:
            method, target, *body = request.split(" ", 2) if " " in request else ("GET", request)
            words += ["--next"] if words else []
            words += ["--silent", "--show-error", "--max-time", "20", "--path-as-is", "-H", f"Authorization: Bearer {who}"]
            words += {"GET": ["--include"], "HEAD": ["--head"], "PUT": ["--include", "--request", "PUT", "--data-binary", *body]}.get(
                method, ["--include", "--request", method])
            words.append(f"http://{self.address}{target}")
        return start(["curl", *words], stdout=subprocess.PIPE)


def compare(who, curl, wanted):
    """The replies to a reader are those that were asked for."""
    found, wanted = curl.communicate()[0], b"".join(wanted)
    if scene.check(who, found == wanted, "other replies"):
        print(f"{who}: {wanted.count(b'HTTP/1.1 ')} replies as they should be", flush=True)
    else:
        lines = [it.decode(errors="replace").splitlines() for it in (wanted, found)]
        print("\n".join(difflib.unified_diff(*lines, "wanted", "found", lineterm="")), flush=True)


# ---- what is asked for

def reply(status, kind, body, field=""):
    head = f"HTTP/1.1 {status}\r\nContent-Type: text/{kind}; charset=utf-8\r\nContent-Length: {len(body)}\r\n"
    return (head + (field and field + "\r\n") + "\r\n").encode() + body


def html(text):
    return reply("200 OK", "html", text.encode())


def text(content):
    return reply("200 OK", "plain", content.encode())


def plain(status, field=""):
    """A reply whose body is its status."""
    return reply(status, "plain", f"{status}\n".encode(), field)


def head_of(whole):
    return whole[:whole.index(b"\r\n\r\n") + 4]


GLOSSARY = """<!DOCTYPE html>
<title>Glossary</title>
<h1 id="glossary">Glossary</h1>
<p>Words that we use in a sense of our own. Where a page explains one at length, it is linked.</p>
<h2 id="alert">Alert</h2>
<p>A message from a machine that something needs a person <strong>now</strong>. If it can wait until the
morning it isn't an alert but a ticket.</p>
<h2 id="deployment">Deployment</h2>
<p>A change made to what customers use. See <a href="/page/deploying.md">Deploying</a>, and what to do when it
was a mistake: <a href="/page/deploying.md#rollbacks">rolling back</a>.</p>
<h2 id="error-budget">Error budget</h2>
<p>How much may go wrong in a month before we stop building and start repairing: 0.1 percent
of all requests.</p>
<h2 id="incident">Incident</h2>
<p>Something that customers noticed, or would have noticed had they been awake. It ends with
a <a href="/page/incident-reviews.md">review</a>.</p>
<h2 id="on-call">On call</h2>
<p>Being the one whose phone rings. See <a href="/page/on-call.md">Being on call</a>.</p>
<h2 id="owner">Owner</h2>
<p>Of a page: who answers for it. Of this handbook: who may write every page of it.</p>
<h2 id="runbook">Runbook</h2>
<p>A page that says what to do when a certain alert rings, in steps that a tired person can
follow. They are {runbooks}kept together</a>.</p>
<h2 id="toil">Toil</h2>
<p>Work that a machine could do, that comes back, and that leaves nothing better than before.
We count it, because what is counted gets less.</p>
"""
NO_CONTENT = b"HTTP/1.1 204 No Content\r\n\r\n"
NOT_FOUND, FORBIDDEN = plain("404 Not Found"), plain("403 Forbidden")
UNAUTHORIZED = plain("401 Unauthorized", 'WWW-Authenticate: Bearer realm="docs"')
# two links are broken for the owner, who sees all pages
REPORT = "glossary.md\t2\tanchor\tdeploying.md#rollbacks\nholidays.md\t1\tpage\tcalendar.md\n"


def glossary(runbooks):
    """The page of the glossary, with the tag that begins the link to the runbooks."""
    return html(GLOSSARY.format(runbooks=runbooks))


# ---- the cases

def readers():
    """What one may not see is to that reader what isn't there."""
    serving = Serving(4, 20)
    ann = serving.asks(
        "tok-ann", "/page/glossary.md", "/page/ops/index.md", "/page/nothing.md", "HEAD /page/glossary.md", "/page/glossary.md",
        "PUT /page/glossary.md new", "DELETE /page/ops/index.md", "PATCH /page/glossary.md", "/backlinks/ops/", "/search?q=Phishing")
    bob = serving.asks("tok-bob", "/page/glossary.md", "/page/holidays.md", "/page/ops/../holidays.md", "/page/glossary.md?x=1",
                       "/backlinks/ops/", "/search?q=Phishing")
    owner = serving.asks("tok-owner", "/page/glossary.md", "/page/nothing.md", "HEAD /page/nothing.md", "/nothing", "/broken")
    nobody = serving.asks("tok-x", "/page/glossary.md", "/page/nothing.md")
    pages = "".join(f"{path}.md\t1\n" for path in ("glossary", "index", "on-call", "ops/certificates", "ops/database"))
    # one of the ten pages that Ann sees has the word, once; and one of Bob's nine
    compare("tok-ann", ann, [
        glossary(MISSING), NOT_FOUND, NOT_FOUND, head_of(glossary(MISSING)), glossary(MISSING), FORBIDDEN, FORBIDDEN,
        plain("405 Method Not Allowed", "Allow: GET, HEAD, PUT, DELETE"), NOT_FOUND, text("10\tsecurity.md\n")])
    compare("tok-bob", bob, [glossary(SHOWN), NOT_FOUND, NOT_FOUND, glossary(SHOWN), text(pages), text("9\tsecurity.md\n")])
    compare("tok-owner", owner, [glossary(SHOWN), NOT_FOUND, head_of(NOT_FOUND), NOT_FOUND, text(REPORT)])
    compare("tok-x", nobody, [UNAUTHORIZED, UNAUTHORIZED])
    serving.finish()


def edits():
    """The owner's edits, which the next run knows nothing of."""
    serving = Serving(1, 30)
    owner = serving.asks(
        "tok-owner", "/page/notes.md", "PUT /page/notes.md?groups=staff # Notes\n\nSee [runbooks](ops/), [nothing](no.md).\n",
        "/page/notes.md", "PUT /page/notes.md A <b>.\n", "/page/notes.md", "PUT /page/notes.md?groups=A x", "DELETE /page/notes.md",
        "/page/notes.md", "DELETE /page/notes.md", "DELETE /page/ops/index.md", "/page/glossary.md")
    notes = f'<!DOCTYPE html>\n<title>Notes</title>\n<h1 id="notes">Notes</h1>\n<p>See {SHOWN}runbooks</a>, {MISSING}nothing</a>.</p>\n'
    compare("tok-owner", owner, [
        NOT_FOUND, plain("201 Created"), html(notes), NO_CONTENT, html("<!DOCTYPE html>\n<title>notes.md</title>\n<p>A <b>.</p>\n"),
        plain("400 Bad Request"), NO_CONTENT, NOT_FOUND, NOT_FOUND, NO_CONTENT, glossary(MISSING)])
    serving.finish()
    serving = Serving(1, 10)
    compare("tok-owner", serving.asks("tok-owner", "/page/notes.md", "/page/glossary.md"), [NOT_FOUND, glossary(SHOWN)])
    serving.finish()


def report():
    """The report of the command."""
    done = subprocess.run([scene.program, "check", CONFIG, "tok-owner"], stdin=subprocess.DEVNULL, stdout=subprocess.PIPE)
    scene.check("the report's status", done.returncode != 0, done.returncode)
    scene.check("the report", done.stdout == REPORT.encode(), done.stdout)


def main():
    readers()
    edits()
    report()


scene.run(main)
