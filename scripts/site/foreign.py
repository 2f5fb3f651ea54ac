"""What another site tries with the browser of somebody who is signed in as an owner: its forms, its scripts, and its frames."""
import re
from looking import Elsewhere

TRIED = (("/move/prey.md?to=stolen.md", 405), ("/source/prey.md?groups=public", 405), ("/groups/prey.md?groups=public", 405),
         ("/page/prey.md?groups=public", 405), ("/edit/prey.md", 405), ("/preview/prey.md", 415))
KINDS = ("application/x-www-form-urlencoded", "multipart/form-data", "text/plain")


def forms(base):
    """A page with a form for each route and each kind of body."""
    rows = []
    for target, _ in TRIED:
        for kind in KINDS:
            rows.append(f'<form method="post" enctype="{kind}" action="{base}{target}">'
                        f'<input type="hidden" name="# Stolen" value="&#10;text"><button id="b{len(rows)}">b</button></form>')
    for target, name, value in (("/move/prey.md", "to", "stolen.md"), ("/groups/prey.md", "groups", "public"),
                                ("/preview/prey.md", "a", "b")):
        rows.append(f'<form action="{base}{target}"><input type="hidden" name="{name}" value="{value}">'
                    f'<button id="b{len(rows)}">b</button></form>')
    return "<!DOCTYPE html><title>Forms</title>" + "\n".join(rows)


def scripted(base):
    """A page whose script asks by all means, and tells in its title what came of each."""
    return """<!DOCTYPE html><title>waits</title><script>
addEventListener("load", async () => {
  const base = "%s", came = [];
  const tried = async (name, asks) => {
    try { const reply = await asks(); came.push(name + "=" + (reply.type || reply)); } catch (fault) { came.push(name + "=stopped"); }
  };
  const fields = {"Content-Type": "text/markdown"};
  for (const mode of ["cors", "no-cors"]) {
    const sent = (target, how) => fetch(base + target, {mode, credentials: "include", ...how});
    const put = {method: "PUT", body: "# Stolen\\n"};
    await tried(mode + " PUT /source", () => sent("/source/prey.md", put));
    await tried(mode + " PUT /page", () => sent("/page/prey.md", put));
    await tried(mode + " PUT /groups", () => sent("/groups/prey.md?groups=public", {method: "PUT"}));
    await tried(mode + " PUT /move", () => sent("/move/prey.md?to=stolen.md", {method: "PUT"}));
    await tried(mode + " DELETE /source", () => sent("/source/prey.md", {method: "DELETE"}));
    await tried(mode + " DELETE /page", () => sent("/page/prey.md", {method: "DELETE"}));
    await tried(mode + " GET /source", () => sent("/source/prey.md", {}));
    await tried(mode + " POST /preview", () => sent("/preview/prey.md", {method: "POST", body: "x", headers: fields}));
    await tried(mode + " POST /preview plain", () => sent("/preview/prey.md", {method: "POST", body: "x"}));
    await tried(mode + " POST /move", () => sent("/move/prey.md?to=stolen.md", {method: "POST"}));
  }
  await tried("XHR PUT", () => new Promise((done, fails) => {
    const request = new XMLHttpRequest();
    request.open("PUT", base + "/source/prey.md");
    request.withCredentials = true;
    request.onload = () => done("came");
    request.onerror = fails;
    request.send("# Stolen\\n");
  }));
  await tried("beacon", async () => navigator.sendBeacon(base + "/preview/prey.md", new Blob(["x"], {type: "text/markdown"})) + "");
  await tried("plain beacon", async () => navigator.sendBeacon(base + "/move/prey.md?to=stolen.md", "x") + "");
  await tried("script", () => new Promise((done, fails) => {
    const script = document.createElement("script");
    script.src = base + "/source/script.md";
    script.onload = () => done("ran");
    script.onerror = fails;
    document.body.append(script);
  }));
  document.title = came.join("; ");
});
</script><body>""" % base


# what a script learns, where it isn't stopped before anything is sent
LEARNT = {"no-cors GET /source": "opaque", "no-cors POST /preview": "opaque", "no-cors POST /preview plain": "opaque",
          "no-cors POST /move": "opaque", "beacon": "true", "plain beacon": "true"}


def check_other_site(look, owner, program, log, address):
    """Another site at this address, which the owner's browser visits while it is signed in."""
    program.puts("prey.md", "# Prey\n", "staff")
    program.puts("script.md", "document.body.innerHTML = 'RAN'\n", "staff")
    before, opened = program.all(), set(look.browser.opened)
    Elsewhere.pages.update({"/forms": forms(look.base), "/scripts": scripted(look.base),
                            "/own": "<!DOCTYPE html><h1>Its own</h1>",
                            "/frame": f'<!DOCTYPE html><title>Frames</title><iframe id="own" src="/own"></iframe>'
                                      f'<iframe id="form" src="{look.base}/edit/prey.md" width="900" height="600"></iframe>'})
    mark = log.mark()
    owner.go(address + "/forms")
    wanted = [(target, code) for target, code in TRIED for _ in KINDS]
    wanted += [("/move/prey.md?to=stolen.md", 405), ("/groups/prey.md?groups=public", 405), ("/preview/prey.md?a=b", 405)]
    for number, (target, code) in enumerate(wanted):
        owner.go(address + "/forms")
        owner.replies.clear()
        owner.click(owner.node(f"#b{number}"))
        found = owner.replies.get(look.base + target, {}).get("status")
        look.check(f"{address}: form {number} to {target}", found == code, (found, list(owner.replies)))
    look.picture(owner, "form-of-another-site")
    asked = log.since(mark)
    posts = [each for each in asked if each[0] == "POST"]
    codes = sorted(each[2] for each in posts)
    look.check(f"{address}: the forms were sent, and refused", codes == ["405"] * 5 * len(KINDS) + ["415"] * len(KINDS), codes)
    mark = log.mark()
    owner.go(address + "/scripts")
    owner.until(lambda: owner.title() != "waits", 20)
    learnt = dict(each.split("=") for each in owner.title().split("; ")) if "=" in owner.title() else {}
    look.check(f"{address}: what its scripts learn", learnt == {**dict.fromkeys(learnt, "stopped"), **LEARNT}, learnt)
    look.check(f"{address}: a source runs nowhere", "RAN" not in owner.source())
    owner.quietly(lambda: None, 1)
    asked = log.since(mark)
    look.check(f"{address}: what its scripts had sent", {each[0] for each in asked} <= {"OPTIONS", "GET", "POST"}, asked)
    sent = {each for each in asked if each[0] in ("OPTIONS", "POST")}
    look.check(f"{address}: and what it was answered", {each[2] for each in sent} <= {"401", "405", "415"}, sorted(sent))
    look.check(f"{address}: a preflight was refused", ("OPTIONS", "/source/prey.md", "405") in sent, sorted(sent))
    check_framed(look, owner, address)
    look.check(f"{address}: all pages are as they were", program.all() == before)
    look.check(f"{address}: no window was opened", look.browser.opened == opened)


def check_framed(look, owner, address):
    """The form isn't shown in a frame of another site."""
    owner.go(address + "/frame")
    owner.quietly(lambda: None, 1)
    look.picture(owner, "framed-by-" + re.sub(r"\W+", "-", address))
    look.check(f"{address}: its own page is shown in its frame", "<h1>Its own</h1>" in owner.source_of_frame("#own"))
    framed = owner.source_of_frame("#form")
    look.check(f"{address}: the form isn't", "<html" in framed and "id=\"edit\"" not in framed and "# Prey" not in framed, framed[:300])
