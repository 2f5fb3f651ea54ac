"""Contents, report, backlinks and search on 300 random sites of up to 30 pages, by the model of listings.py, which is an outside
expectation for `doc_links`, `doc_words` and `doc_listings`.

    python3 scripts/oracles/sites.py

writes its lines into stdin and stdout of crates/trial_pages. A site is two lines: the one makes it anew, by puts, moves and removals,
and the other asks it for a few readers.
"""

import posixpath
from urllib.parse import quote

from listings import Cut, Page, is_path
from trial_lines import Dice, debug, several, write

PATHS = """index.md a.md b.md c.md notes notes.txt a+b.md q&a.md tom's.md 100.md x,y.md <z>.md guide/index.md guide/start.md guide/end.md
guide/a.md guide/deep/index.md guide/deep/x.md guide/deep/y.md api/index.md api/a.md api/größe.md api/größe/x.md x/y/z/w.md x/y/z/a.md
x/y/a.md x/a.md zz.md zz/index.md zz/a.md 日本.md a~b_c-d.md api/(b).md api/:b.md guide.md guide-2.md m/1.md m/2.md""".split() + [
    "api/b c.md", "two words/a b.md"]

WORDS = "kiwi Kiwi KIWI plum Plum fig Straße STRASSE strasse groß GROSS Ärger ärger x1 7 日本 don't re-use".split()
GROUPS = ["staff", "ops", "qa"]
ANCHORS = ["s", "s-1", "größe", "a/b", "top", "x_y", "50%"]
EXTERNAL = ["https://example.org/a.md", "mailto:a@b", "//h/a.md", "urn:x:y", "1:2", "ftp://h/#s"]
OWN = ["", "?q", "#s", "#none", "#", "?q=a/../b#top", ".", "./", "..", "/"]
NOWHERE = ["%5c.md", "a%2Fb.md", "%ff.md", "a%25b", "/%2e%2e/y.md", "%00", "a%3Fb", "/a%23b", "x/" * 17, "y" * 201, "%C2%85"]


def segment(dice, text):
    """A segment as a link writes it: what has to be encoded is, and sometimes more."""
    if dice.chance(10):
        return "".join(f"%{byte:02X}" for byte in text.encode())
    return quote(text, safe="" if dice.chance(20) else "~+&',()" + ("ößーüä日本" if dice.chance(50) else ""))


def reference(dice, source, target):
    """A relative or absolute reference from one page to another."""
    kind = dice.below(10)
    if kind < 2:
        way = "/" + target
    elif kind < 3:
        way = "../" * (source.count("/") + dice.between(0, 2)) + target
    else:
        way = posixpath.relpath("/" + target, posixpath.dirname("/" + source))
        way = ("./" if ":" in way.split("/")[0] else dice.pick(["", "", "", "./", "no/../"])) + way
    if way.endswith("index.md") and dice.chance(60) and way not in ("index.md", "/index.md"):
        way = way[: -len("index.md")]
    return "/".join(segment(dice, part) if part not in (".", "..") else part for part in way.split("/"))


def anchor(dice, page):
    """A fragment: mostly none or that of a heading of the page, if there is one."""
    kind = dice.below(10)
    if kind < 4:
        return ""
    if kind < 9 and page and page.headings:
        name = dice.pick(page.headings)[1]
        return "#" + (quote(name, safe="") if "%" in name or dice.chance(50) else name)
    return dice.pick(["#", "#none", "#%ff", "#a%2Fb", "#a/b", "#S", "#x%20y"])


def random_dest(dice, path, pages):
    kind = dice.below(20)
    if kind < 6:
        return dice.pick((EXTERNAL, NOWHERE, OWN)[kind // 2])
    target = dice.pick(list(pages)) if pages and kind < 17 else dice.pick(PATHS)
    query = dice.pick(["", "", "", "?", "?q=1&r=a/b"])
    return reference(dice, path, target) + query + anchor(dice, pages.get(target))


def random_text(dice, path, pages):
    lines = []
    for _ in range(dice.between(0, 6)):
        kind = dice.below(10)
        words = " ".join(dice.pick(WORDS) for _ in range(dice.between(1, 4)))
        if kind < 2:
            lines.append(f"#{dice.between(1, 6)} {dice.pick(ANCHORS)} {words}{dice.pick(['', ' & <b>'])}")
        elif kind < 7:
            lines.append("@" + random_dest(dice, path, pages))
        else:
            lines.append(words)
    return "\n".join(lines)


def put(pages, path, groups, text):
    old = pages.get(path)
    for page in pages.values():
        page.aliases.discard(path)
    pages[path] = Page(path, groups, text)
    pages[path].aliases = old.aliases if old else set()
    return f"put {path} | {','.join(sorted(groups))} | {text}", "Ok(Replaced)" if old else "Ok(Created)"


def move(pages, start, end):
    if start not in pages or end in pages:
        return f"move {start} | {end}", "Err(NoPage)" if start not in pages else "Err(Taken)"
    page = pages.pop(start)
    for other in (page, *pages.values()):
        other.aliases.discard(end)
    page.aliases.add(start)
    pages[end] = page
    return f"move {start} | {end}", "Ok(())"


def random_edits(dice):
    pages, calls = {}, [("new", "()")]
    for _ in range(dice.pick([1, 2, 3, 4, 5, 6, 8, 12, 20, 44])):
        path = dice.pick(PATHS)
        calls.append(put(pages, path, dice.some(GROUPS), random_text(dice, path, pages)))
        if dice.chance(15):
            calls.append(move(pages, dice.pick(list(pages)), dice.pick(PATHS)))
        if dice.chance(8):
            path = dice.pick([dice.pick(PATHS), *pages])
            calls.append((f"remove {path}", "true" if pages.pop(path, None) else "false"))
    return pages, calls


def asked(dice, pages, reader):
    """Whether a page is seen is asked at most once for a list, which `asked` tells of the page that is watched; for a search, by the call
    that the product serves by."""
    cut, name = Cut(pages, reader), "owner" if reader is None else ",".join(sorted(reader))
    once = ("asked", debug("at most once"))
    calls = [(f"watch {dice.pick(list(pages) or PATHS)}", "()")]
    calls += [(f"contents {name}", debug(cut.contents())), once, (f"report {name}", debug(cut.report())), once]
    targets = [path for path in pages if cut.backlinks(path)] or PATHS
    for path in (dice.pick(targets), dice.pick(targets), dice.pick(PATHS)):
        calls.append((f"backlinks {name} | {path}", debug(cut.backlinks(path))))
    for _ in range(2):
        query = " ".join(dice.pick(WORDS) for _ in range(dice.pick([1, 1, 2, 2, 3])))
        calls += [(f"search_among {name} | {query}", debug(cut.search(query))), once]
    return calls


def main():
    dice, lines = Dice(2), ["# 300 sites, each put and then asked for three readers."]
    for _ in range(300):
        pages, edits = random_edits(dice)
        assert all(is_path(path) for path in pages)
        readers = [None, dice.some(GROUPS), {dice.pick(GROUPS)}]
        lines += [several(edits), several([call for reader in readers for call in asked(dice, pages, reader)])]
    write("sites.py", lines)


if __name__ == "__main__":
    main()
