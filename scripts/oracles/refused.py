"""Refused growths on random sites, by the model of listings.py. A page that is new is held in each index with each growth refused in
turn, alone and with all that follow; then all that the owner is told of the site is as it was: contents, report, the pages with links
to each page that the new one links to, and the pages that have each word of it. Then the site answers with the new page, and each
question is asked with each of its growths refused.

    python3 scripts/oracles/refused.py

writes its lines into stdin and stdout of crates/trial_pages, and its scenes into scripts/site/refusals/trial_pages.lines.
"""

import os

from listings import Cut, classify, is_path
from sites import GROUPS, PATHS, WORDS, put, random_edits, random_text
from trial_lines import Dice, debug, given, several, write
from words import words_of

LINES = os.path.join(os.path.dirname(os.path.abspath(__file__)), "..", "site", "refusals", "trial_pages.lines")
MARK = "# refuse each"


def told_of(cut, path, page):
    """What tells of a page: all lists, the sources of what it links to and of itself, and the pages with its words."""
    links = [classify(path, dest) for dest in page.links]
    targets = sorted({path} | {link[1] for link in links if link[0] == "page"}, key=str.encode)
    calls = [("contents owner", debug(cut.contents())), ("report owner", debug(cut.report()))]
    calls += [(f"backlinks owner | {target}", debug(cut.backlinks(target))) for target in targets if safe(target)]
    return calls + [(f"search owner | {word}", debug(cut.search(word))) for word, _ in words_of(page.texts)]


def safe(target):
    """Whether a line can have it: ` ; ` and ` | ` divide calls and texts."""
    return ";" not in target and "|" not in target


def questions(dice, pages, reader):
    """Questions whose growths are refused, each with its answer."""
    cut, name = Cut(pages, reader), "owner" if reader is None else ",".join(sorted(reader))
    calls = [(f"contents {name}", cut.contents()), (f"report {name}", cut.report())]
    path = dice.pick([path for path in cut.pages if cut.backlinks(path)] or list(cut.pages) or [""])
    if path:
        calls += [(f"{call} {name} | {path}", cut.backlinks(path)) for call in ("backlinks", "backlinks_under")]
    query = " ".join(dice.pick(WORDS) for _ in range(dice.pick([1, 2, 3])))
    return calls + [(f"{call} {name} | {query}", cut.search(query)) for call in ("search", "search_among")]


def scene(name, lines):
    return f"\n## scene: {name}\nsites\n" + "".join(line + "\n" for line in lines)


def marked(calls):
    return [line for call in calls for line in (MARK, call)]


def write_scenes(scenes):
    """Sets the scenes behind the line that names this oracle: they are the last."""
    first = "# From scripts/oracles/refused.py: sites, in each of which a page is held and each question asked.\n"
    with open(LINES, encoding="utf-8", newline="\n") as f:
        before, _ = f.read().split(first)
    with open(LINES, "w", encoding="utf-8", newline="\n") as f:
        f.write(before + first + "".join(scenes))


def main():
    dice, sites, scenes = Dice(6), 0, []
    lines = ["# 12 sites, each with a page that is held in one index and then in the other, and then asked."]
    while sites < 12:
        pages, edits = random_edits(dice)
        path = dice.pick(PATHS)
        if path in pages or not 3 <= len(pages) <= 12:
            continue
        sites += 1
        call, answer = put(pages, path, {dice.pick(GROUPS)}, random_text(dice, path, pages) + f"\n#2 own Own{sites} words\n@{path}")
        assert is_path(path) and call.startswith("put ")
        made, told = several(edits), several(told_of(Cut(pages, None), path, pages[path]))
        store, held = given("store" + call[3:]), [f"add_links {path}", f"add_words {path}"]
        asked = [(call, debug(answer)) for reader in (None, {dice.pick(GROUPS)}) for call, answer in questions(dice, pages, reader)]
        lines += [made, (store, answer), *((it, "()") for it in held), told, *asked]
        twice = [line for it in held for line in (MARK, it, told[0], it, told[0])]
        scenes.append(scene(f"site {sites}, a page is held", [made[0], store, *twice]))
        scenes.append(scene(f"site {sites}, each question", [made[0], store, *held, *marked(call for call, _ in asked)]))
    write("refused.py", lines)
    write_scenes(scenes)


if __name__ == "__main__":
    main()
