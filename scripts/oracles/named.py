"""The calls that ask the postings by name, on 100 random sites of up to 30 pages: `LinkIndex::backlinks_under` and
`WordIndex::search_among` answer as `backlinks` and `search` do, by the model of listings.py.

    python3 scripts/oracles/named.py

writes its lines into stdin and stdout of crates/trial_pages. A page is asked for by `backlinks_under` only where the reader sees it, as
the call wants.
"""

from listings import Cut, is_path
from sites import GROUPS, PATHS, WORDS, random_edits
from trial_lines import Dice, debug, several, write


def asked(dice, pages, reader):
    """A search asks at most once whether a page is seen, which `asked` tells of the page that is watched."""
    cut, name = Cut(pages, reader), "owner" if reader is None else ",".join(sorted(reader))
    calls = [(f"watch {dice.pick(list(pages) or PATHS)}", "()")]
    linked = [path for path in cut.pages if cut.backlinks(path)]
    for paths in (list(cut.pages), linked, linked):
        if paths:
            path = dice.pick(paths)
            calls.append((f"backlinks_under {name} | {path}", debug(cut.backlinks(path))))
    for _ in range(3):
        query = " ".join(dice.pick(WORDS) for _ in range(dice.pick([1, 1, 2, 2, 3])))
        calls += [(f"search_among {name} | {query}", debug(cut.search(query))), ("asked", debug("at most once"))]
    return calls


def main():
    dice, lines = Dice(5), ["# 100 sites, each put and then asked for three readers."]
    for _ in range(100):
        pages, edits = random_edits(dice)
        assert all(is_path(path) for path in pages) and len(pages) < 100
        readers = [None, dice.some(GROUPS), {dice.pick(GROUPS)}]
        lines += [several(edits), several([call for reader in readers for call in asked(dice, pages, reader)])]
    write("named.py", lines)


if __name__ == "__main__":
    main()
