"""1,000 random pages that are held, copied and let go: an outside expectation for `doc_index`, by a plain dictionary.

A page is held under a path and a stamp with a number as its value, and has keys with counts. Where one is held already it isn't held
again (`false`). After each few calls it is asked which pages have a key.

    python3 scripts/oracles/keyed.py

writes its lines into stdin and stdout of crates/trial_pages.
"""

from trial_lines import Dice, several, write

PATHS = ["a.md", "b.md", "a/b.md", "a", "a-b.md", "ä.md", "z/z/z.md", "c.md"]
KEYS = ["", "kiwi", "kiw", "kiwis", "plum", "ä", "a.md"]


def in_order(pages):
    return sorted(pages.items(), key=lambda item: (item[0][0].encode(), item[0][1]))


def listed(pages):
    return ", ".join(f"{path} {stamp} {value}" for (path, stamp), (value, _) in in_order(pages))


def with_key(pages, key):
    return ", ".join(f"{path} {stamp} {keys[key]}" for (path, stamp), (_, keys) in in_order(pages) if key in keys)


def random_page(dice):
    return dice.pick(PATHS), dice.pick([0, 1, 2, 9, 2**64 - 1])


def random_call(dice, pages, number):
    page, kind = random_page(dice), dice.below(10)
    if kind < 4:
        keys = {dice.pick(KEYS): dice.pick([1, 2, 300, 2**64 - 1]) for _ in range(dice.below(5))}
        is_free = page not in pages
        if is_free:
            pages[page] = number, keys
        written = "".join(f" {key}:{count}" for key, count in keys.items())
        return f"enter {page[0]} {page[1]} {number}{written}", str(is_free).lower()
    if kind < 6:
        start, is_free = random_page(dice), page not in pages
        if is_free:
            pages[page] = number, pages[start][1] if start in pages else {}
        return f"copy {start[0]} {start[1]} {page[0]} {page[1]} {number}", str(is_free).lower()
    return f"drop {page[0]} {page[1]}", str(pages.pop(page, None) is not None).lower()


def main():
    dice, pages, lines = Dice(4), {}, ["# 1,000 edits on one index, each followed by the pages that have a key."]
    calls = [("index", "()")]
    for number in range(1000):
        calls.append(random_call(dice, pages, number))
        key = dice.pick(KEYS)
        calls.append((f"key {key}", with_key(pages, key)))
        if number % 50 == 49:
            lines.append(several(calls + [("pages", listed(pages))]))
            calls = []
    write("keyed.py", lines)


if __name__ == "__main__":
    main()
