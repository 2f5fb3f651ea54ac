"""10,000 random looks and keeps on caches: an outside expectation for `doc_cache`, a cache in which the least recently used gives way.

The expectation is `collections.OrderedDict` with `move_to_end` and `popitem`, as Python's own documentation makes such a cache of it.
A text is the number of the keep that kept it, so that an old one under the same key is seen.

    python3 scripts/oracles/caches.py

writes its lines into stdin and stdout of crates/trial_pages. A key is a stamp and the goals of a page's links, `-` where one has none.
"""

from collections import OrderedDict

from trial_lines import Dice, debug, several, write

GOALS = ["", "-", "a.md", "b.md", "- -", "a.md -", "- a.md", "a.md a.md", "a.md b.md"]


def keep(cache, capacity, key, text):
    cache[key] = text
    cache.move_to_end(key)
    if len(cache) > capacity:
        cache.popitem(last=False)


def look(cache, key):
    if key not in cache:
        return "None"
    cache.move_to_end(key)
    return f"Some({debug(cache[key])})"


def random_calls(dice, capacity, keys, times):
    """Looks and keeps on a new cache, mostly under a few of the keys."""
    cache, calls = OrderedDict(), [(f"cache {capacity}", "Ok(())")]
    for number in range(times):
        key = f"{dice.below(keys)} {dice.pick(GOALS[: 1 + dice.below(len(GOALS))])}"
        if dice.chance(50):
            calls.append((f"look {key}", look(cache, key)))
        else:
            keep(cache, capacity, key, str(number))
            calls.append((f"keep {key} | {number}", "true"))
    return calls


def main():
    dice, lines = Dice(3), ["# 10,000 looks and keeps, 500 on a cache, whose capacity is the first number."]
    for capacity in (1, 1, 2, 2, 3, 4, 5, 8, 8, 13, 16, 16, 21, 32, 32, 64, 64, 100, 128, 4096):
        lines.append(several(random_calls(dice, capacity, 1 + capacity // 4, 500)))
    write("caches.py", lines)


if __name__ == "__main__":
    main()
