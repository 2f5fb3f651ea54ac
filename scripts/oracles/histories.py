"""10,000 random events on three hubs, which keep 1, 64 and 4,096 documents: each outcome is compared with the model of replies.py.

    python3 scripts/oracles/histories.py PROGRAM [SEED]

PROGRAM is `trial_site`. Puts, moves and removals of 24 paths with links and headings, changes of readers, and requests of each route and
method by readers who see more and less, by calls and in runs of up to 8 events. A failure names the first outcome that differs.
"""

import subprocess
import sys

from listings import encoded_path
from replies import Hub, asked, line_of, several, world
from trial_lines import Dice

PATHS = [folder + name for folder in ("", "x/", "x/y/", "ü b/") for name in ("a.md", "b.md", "c&d.md", "index.md", "n.md", "z")]
WORDS = "kiwi Kiwi plum fig Straße STRASSE x1".split()
TOKENS = ["o", "a", "b", "n", "x"]
GROUPS = ["staff", "ops", "ops,staff", "qa"]


def random_dest(dice, path):
    target = encoded_path(dice.pick(PATHS))
    anchor = dice.pick(["", "", "#kiwi", "#plum", "#fig-1", "#none"])
    other = ["#kiwi", "./", "../n.md", "?q", "%2Fa.md", "a%"]
    up = "../" * path.count("/")
    return dice.pick([up + target, up + target, up + target, "/" + target, dice.pick(other)]) + anchor * dice.below(2)


def random_text(dice, path):
    blocks = []
    for _ in range(dice.below(5)):
        if dice.chance(30):
            blocks.append("#" * dice.between(1, 6) + " " + dice.pick(WORDS + ["kiwi plum"]))
        else:
            spans = [dice.pick(WORDS) if dice.chance(60) else f"[{dice.pick(WORDS)}]({random_dest(dice, path)})"
                     for _ in range(dice.between(1, 5))]
            blocks.append(" ".join(spans))
    return "\n\n".join(blocks)


def random_request(dice):
    path = dice.pick(PATHS)
    name = dice.pick(["page", "page", "page", "backlinks", "contents", "broken", "search", "none"])
    target = {"page": f"/page/{encoded_path(path)}", "backlinks": f"/backlinks/{encoded_path(path)}",
              "search": f"/search?q={','.join(dice.pick(WORDS[:4]) for _ in range(dice.below(3)))}"}.get(name, f"/{name}")
    kind = dice.below(100)
    if kind < 80:
        return dice.pick(TOKENS), "HEAD" if kind < 10 else "GET", target
    if kind < 84:
        return dice.pick(TOKENS), "DELETE", target
    if kind < 88 or name != "page":
        return dice.pick(TOKENS), "PATCH", target
    return dice.pick(TOKENS), "PUT", f"{target}?groups={dice.pick(GROUPS)}", random_text(dice, path)


def random_event(dice):
    kind = dice.below(100)
    if kind < 12:
        path = dice.pick(PATHS)
        return [("put", path, dice.pick(GROUPS), random_text(dice, path))]
    if kind < 15:
        return [("remove", dice.pick(PATHS))]
    if kind < 21:
        return [("move", dice.pick(PATHS), dice.pick(PATHS))]
    if kind < 22:
        return [("reader", dice.pick(TOKENS[1:4]), dice.pick(["owner", *GROUPS, *GROUPS]))]
    if kind < 23:
        return [("unreader", dice.pick(TOKENS[1:4]))]
    return asked(1, random_request(dice))


def history(seed, capacity):
    """The lines of one hub, and their answers."""
    dice, hub, events = Dice(seed), Hub(), 1
    lines = [world(capacity), ("connect", hub.happen(("connect",)))]
    while events < 10_000:
        some = [event for _ in range(dice.pick([1, 1, 1, 4])) for event in random_event(dice)]
        events += len(some)
        if len(some) > 2:
            lines.append(several("run", hub, some))
        else:
            lines += [(line_of(event), hub.happen(event)) for event in some]
    return lines


def main():
    program, seed = sys.argv[1], int(sys.argv[2]) if len(sys.argv) > 2 else 1
    lines = ["# Random events.", *[line for capacity in (1, 64, 4096) for line in history(seed, capacity)]]
    pairs = [line if isinstance(line, tuple) else (line, line) for line in lines]
    given = "".join(call + "\n" for call, _ in pairs)
    out = subprocess.run([program], input=given.encode(), stdout=subprocess.PIPE, check=True).stdout.decode().splitlines()
    for (call, answer), said in zip(pairs, out):
        if answer != said:
            sys.exit(f"{call}\n  was to answer\n{answer}\n  and answered\n{said}")
    if len(out) != len(pairs):
        sys.exit(f"{len(out)} lines and not {len(pairs)}")
    print(f"the same: {len(out)} lines, {sum(answer.count('sent HTTP/1.1 200') for _, answer in pairs)} replies with 200")


if __name__ == "__main__":
    main()
