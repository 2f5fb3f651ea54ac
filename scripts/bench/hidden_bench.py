"""What the time of a list tells of hidden pages: two servers with the same 100 pages that a reader sees, one of them with 1,000 more that
they don't see, are asked in turns for a search of a word of each page, for the pages that link to one, and for the contents, 3,000 times
each. The difference of the medians and of the means of the processor's time from request to reply is printed, in microseconds.

    python3 scripts/bench/hidden_bench.py PROGRAM [HIDDEN [ASKED]]

Builds nothing. Needs python3. A minute. Nothing is promised of times; what this prints tells how much they tell.
"""
import os, statistics, sys, time
sys.path.insert(1, os.path.dirname(__file__) + "/../lib")
from scene import OWNER, Client, Scene, put
from timing import measured

scene = Scene(seconds=600, numbers=(1_000, 3_000), told=None)
SEEN = 100
TARGETS = ("/search?q=every", "/backlinks/seen/p0.md", "/contents")


def site(hidden):
    """A configuration with so many hidden pages, each like those that are seen: with headings, and a link to the first page."""
    name = f"with{hidden}"
    rows = "".join(f'[[folder]]\npath = "{it}"\nprefix = "{it[len(name) + 1:]}"\ngroups = ["{group}"]\n'
                   for it, group in ((f"{name}/seen", "all"), (f"{name}/hidden", "few")))
    put(f"{name}.toml", OWNER + '[[reader]]\ntoken = "ann"\ngroups = ["all"]\n' + rows)
    for folder, count in (("seen", SEEN), ("hidden", hidden)):
        os.makedirs(f"{name}/{folder}", exist_ok=True)
        for at in range(count):
            parts = "".join(f"## Part {part}\n\nA word of every page. Number {at * 7 + part}.\n\n" for part in range(6))
            put(f"{name}/{folder}/p{at}.md", f"# Page {at}\n\n[one](../seen/p0.md)\n\n{parts}")
    return scene.listen(f"{name}.toml", wait=60)


def cases():
    hidden, asked = scene.numbers
    measured()
    servers = [site(0), site(hidden)]
    clients = [Client(server.port, "ann") for server in servers]
    for target in TARGETS:
        times, replies = ([], []), [None, None]
        for at in range(2 * asked + 200):
            one = at % 2
            then = time.perf_counter()
            replies[one] = clients[one].ask(target)
            if at >= 200:
                times[one].append((time.perf_counter() - then) * 1e6)
        scene.check(f"{target}: one reply", replies[0] == replies[1] and replies[0][0] == 200, replies[0][0])
        medians, means = [statistics.median(it) for it in times], [statistics.fmean(sorted(it)[:asked * 9 // 10]) for it in times]
        print(f"{target:24} without {medians[0]:8.1f} us, with {hidden} hidden {medians[1]:8.1f}: {medians[1] - medians[0]:7.1f} more"
              f" (means of the lower nine tenths: {means[1] - means[0]:7.1f})", flush=True)
    for server in servers:
        scene.ends(server, "listen")


scene.run(cases)
