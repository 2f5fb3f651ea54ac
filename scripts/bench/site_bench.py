"""Measures how the time of a site's calls grows: 200,000 look-ups by `get`, `goal` and `sees` among 100, 1,000 and 10,000 pages, 100,000
links that are decided and shown from pages of 10, 100, 1,000 and 10,000 links, and moves of one page to and fro among 100, 1,000 and
10,000 aliases, so many that 5,000,000 aliases are gone over. Prints the least processor time of five runs of each, for one call in the
case of look-ups and moves and for one page in that of links, and its ratio to the one before. Of ten times as much, a ratio of
10 is linear; that of look-ups is to be near 1. What a run takes to make its site is measured apart and taken off. Needs python3, and
in BENCH the program `bench`, which is built in a copy of the repository (scripts/gate/lay_out.sh).

    BENCH=PROGRAM python3 scripts/bench/site_bench.py
"""
import os, sys
sys.path.insert(1, os.path.dirname(__file__) + "/../lib")
from timing import bench, measured, taken

PAGES = (100, 1_000, 10_000)


def row(name, size, unit, took, before):
    ratio = "" if before is None else f"  {took / before:5.2f} times the one before"
    print(f"{name:24} {size:6} {unit:8} {took:10.2f} us{ratio}", flush=True)


def table(name, unit, sizes, task, bare, calls, wanted):
    """One row for each size. `bare` makes the site alone, `calls` are those of a run, and `wanted` is what it has to print."""
    before = None
    for size in sizes:
        took = taken([bench(), task, str(size)], [bench(), *map(str, bare(size))], wanted(size)) / calls(size)
        row(name, size, unit, took, before)
        before = took


def main():
    measured()
    table("three look-ups of a path", "pages", PAGES, "store", lambda n: ("puts", n), lambda n: 200_000, lambda n: 600_000)
    table("the links of a page", "links", (10, 100, 1_000, 10_000), "links", lambda n: ("puts", 1_000),
          lambda n: 100_000 // n, lambda n: 100_000 // n * 2 * sum(k % 2_000 < 1_000 for k in range(n)))
    table("a move", "aliases", PAGES, "moves", lambda n: ("moved", n),
          lambda n: 5_000_000 // n // 2 * 2, lambda n: 2 * n + 5_000_000 // n // 2 * 2)


main()
