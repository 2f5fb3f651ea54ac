"""Measures the kept indexes of links and of words with 100, 1,000 and 10,000 pages of 4 kB, each with 250 different words, 20 links and 6
headings: the time to add a page and to let it go, searches of a rare and of a common word, backlinks of a page with 10 and with 1,000
sources, contents, report, and the resident memory of a page; then 100,000 edits on 1,000 pages, with the resident memory after each
tenth of them. Times are processor time, in microseconds, the least of three runs; where pages are added, without making them.

    python3 scripts/bench/index_bench.py PROGRAM

PROGRAM is `bench_index`, which scripts/gate/lay_out.sh makes a crate of a copy of the repository. It isn't proved, and is built from there
without its proof. Needs python3.
"""
import os, sys
sys.path.insert(1, os.path.dirname(__file__) + "/../lib")
from timing import least_lines, lines_of, measured, program_given


def main():
    program = program_given()
    measured()
    for pages in ("100", "1000", "10000"):
        for name, number in least_lines(3, [program, pages]):
            print(f"{pages:>6} pages  {name:52} {number:14.1f}", flush=True)
    for name, number in lines_of([program, "1000", "100000"]):
        print(f"  1000 pages  {name:52} {number:>14}", flush=True)


main()
