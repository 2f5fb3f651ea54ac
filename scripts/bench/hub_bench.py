"""Measures a hub over kept pages with 10, 1,000 and 10,000 pages of 4 kB of CommonMark, each with 20 links and 6 headings, and a cache of
4 filled pages: the time to put a page and to put it again, to move one, and of one step that answers a GET of a kept page, of a page
that isn't in the cache, of each list, and of searches of a word on 1 page in 1,000, on every page, and of two words; and the resident
memory, without the program's own. Times are processor time, in microseconds, the least of three runs (one with 10,000 pages where ONCE
is set). Then `scripts/bench/nginx_bench.py` measures nginx with a file of that size, to stand beside a step of a kept page: a step has no
sockets, so it stands beside the time in nginx's own code.

    python3 scripts/bench/hub_bench.py PROGRAM

PROGRAM is `bench_hub`, which scripts/gate/lay_out.sh makes a crate of a copy of the repository. It isn't proved, and is built from there
without its proof. Needs python3, and nginx for the last two lines. Takes two minutes on a quiet machine.
"""
import os, shutil, subprocess, sys
sys.path.insert(1, os.path.dirname(__file__) + "/../lib")
from timing import TOP, least_lines, measured, program_given


def main():
    program = program_given()
    measured()
    for pages in ("10", "1000", "10000"):
        for name, number in least_lines(1 if os.environ.get("ONCE") else 3, [program, pages]):
            print(f"{pages:>6} pages  {name:60} {number:14.1f}", flush=True)
    if not shutil.which(os.environ.get("NGINX", "nginx")):
        return print("no nginx to measure beside it", file=sys.stderr)
    return sys.exit(subprocess.run([sys.executable, TOP + "/scripts/bench/nginx_bench.py"]).returncode)


main()
